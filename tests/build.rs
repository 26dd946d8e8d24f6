// Links the static library `capi` from the folder named by FUSELINDA_LIB; and,
// if FUSELINDA_BEFORE names a folder, `before` from it: the library of another
// commit, whose symbols begin with before_ (tests/bench-beside makes it).
// Without FUSELINDA_LIB there is no module `ffi`: print_cases does without.
fn link(variable: &str, library: &str) -> bool {
    println!("cargo:rerun-if-env-changed={variable}");
    let Ok(folder) = std::env::var(variable) else { return false };
    println!("cargo:rerun-if-changed={folder}/lib{library}.a");
    println!("cargo:rustc-link-search=native={folder}");
    println!("cargo:rustc-link-lib=static={library}");
    true
}

fn main() {
    println!("cargo:rustc-check-cfg=cfg(library, before)");
    if link("FUSELINDA_LIB", "capi") {
        println!("cargo:rustc-cfg=library");
    }
    if link("FUSELINDA_BEFORE", "before") {
        println!("cargo:rustc-cfg=before");
    }
}
