//! Breaks copies of this package in each of the ways of a folder of faults, one
//! at a time, and sees that the tests notice.
//!
//! sensitivity PACKAGE FOLDER
//!
//! PACKAGE is this package; under FOLDER copies are made and built. A fault is
//! a file PACKAGE/faults/NAME.fault, of lines
//!
//!     # the mistake in words
//!     test: a unit test that must notice it as well as the differential
//!     file: a file of the package
//!     old: text that is there exactly once
//!     new: what stands there instead
//!
//! where several `old:` or `new:` lines in a row are one text of several lines,
//! and there may be several edits. A fault is noticed if the differential
//! reports a difference or a fault, and each named unit test fails in an
//! assertion; a fault that does not apply or does not compile is an error.

use std::fs;
use std::path::{Path, PathBuf};
use std::process::{exit, Command, Output, Stdio};
use std::sync::atomic::{AtomicUsize, Ordering};
use std::thread;
use std::time::{Duration, Instant};

/// Problems that the differential draws for each fault, and their seed.
const PROBLEMS: [&str; 3] = ["600", "5", "short"];
const LIMIT: Duration = Duration::from_secs(15);
const COPIED: [&str; 5] = ["Cargo.toml", "Cargo.lock", "build.rs", "PAPERS.md", "src"];
/// How the names of the faults begin that must be there, and how many of each.
const WANTED: [(&str, usize); 4] = [("trainee-", 5), ("rule-7-", 1), ("rule-12-", 1), ("rule-20-", 1)];

struct Edit {
    file: String,
    old: String,
    new: String,
}

#[derive(Default)]
struct Fault {
    name: String,
    mistake: String,
    tests: Vec<String>,
    edits: Vec<Edit>,
}

impl Fault {
    fn read(path: &Path) -> Result<Fault, String> {
        let name = path.file_stem().and_then(|stem| stem.to_str()).ok_or("its name")?.to_string();
        let text = fs::read_to_string(path).map_err(|error| error.to_string())?;
        let mut fault = Fault { name, ..Fault::default() };
        let mut last = "";
        for line in text.lines() {
            let (key, rest) = line.split_once(' ').unwrap_or((line, ""));
            let edit = fault.edits.last_mut();
            match (key, edit) {
                ("#", _) => fault.mistake += rest,
                ("test:", _) => fault.tests.push(rest.to_string()),
                ("file:", _) => {
                    fault.edits.push(Edit { file: rest.to_string(), old: String::new(), new: String::new() });
                }
                ("old:", Some(edit)) if last == "new:" => {
                    let file = edit.file.clone();
                    fault.edits.push(Edit { file, old: rest.to_string(), new: String::new() });
                }
                ("old:", Some(edit)) if last == "old:" => edit.old += &format!("\n{rest}"),
                ("old:", Some(edit)) => edit.old = rest.to_string(),
                ("new:", Some(edit)) if last == "new:" => edit.new += &format!("\n{rest}"),
                ("new:", Some(edit)) => edit.new = rest.to_string(),
                _ => return Err(format!("what is `{line}`?")),
            }
            last = key;
        }
        if fault.mistake.is_empty() || fault.edits.is_empty() {
            return Err("no mistake in words, or no edit".to_string());
        }
        Ok(fault)
    }

    /// Edits the copy.
    fn apply(&self, copy: &Path) -> Result<(), String> {
        for edit in &self.edits {
            let path = copy.join(&edit.file);
            let text = fs::read_to_string(&path).map_err(|error| format!("{}: {error}", edit.file))?;
            let times = text.matches(&edit.old).count();
            if edit.old.is_empty() || edit.old == edit.new || times != 1 {
                return Err(format!("does not apply: in {} there is {times} times `{}`", edit.file, edit.old));
            }
            fs::write(path, text.replace(&edit.old, &edit.new)).map_err(|error| error.to_string())?;
        }
        Ok(())
    }

    /// Puts the files back as they are in the package.
    fn restore(&self, package: &Path, copy: &Path) -> Result<(), String> {
        for edit in &self.edits {
            let text = fs::read(package.join(&edit.file)).map_err(|error| error.to_string())?;
            fs::write(copy.join(&edit.file), text).map_err(|error| error.to_string())?;
        }
        Ok(())
    }
}

fn copy_all(from: &Path, to: &Path) -> std::io::Result<()> {
    if !from.is_dir() {
        return fs::copy(from, to).map(|_| ());
    }
    fs::create_dir_all(to)?;
    for entry in fs::read_dir(from)? {
        let entry = entry?;
        copy_all(&entry.path(), &to.join(entry.file_name()))?;
    }
    Ok(())
}

struct Work {
    copy: PathBuf,
    built: PathBuf,
    /// The optimisation level: 0 is built sooner, 1 runs faster.
    level: &'static str,
}

impl Work {
    fn cargo(&self, arguments: &[&str]) -> Result<Output, String> {
        Command::new("cargo")
            .args(arguments)
            .current_dir(&self.copy)
            .env("CARGO_TARGET_DIR", &self.built)
            .env("CARGO_BUILD_JOBS", "1")
            .env("CARGO_PROFILE_DEV_OPT_LEVEL", self.level)
            .env("CARGO_PROFILE_DEV_DEBUG", "0")
            .env("CARGO_PROFILE_DEV_DEBUG_ASSERTIONS", "false")
            .env("CARGO_PROFILE_DEV_OVERFLOW_CHECKS", "false")
            .env("CARGO_PROFILE_DEV_INCREMENTAL", "true")
            .output()
            .map_err(|error| error.to_string())
    }

    fn build(&self, arguments: &[&str]) -> Result<(), String> {
        let output = self.cargo(arguments)?;
        if output.status.success() {
            return Ok(());
        }
        let text = String::from_utf8_lossy(&output.stderr).into_owned();
        let error = text.lines().find(|line| line.starts_with("error")).unwrap_or("cargo fails");
        Err(format!("does not compile: {error}"))
    }

    /// What the differential reports, if it reports something.
    fn differential(&self) -> Result<Option<String>, String> {
        self.build(&["build", "--offline", "--quiet", "--bin", "differential"])?;
        let path = self.built.join("debug/differential");
        let outputs = [self.built.join("stdout"), self.built.join("stderr")];
        let open = |at: usize| fs::File::create(&outputs[at]).map(Stdio::from).map_err(|error| error.to_string());
        let mut child = Command::new(path)
            .args(PROBLEMS)
            .stdout(open(0)?)
            .stderr(open(1)?)
            .spawn()
            .map_err(|error| error.to_string())?;
        let start = Instant::now();
        let status = loop {
            if let Some(status) = child.try_wait().map_err(|error| error.to_string())? {
                break status;
            }
            if start.elapsed() > LIMIT {
                let _ = child.kill();
                let _ = child.wait();
                return Err(format!("the differential does not end in {} seconds", LIMIT.as_secs()));
            }
            thread::sleep(Duration::from_millis(5));
        };
        let text = |at: usize| fs::read(&outputs[at]).map(|bytes| String::from_utf8_lossy(&bytes).into_owned());
        let (said, complained) = (text(0).unwrap_or_default(), text(1).unwrap_or_default());
        if status.success() && said.ends_with("no difference\n") {
            return Ok(None);
        }
        let report = said.lines().find(|line| line.starts_with("DIFFERENCE") || line.starts_with("FAULT"));
        if let (Some(1), Some(line)) = (status.code(), report) {
            let end = line.char_indices().map(|(at, _)| at).nth(90).unwrap_or(line.len());
            return Ok(Some(line[..end].to_string()));
        }
        // The assertion of the solver about the length of paths.
        if let Some(line) = complained.lines().find(|line| line.starts_with("demand 3: ")) {
            return Ok(Some(line.to_string()));
        }
        Err(format!("the differential breaks off: {status}: {}", complained.lines().take(3).collect::<Vec<_>>().join(" ")))
    }

    /// Whether unit tests pass: all, or one.
    fn unit(&self, test: Option<&str>) -> Result<Option<String>, String> {
        self.build(&["test", "--offline", "--quiet", "--lib", "--no-run"])?;
        let mut arguments = vec!["test", "--offline", "--lib", "--"];
        arguments.extend(test.map_or(vec![], |name| vec!["--exact", name]));
        let output = self.cargo(&arguments)?;
        let text = String::from_utf8_lossy(&output.stdout).into_owned();
        let some = !text.contains("running 0 tests");
        if output.status.success() && some {
            return Ok(None);
        }
        let failed = test.is_none_or(|name| text.contains(&format!("test {name} ... FAILED")));
        match text.lines().find(|line| line.contains("assertion ") && line.contains("failed")) {
            Some(line) if failed => Ok(Some(line.to_string())),
            _ => Err(format!("unit test {}: {}", test.unwrap_or(""), text.lines().last().unwrap_or(""))),
        }
    }
}

fn try_fault(fault: &Fault, package: &Path, work: &Work) -> Result<String, String> {
    fault.apply(&work.copy)?;
    let mut noticed = match work.differential()? {
        Some(line) => format!("differential ({line})"),
        None => return Err("not noticed by the differential".to_string()),
    };
    for test in &fault.tests {
        match work.unit(Some(test))? {
            Some(_) => noticed += &format!(", {test}"),
            None => return Err(format!("not noticed by {test}")),
        }
    }
    fault.restore(package, &work.copy)?;
    Ok(noticed)
}

fn fail(what: String) -> ! {
    println!("{what}");
    exit(1)
}

fn main() {
    let arguments: Vec<PathBuf> = std::env::args_os().skip(1).map(PathBuf::from).collect();
    let [package, folder] = &arguments[..] else { fail("sensitivity PACKAGE FOLDER".to_string()) };
    let start = Instant::now();

    let mut paths: Vec<PathBuf> = fs::read_dir(package.join("faults"))
        .unwrap_or_else(|error| fail(format!("faults: {error}")))
        .map(|entry| entry.unwrap_or_else(|error| fail(format!("faults: {error}"))).path())
        .collect();
    paths.sort();
    let faults: Vec<Fault> = paths
        .iter()
        .map(|path| Fault::read(path).unwrap_or_else(|error| fail(format!("{}: {error}", path.display()))))
        .collect();
    for (begin, count) in WANTED {
        if faults.iter().filter(|fault| fault.name.starts_with(begin)).count() < count {
            fail(format!("there are fewer than {count} faults {begin}"));
        }
    }

    // Two copies, as there are two cores.
    let copies: Vec<PathBuf> = (0..2).map(|n| folder.join(format!("package-{n}"))).collect();
    for copy in &copies {
        let made = || -> std::io::Result<()> {
            if copy.exists() {
                fs::remove_dir_all(copy)?;
            }
            fs::create_dir_all(copy)?;
            COPIED.iter().try_for_each(|part| copy_all(&package.join(part), &copy.join(part)))
        };
        made().unwrap_or_else(|error| fail(format!("the copy: {error}")));
    }
    let work = |n: usize, folder_name: &str, level: &'static str| Work {
        copy: copies[n].clone(),
        built: folder.join(format!("{folder_name}-{n}")),
        level,
    };

    thread::scope(|scope| {
        let tests = scope.spawn(|| work(1, "unbroken", "1").unit(None));
        match work(0, "unbroken", "1").differential() {
            Ok(None) => {}
            Ok(Some(line)) | Err(line) => fail(format!("unbroken: differential: {line}")),
        }
        match tests.join().unwrap_or(Err("the thread ended".to_string())) {
            Ok(None) => {}
            Ok(Some(line)) | Err(line) => fail(format!("unbroken: unit tests: {line}")),
        }
    });
    println!("unbroken: no difference, unit tests pass");

    let (next, wrong) = (AtomicUsize::new(0), AtomicUsize::new(0));
    let try_faults = |n: usize| {
        let work = work(n, "broken", "0");
        while let Some(fault) = faults.get(next.fetch_add(1, Ordering::SeqCst)) {
            match try_fault(fault, package, &work) {
                Ok(noticed) => println!("{}: {noticed}", fault.name),
                Err(error) => {
                    wrong.fetch_add(1, Ordering::SeqCst);
                    println!("{}: WRONG: {error} (# {})", fault.name, fault.mistake);
                    if let Err(error) = fault.restore(package, &work.copy) {
                        fail(format!("the copy: {error}"));
                    }
                }
            }
        }
    };
    thread::scope(|scope| {
        scope.spawn(|| try_faults(1));
        try_faults(0);
    });
    let wrong = wrong.into_inner();
    let seconds = start.elapsed().as_secs();
    if wrong > 0 {
        fail(format!("{wrong} of {} faults not noticed or not tried ({seconds} seconds)", faults.len()));
    }
    println!("{} faults, each noticed ({seconds} seconds)", faults.len());
}
