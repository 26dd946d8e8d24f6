//! Turns a problem's text into its bytes, and its bytes into text.

mod bytes;
mod problem;
#[cfg(test)]
mod tests;
mod text;

use std::ffi::OsString;
use std::fs::File;
use std::io::{stderr, stdin, stdout, Read, Write};
use std::process::ExitCode;

fn usage() -> String {
    let forms = text::FORMS;
    format!(
        "usage: problem encode [TEXT] > PROBLEM\n       problem decode [PROBLEM] > TEXT\n\
         Reads standard input if no file is named. A line of text is one of\n{forms}\n\
         A line may be empty, and # starts a comment."
    )
}

/// Whether this is no text. All bytes of problems have one below 9: the 0 of no constraints, a kind,
/// or the set's number after a kind from 9 to 12.
fn not_text(input: &[u8]) -> bool {
    input.iter().any(|&byte| byte < 9)
}

fn encode(text: &[u8]) -> Result<Vec<u8>, String> {
    if not_text(text) {
        return Err("these are bytes, not text (UTF-8): target/bin/listing < FILE lists a problem's \
                    bytes, and target/tools/debug/problem decode FILE writes its text"
            .to_string());
    }
    Ok(bytes::write(&text::read(text)?))
}

fn decode(bytes: &[u8]) -> Result<Vec<u8>, String> {
    let refused = |(question, why): bytes::Refusal| {
        let hint = if bytes.is_empty() || not_text(bytes) {
            ""
        } else {
            "\nthis is text, not bytes: tools/list FILE lists a problem's text, and \
             target/tools/debug/problem encode FILE writes its bytes"
        };
        format!("question {question}: {why}{hint}")
    };
    Ok(bytes::read(bytes).map_err(refused)?.to_string().into_bytes())
}

fn read_input(file: Option<&OsString>) -> Result<Vec<u8>, String> {
    let mut input = Vec::new();
    let read = match file {
        Some(name) => File::open(name).and_then(|mut file| file.read_to_end(&mut input)),
        None => stdin().read_to_end(&mut input),
    };
    let name = file.map_or("standard input".into(), |name| name.to_string_lossy());
    read.map_err(|error| format!("cannot read {name}: {error}"))?;
    Ok(input)
}

fn run(arguments: &[OsString]) -> Result<(), String> {
    let (word, file) = match arguments {
        [word] => (word, None),
        [word, file] => (word, Some(file)),
        _ => return Err(usage()),
    };
    let turn = match word.to_str() {
        Some("encode") => encode,
        Some("decode") => decode,
        _ => return Err(usage()),
    };
    let output = turn(&read_input(file)?)?;
    let mut out = stdout();
    let written = out.write_all(&output).and_then(|()| out.flush());
    written.map_err(|error| format!("cannot write: {error}"))
}

fn main() -> ExitCode {
    let arguments: Vec<OsString> = std::env::args_os().skip(1).collect();
    match run(&arguments) {
        Ok(()) => ExitCode::SUCCESS,
        Err(why) => {
            let _ = writeln!(stderr(), "{why}");
            ExitCode::FAILURE
        }
    }
}
