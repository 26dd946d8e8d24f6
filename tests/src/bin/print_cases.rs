//! Prints the tables of examples: crates/CRATE/proofs/TABLE.antt from
//! crates/CRATE/rows/TABLE.rows. With `--check` it only says which differ.
//!
//! A file of rows is the table's text, and all its lines are copied but these:
//!
//! | line | |
//! |---|---|
//! | `? CALL` | a call; it becomes a row, with what the separate solver answers |
//! | `= ANSWER` | below a call: what must be answered, else nothing is printed |
//! | `all answered` | each call of the file has such an answer |
//! | `hexadecimal` | the file's bytes are written in hexadecimal |
//!
//! | call | its row has |
//! |---|---|
//! | `run BUDGET: PROBLEM` | answer, records and trace |
//! | `run BUDGET forms LENGTH trace LENGTH: PROBLEM` | the same |
//! | `check: PROBLEM / ASSIGNMENT` | the answer |
//! | `model: PROBLEM` | the record of its first form, and the model of that |
//! | `listing: PROBLEM` | the lines, and before the row their text |
//! | `heading: ANSWER` | the listing's first line, and before the row its text |
//! | `word: ANSWER` | the answer word |
//! | `program NAME: PROBLEM` | the answer to the listing program's call; it is the theorem NAME |
//!
//! A buffer has the LENGTH that is said: so many bytes, or `3T` for three terms
//! of a record, or `3T-1` for a byte less. If none is said, a record of the most
//! terms fits the form buffer, and a trace of the budget the trace buffer.
//!
//! Bytes are numbers, and letters for their codes; a comma is for the eye.
//! `5*0` is five times the byte 0, `5*(1 2)` five times these bytes, `words 7 5`
//! the five two-byte numbers from 7 on, `up 7 5` the five bytes from 7 on.

use separate::generate::Plan;
use separate::sheet::{Sheet, MAX_TERMS};
use separate::{answer, check, listing, solver};
use std::fs;
use std::path::{Path, PathBuf};
use std::process::exit;

// ---- bytes

/// Bytes as a row writes them.
enum Part {
    Bytes(Vec<u8>),
    Repeated(usize, u8),
    RepeatedParts(usize, Vec<Part>),
    Words(usize, usize),
    Up(usize, usize),
}

/// Where bytes are read from a row.
struct Reader<'a> {
    words: std::iter::Peekable<std::vec::IntoIter<&'a str>>,
    hexadecimal: bool,
}

impl<'a> Reader<'a> {
    fn byte(&self, word: &str) -> Result<u8, String> {
        let byte = match word.as_bytes() {
            [_, _] if self.hexadecimal => u8::from_str_radix(word, 16).ok(),
            [letter] if !self.hexadecimal && letter.is_ascii_alphabetic() => Some(*letter),
            _ if !self.hexadecimal => word.parse().ok(),
            _ => None,
        };
        byte.ok_or_else(|| format!("no byte: {word}"))
    }

    fn next(&mut self) -> Result<&'a str, String> {
        self.words.next().ok_or_else(|| "a row that breaks off".to_string())
    }

    fn number(&mut self) -> Result<usize, String> {
        number(self.next()?)
    }

    /// Parts up to the end, or to a closing parenthesis.
    fn parts(&mut self) -> Result<Vec<Part>, String> {
        let mut parts = Vec::new();
        while let Some(word) = self.words.next_if(|word| *word != ")") {
            if word == "words" {
                parts.push(Part::Words(self.number()?, self.number()?));
            } else if word == "up" {
                parts.push(Part::Up(self.number()?, self.number()?));
            } else if self.words.next_if_eq(&"*").is_some() {
                let times = number(word)?;
                parts.push(match self.next()? {
                    "(" => {
                        let inner = self.parts()?;
                        self.words.next_if_eq(&")").ok_or(") wanted")?;
                        Part::RepeatedParts(times, inner)
                    }
                    byte => Part::Repeated(times, self.byte(byte)?),
                });
            } else {
                let byte = self.byte(word)?;
                match parts.last_mut() {
                    Some(Part::Bytes(bytes)) => bytes.push(byte),
                    _ => parts.push(Part::Bytes(vec![byte])),
                }
            }
        }
        Ok(parts)
    }
}

fn number(word: &str) -> Result<usize, String> {
    word.parse().map_err(|_| format!("no number: {word}"))
}

fn read(text: &str, hexadecimal: bool) -> Result<Vec<Part>, String> {
    let mut spaced = text.replace(',', " ");
    for sign in ["(", ")", "*"] {
        spaced = spaced.replace(sign, &format!(" {sign} "));
    }
    let words: Vec<&str> = spaced.split_whitespace().collect();
    let mut reader = Reader { words: words.into_iter().peekable(), hexadecimal };
    let parts = reader.parts()?;
    match reader.words.next() {
        None => Ok(parts),
        Some(word) => Err(format!("{word} not wanted")),
    }
}

fn bytes(parts: &[Part]) -> Vec<u8> {
    let of_part = |part: &Part| match part {
        Part::Bytes(bytes) => bytes.clone(),
        Part::Repeated(times, byte) => vec![*byte; *times],
        Part::RepeatedParts(times, parts) => bytes(parts).repeat(*times),
        Part::Words(from, count) => (*from..from + count).flat_map(|n| (n as u16).to_le_bytes()).collect(),
        Part::Up(from, count) => (*from..from + count).map(|n| n as u8).collect(),
    };
    parts.iter().flat_map(of_part).collect()
}

// ---- how a table writes things

fn list(items: impl Iterator<Item = String>) -> String {
    items.map(|item| item + " ∷ ").collect::<String>() + "[]"
}

fn list_of_bytes(bytes: &[u8], hexadecimal: bool) -> String {
    list(bytes.iter().map(|byte| if hexadecimal { format!("0x{byte:02X}") } else { byte.to_string() }))
}

/// As a file of rows writes them.
fn plain_bytes(bytes: &[u8], hexadecimal: bool) -> String {
    let each = |byte: &u8| if hexadecimal { format!("{byte:02X}") } else { byte.to_string() };
    bytes.iter().map(each).collect::<Vec<_>>().join(" ")
}

/// As an argument of a function.
fn argument(text: &str) -> String {
    if text.contains(' ') { format!("({text})") } else { text.to_string() }
}

fn list_of_parts(parts: &[Part], hexadecimal: bool) -> String {
    let shown = |part: &Part| match part {
        Part::Bytes(bytes) => list_of_bytes(bytes, hexadecimal),
        Part::Repeated(times, byte) => format!("replicate {times} {byte}"),
        Part::RepeatedParts(times, parts) => {
            format!("repeated {times} {}", argument(&list_of_parts(parts, hexadecimal)))
        }
        Part::Words(from, count) => format!("words_from {from} {count}"),
        Part::Up(from, count) => format!("up_from {from} {count}"),
    };
    let joined = |part: &Part| match part {
        Part::Bytes(_) => argument(&shown(part)),
        _ => shown(part),
    };
    match parts {
        [] => "[]".to_string(),
        [part] => shown(part),
        _ => parts.iter().map(joined).collect::<Vec<_>>().join(" ++ "),
    }
}

fn integer(n: &i16) -> String {
    if *n < 0 { format!("negsuc {}", -1 - i32::from(*n)) } else { format!("pos {n}") }
}

/// An answer word in groups of four digits.
fn hexadecimal_word(word: u64) -> String {
    let digits = format!("{word:016X}");
    let groups = [&digits[..4], &digits[4..8], &digits[8..12], &digits[12..]];
    let zeros = groups[..3].iter().take_while(|group| **group == "0000").count();
    format!("0x{}", groups[zeros..].join("_"))
}

// ---- answers

const VERDICTS: [(&str, u64); 4] = [
    ("FORMS", answer::FORMS),
    ("FALSE", answer::FALSE),
    ("SPENT", answer::SPENT),
    ("NOROOM", answer::NO_ROOM),
];

fn of_run(word: u64) -> String {
    match VERDICTS.iter().find(|(_, verdict)| *verdict == answer::verdict(word)) {
        Some((name, _)) => format!("ended {name} {} {}", answer::steps(word), answer::forms(word)),
        None => format!("refusal {}", answer::number(word)),
    }
}

fn of_check(word: u64) -> String {
    match answer::verdict(word) {
        answer::HOLDS => "HOLDS".to_string(),
        answer::FAILS => format!("FAILS {}", answer::number(word)),
        _ => format!("declined {}", answer::number(word)),
    }
}

fn word_of(text: &str) -> Result<u64, String> {
    let words: Vec<&str> = text.split_whitespace().collect();
    Ok(match words[..] {
        ["refusal" | "declined", n] => answer::refused(number(n)? as u8),
        ["HOLDS"] => answer::HOLDS,
        ["FAILS", n] => answer::fails(number(n)?),
        ["ended", name, steps, forms] => {
            let verdict = VERDICTS.iter().find(|(of, _)| *of == name).ok_or_else(|| format!("no verdict: {name}"))?;
            answer::ended(verdict.1, number(steps)? as u64, number(forms)? as u64)
        }
        _ => return Err(format!("no answer: {text}")),
    })
}

/// A run of the separate solver: the answer word, the records and the trace.
fn run(problem: &[u8], budget: usize, forms: usize, trace: usize) -> Result<(u64, Vec<u8>, Vec<u8>), String> {
    let over = |lent: u8| {
        let (mut forms, mut trace) = (vec![lent; forms], vec![lent; trace]);
        let word = solver::run(problem, budget as u64, &mut forms, &mut trace);
        (word, forms, trace)
    };
    let ((word, forms, trace), (again, forms_again, trace_again)) = (over(0x00), over(0xFF));
    if word != again {
        return Err("the answer is another for other bytes in the buffers".to_string());
    }
    Ok((word, written(&forms, &forms_again)?, written(&trace, &trace_again)?))
}

/// What was written over the beginning of a buffer of 0x00 and of one of 0xFF.
fn written(over_zeros: &[u8], over_ones: &[u8]) -> Result<Vec<u8>, String> {
    let end = over_zeros.iter().zip(over_ones).take_while(|(a, b)| a == b).count();
    let untouched = over_zeros[end..].iter().all(|&a| a == 0x00) && over_ones[end..].iter().all(|&b| b == 0xFF);
    if untouched { Ok(over_zeros[..end].to_vec()) } else { Err("bytes written beyond others".to_string()) }
}

fn room_for(terms: usize) -> usize {
    terms * solver::TERM_BYTES
}

fn length(text: &str) -> Result<usize, String> {
    match text.split_once('T') {
        None => number(text),
        Some((terms, "")) => Ok(room_for(number(terms)?)),
        Some((terms, "-1")) => Ok(room_for(number(terms)?) - 1),
        _ => Err(format!("no length: {text}")),
    }
}

// ---- rows

struct Row {
    /// Lines that stand before the row as comments.
    comments: Vec<String>,
    text: String,
    /// The answer as a file of rows writes it.
    answer: String,
}

fn row(call: &str, hexadecimal: bool) -> Result<Row, String> {
    let (how, what) = call.split_once(':').ok_or("no : in the call")?;
    let how: Vec<&str> = how.split_whitespace().collect();
    let bytes = || read(what, hexadecimal);
    match how[..] {
        ["run", budget, ref lengths @ ..] => run_row(number(budget)?, lengths, &bytes()?, hexadecimal),
        ["check"] => {
            let (problem, assignment) = what.split_once('/').ok_or("no / in the call")?;
            Ok(check_row(&read(problem, hexadecimal)?, &read(assignment, hexadecimal)?, hexadecimal))
        }
        ["model"] => model_row(&bytes()?, hexadecimal),
        ["listing"] => Ok(listing_row(&bytes()?, hexadecimal)),
        ["heading"] => heading_row(what.trim()),
        ["word"] => word_row(what.trim()),
        ["program", name] => program_row(name, &bytes()?, hexadecimal),
        _ => Err(format!("no call: {call}")),
    }
}

fn run_row(budget: usize, lengths: &[&str], problem: &[Part], hexadecimal: bool) -> Result<Row, String> {
    let (mut room, mut trace) = (room_for(MAX_TERMS), 4 * budget);
    for pair in lengths.chunks(2) {
        match pair {
            ["forms", of] => room = length(of)?,
            ["trace", of] => trace = length(of)?,
            _ => return Err(format!("no length: {pair:?}")),
        }
    }
    let (word, records, steps) = run(&bytes(problem), budget, room, trace)?;
    let list = |bytes| argument(&list_of_bytes(bytes, hexadecimal));
    let text = format!(
        "run {} {budget} {room} {trace} {} {} {}",
        argument(&list_of_parts(problem, hexadecimal)),
        argument(&of_run(word)),
        list(&records),
        list(&steps)
    );
    let plain = |bytes| plain_bytes(bytes, hexadecimal);
    let answer = format!("{} / {} / {}", of_run(word), plain(&records), plain(&steps));
    Ok(Row { comments: Vec::new(), text, answer })
}

fn check_row(problem: &[Part], assignment: &[Part], hexadecimal: bool) -> Row {
    let answer = of_check(check::check(&bytes(problem), &bytes(assignment)));
    let list = |parts| argument(&list_of_parts(parts, hexadecimal));
    let text = format!("check {} {} {}", list(problem), list(assignment), argument(&answer));
    Row { comments: Vec::new(), text, answer }
}

fn model_row(problem: &[Part], hexadecimal: bool) -> Result<Row, String> {
    let problem_bytes = bytes(problem);
    let (word, records, _) = run(&problem_bytes, 1000, room_for(MAX_TERMS), 4000)?;
    let forms = answer::forms(word) as usize;
    let record = &records[..records.len().checked_div(forms).ok_or("no form")?];
    let sheet = Sheet::read(&problem_bytes).map_err(|number| format!("refused: {number}"))?;
    let model = Plan::worked(&sheet, record);
    let text = format!(
        "model {} {} (record {{ numbers = {}; sets = {} }})",
        argument(&list_of_parts(problem, hexadecimal)),
        argument(&list_of_bytes(record, hexadecimal)),
        list(model.values.iter().map(integer)),
        list(model.sets.iter().map(|set| argument(&list(set.iter().map(integer)))))
    );
    let answer = format!("{} / {}", plain_bytes(record, hexadecimal), listing::line(&sheet, &model));
    Ok(Row { comments: Vec::new(), text, answer })
}

fn listing_row(problem: &[Part], hexadecimal: bool) -> Row {
    let listing = listing::listing(&bytes(problem));
    let lines = || listing.split_inclusive(|&byte| byte == b'\n');
    let said = |line: &[u8]| match String::from_utf8_lossy(line).trim_end() {
        "" => "(an empty line)".to_string(),
        said => said.to_string(),
    };
    let comments: Vec<String> = lines().map(said).collect();
    let text = format!(
        "record {{ problem = {}; lines = {} }}",
        list_of_parts(problem, hexadecimal),
        list(lines().map(|line| argument(&list_of_bytes(line, false))))
    );
    Row { answer: comments.join(" / "), comments, text }
}

fn heading_row(of: &str) -> Result<Row, String> {
    let heading = listing::heading(word_of(of)?);
    let text = format!("({of}, {})", list_of_bytes(heading.as_bytes(), false));
    let said = heading.trim_end().to_string();
    Ok(Row { comments: vec![said.clone()], text, answer: said })
}

fn word_row(of: &str) -> Result<Row, String> {
    let answer = hexadecimal_word(word_of(of)?);
    Ok(Row { comments: Vec::new(), text: format!("({of}, {answer})"), answer })
}

fn program_row(name: &str, problem: &[Part], hexadecimal: bool) -> Result<Row, String> {
    let budget = listing::BUDGET as usize;
    let (word, ..) = run(&bytes(problem), budget, listing::ROOM, 4 * budget)?;
    let answer = of_run(word);
    let problem = argument(&list_of_parts(problem, hexadecimal));
    Ok(Row { comments: Vec::new(), text: format!("pub {name} : (program_call {problem}).answer ≡ {answer}"), answer })
}

// ---- files

/// One space between words, and no part after the last that is not empty.
fn normal(answer: &str) -> String {
    answer.split_whitespace().collect::<Vec<_>>().join(" ").trim_end_matches([' ', '/']).to_string()
}

/// The table that a file of rows gives, and how many rows it has.
fn table(name: &str, rows: &str) -> Result<(String, usize), String> {
    let mut printed = format!("-- Printed by tests/print-cases from rows/{name}.rows: do not edit.\n");
    let (mut hexadecimal, mut all_answered, mut first) = (false, false, false);
    let (mut count, mut given) = (0, 0);
    let mut answer = None;
    for (at, line) in rows.lines().enumerate() {
        let fault = |what: String| format!("line {}: {what}", at + 1);
        let text = line.trim_start();
        let indent = &line[..line.len() - text.len()];
        if text == "hexadecimal" {
            hexadecimal = true;
        } else if text == "all answered" {
            all_answered = true;
        } else if let Some(call) = text.strip_prefix("? ") {
            let row = row(call, hexadecimal).map_err(fault)?;
            for comment in &row.comments {
                printed += &format!("{indent}-- {comment}\n");
            }
            // A row that is not indented is no member of a list.
            let cons = if first || indent.is_empty() { "" } else { "∷ " };
            printed += &format!("{indent}{cons}{}\n", row.text);
            answer = Some(normal(&row.answer));
            first = false;
            count += 1;
        } else if let Some(wanted) = text.strip_prefix("= ") {
            let answer = answer.take().ok_or_else(|| fault("an answer to no call".to_string()))?;
            if answer != normal(wanted) {
                return Err(fault(format!("the solver answers {answer}")));
            }
            given += 1;
        } else {
            first |= text.ends_with(" =") && !text.starts_with("--");
            printed += &format!("{line}\n");
        }
    }
    if all_answered && given != count {
        return Err(format!("{given} answers are given to {count} calls"));
    }
    Ok((printed, count))
}

/// Prints the table of a crate's folder, or sees that it stands there as printed; answers its rows.
fn renew(folder: &Path, name: &str, only_check: bool) -> Result<usize, String> {
    let target = folder.join(format!("proofs/{name}.antt"));
    let rows = fs::read_to_string(folder.join(format!("rows/{name}.rows"))).map_err(|error| error.to_string())?;
    let (printed, count) = table(name, &rows)?;
    let there = fs::read_to_string(&target).unwrap_or_default();
    if printed == there {
        return Ok(count);
    }
    if only_check {
        let same = printed.lines().zip(there.lines()).take_while(|(a, b)| a == b).count();
        return Err(format!("the table differs from line {} on", same + 1));
    }
    fs::write(&target, printed).map_err(|error| error.to_string())?;
    println!("{}: printed anew", target.display());
    Ok(count)
}

/// What a folder holds, in order; nothing if there is no such folder.
fn entries(folder: &Path) -> Vec<PathBuf> {
    let Ok(entries) = fs::read_dir(folder) else { return Vec::new() };
    let mut found: Vec<PathBuf> = entries.map(|entry| entry.expect("an entry of a folder").path()).collect();
    found.sort();
    found
}

fn main() {
    let arguments: Vec<String> = std::env::args().skip(1).collect();
    let only_check = arguments == ["--check"];
    if !only_check && !arguments.is_empty() {
        eprintln!("usage: print_cases [--check], beside crates/");
        exit(2);
    }
    let (mut tables, mut rows, mut faults) = (0, 0, 0);
    for folder in entries(Path::new("crates")) {
        for file in entries(&folder.join("rows")) {
            let name = file.file_stem().expect("a file's name").to_string_lossy();
            match renew(&folder, &name, only_check) {
                Ok(count) => rows += count,
                Err(fault) => {
                    eprintln!("{}: {fault}", file.display());
                    faults += 1;
                }
            }
            tables += 1;
        }
    }
    if faults == 0 {
        println!("{tables} tables of {rows} rows: as printed");
    } else {
        println!("{faults} of {tables} tables are not as printed");
    }
    exit(i32::from(faults != 0 || tables == 0));
}
