//! Compares what the listing program writes with the text of document 01, as
//! written separately in listing.rs.
//!
//! listings PROGRAM        on listings written by hand and on seeded problems
//! listings PROGRAM DIR    on each DIR/*.problem, with DIR/*.listing

use separate::answer;
use separate::generate::{self, Draft, Drawn, Rng};
use separate::listing::{listing, MOST_READ, WRITTEN};
use separate::sheet::MAX_BYTES;
use separate::solver;
use std::collections::BTreeMap;
use std::fs::{self, File};
use std::io::{ErrorKind, Read, Seek, SeekFrom, Write};
use std::path::Path;
use std::process::{exit, Child, ChildStdin, Command, ExitStatus, Stdio};
use std::sync::mpsc::{channel, Receiver};
use std::thread;
use std::time::{Duration, Instant};

/// How long the program may take for one input.
const LIMIT: Duration = Duration::from_secs(10);

/// How the input reaches the program.
#[derive(Clone, Copy)]
enum Feed {
    /// From a file.
    File,
    /// Through a pipe, at once.
    Whole,
    /// Through a pipe, this many bytes at a time, with a pause before each
    /// piece and before the end.
    Pieces(usize, Duration),
    /// Through a pipe that is open until the program has ended.
    Open,
}

struct Input {
    name: String,
    bytes: Vec<u8>,
    /// The whole text, where it is written by hand.
    text: Option<&'static str>,
    /// What the first line is to start with, where that is written by hand.
    start: &'static str,
    feed: Feed,
    /// The output is read in small parts, after a pause.
    slowly: bool,
}

fn input(name: impl Into<String>, bytes: &[u8], feed: Feed) -> Input {
    Input { name: name.into(), bytes: bytes.to_vec(), text: None, start: "", feed, slowly: false }
}

fn pause(milliseconds: u64) -> Duration {
    Duration::from_millis(milliseconds)
}

struct Ran {
    status: ExitStatus,
    output: Vec<u8>,
    errors: Vec<u8>,
    /// How many bytes of a file were read.
    read: Option<u64>,
    /// The program ended before all its input came.
    early: bool,
}

/// Writes the input; answers whether the program no longer read it.
fn feed(mut to: ChildStdin, bytes: &[u8], feed: Feed, ended: Receiver<()>) -> bool {
    let piece = if let Feed::Pieces(size, _) = feed { size } else { bytes.len().max(1) };
    for part in bytes.chunks(piece) {
        if let Feed::Pieces(_, wait) = feed {
            thread::sleep(wait);
        }
        match to.write_all(part) {
            Err(fault) if fault.kind() == ErrorKind::BrokenPipe => return true,
            other => other.expect("the input can be written"),
        }
    }
    match feed {
        Feed::Pieces(_, wait) => thread::sleep(wait),
        Feed::Open => drop(ended.recv()),
        Feed::File | Feed::Whole => {}
    }
    false
}

fn read_all(mut from: impl Read, slowly: bool) -> Vec<u8> {
    let mut all = Vec::new();
    if slowly {
        thread::sleep(pause(150));
        let mut part = [0; 1500];
        loop {
            match from.read(&mut part).expect("the output can be read") {
                0 => break,
                count => all.extend(&part[..count]),
            }
            thread::sleep(Duration::from_micros(300));
        }
    }
    from.read_to_end(&mut all).expect("the output can be read");
    all
}

fn wait(child: &mut Child) -> Option<ExitStatus> {
    let start = Instant::now();
    loop {
        if let Some(status) = child.try_wait().expect("the program can be waited for") {
            return Some(status);
        }
        if start.elapsed() > LIMIT {
            child.kill().expect("the program can be ended");
            child.wait().expect("the program can be waited for");
            return None;
        }
        thread::sleep(Duration::from_micros(200));
    }
}

fn run(program: &Path, given: &Input) -> Result<Ran, String> {
    let mut file = None;
    let from = if let Feed::File = given.feed {
        let path = std::env::temp_dir().join(format!("listings-{}", std::process::id()));
        fs::write(&path, &given.bytes).expect("a file can be written");
        let opened = File::open(&path).expect("a file can be read");
        fs::remove_file(&path).expect("a file can be removed");
        let shared = opened.try_clone().expect("a file can be shared");
        file = Some(opened);
        Stdio::from(shared)
    } else {
        Stdio::piped()
    };
    let mut child = Command::new(program)
        .stdin(from)
        .stdout(Stdio::piped())
        .stderr(Stdio::piped())
        .spawn()
        .map_err(|fault| format!("the program cannot be run: {fault}"))?;
    let (tell, ended) = channel();
    let writer = child.stdin.take().map(|to| {
        let (bytes, how) = (given.bytes.clone(), given.feed);
        thread::spawn(move || feed(to, &bytes, how, ended))
    });
    let output = child.stdout.take().expect("a pipe");
    let errors = child.stderr.take().expect("a pipe");
    let slowly = given.slowly;
    let output = thread::spawn(move || read_all(output, slowly));
    let errors = thread::spawn(move || read_all(errors, false));
    let status = wait(&mut child);
    drop(tell);
    let early = writer.is_some_and(|writer| writer.join().expect("the writer ends"));
    let output = output.join().expect("the reader ends");
    let errors = errors.join().expect("the reader ends");
    let Some(status) = status else {
        return Err(format!("the program did not end within {} seconds", LIMIT.as_secs()));
    };
    let read = file.map(|mut file| file.seek(SeekFrom::Current(0)).expect("a file has a place"));
    Ok(Ran { status, output, errors, read, early })
}

/// A text with its line ends made visible; of a long one, the lines about `at`.
fn show(text: &[u8], at: usize) {
    let mut place = 0;
    for line in text.split_inclusive(|&byte| byte == b'\n') {
        let end = place + line.len();
        if text.len() <= 5000 || end + 1500 > at && place < at + 1500 {
            println!("  {}", line.escape_ascii());
        }
        place = end;
    }
    println!("  ({} bytes)", text.len());
}

fn fail(given: &Input, what: &str) -> ! {
    println!("FAULT: {}: {what}", given.name);
    let shown = &given.bytes[..given.bytes.len().min(MOST_READ)];
    let hex: Vec<String> = shown.iter().map(|byte| format!("{byte:02X}")).collect();
    println!("input of {} bytes: {}", given.bytes.len(), hex.join(" "));
    exit(1)
}

/// Runs the program; ends this one if the program errs in anything.
fn compare(program: &Path, given: &Input, wanted: &[u8]) {
    let ran = run(program, given).unwrap_or_else(|what| fail(given, &what));
    if ran.output != wanted {
        let alike = ran.output.iter().zip(wanted).take_while(|(a, b)| a == b).count();
        println!("DIFFERENCE at byte {alike}");
        println!("wanted:");
        show(wanted, alike);
        println!("written:");
        show(&ran.output, alike);
        fail(given, "the texts differ");
    }
    if ran.status.code() != Some(0) {
        fail(given, &format!("{}, not exit status 0", ran.status));
    }
    if !ran.errors.is_empty() {
        println!("standard error: {}", ran.errors.escape_ascii());
        fail(given, "something is written to standard error");
    }
    if ran.early && given.bytes.len() <= MOST_READ {
        fail(given, "the program ended before its input did");
    }
    let most = given.bytes.len().min(MOST_READ) as u64;
    if let Some(read) = ran.read.filter(|&read| read != most) {
        fail(given, &format!("{read} bytes of a file were read, not {most}"));
    }
}

/// Names that stand on any of the constants `low..low + places`; constants
/// also in one of B and D, one of E and F and one of G and H, as far as `unions`.
fn many(low: i16, places: u8, names: u8, unions: u8) -> Vec<u8> {
    let mut draft = Draft {
        constants: (0..i16::from(places)).map(|n| low + n).collect(),
        names: (0..names).map(|name| b'p' + name).collect(),
        sets: (b'A'..=b'H').collect(),
        lines: Vec::new(),
    };
    for (union, [a, b]) in [[1, 3], [4, 5], [6, 7]].into_iter().enumerate() {
        if union < unions.into() {
            draft.lines.push(vec![7, a, b, 2]);
        }
    }
    // The widest splits go last, so that few steps give many forms.
    draft.lines.push(vec![12, 0, 0, places - 1]);
    if unions > 0 {
        draft.lines.extend((0..places).map(|t| vec![1, t, 2]));
    }
    draft.lines.extend((0..names).map(|name| vec![1, places + name, 0]));
    draft.bytes()
}

/// `x` is one of `a` constants and `y` one of `b` others; 64 terms, so 170
/// records fit.
fn two_names(a: u8, b: u8) -> Vec<u8> {
    let draft = Draft {
        constants: (0..62).map(|n| n - 31).collect(),
        names: b"xy".to_vec(),
        sets: b"AB".to_vec(),
        lines: vec![vec![12, 0, 0, a - 1], vec![12, 1, a, a + b - 1], vec![1, 62, 0], vec![1, 63, 1]],
    };
    draft.bytes()
}

/// All of 64 terms in all of 8 sets: the longest lines. Two names stand on any
/// of the constants.
fn long_lines() -> Vec<u8> {
    let mut draft = Draft {
        constants: (0..62).map(|n| n - 32_000).collect(),
        names: b"yz".to_vec(),
        sets: (b'S'..=b'Z').collect(),
        lines: vec![vec![12, 0, 0, 61], vec![1, 62, 0], vec![1, 63, 0]],
    };
    draft.lines.extend((1..8).map(|a| vec![5, 0, a]));
    draft.bytes()
}

/// `names` names on `places` constants, each two of them apart, and before
/// that z on any of `first` others; with so many steps before the splits that
/// the run has `steps` in all.
fn of_steps(places: u8, names: u8, first: u8, steps: u64) -> Vec<u8> {
    const SPARE: u8 = 50;
    let draft = |mut more: u64| {
        let constants = places + SPARE;
        let mut draft = Draft {
            constants: (0..i16::from(constants)).map(|n| 3 * n - 40).collect(),
            names: (b'a'..b'a' + names).chain([b'z']).collect(),
            sets: (b'A'..=b'H').collect(),
            lines: Vec::new(),
        };
        let list = |set: u8, entries: std::ops::Range<u8>| {
            let mut line = vec![11, set, entries.len() as u8];
            line.extend(entries.rev());
            line
        };
        draft.lines.push(list(1, places..places + first));
        draft.lines.push(vec![1, constants + names, 1]);
        draft.lines.push(list(0, 0..places));
        for name in 0..names {
            draft.lines.push(vec![1, constants + name, 0]);
            draft.lines.extend((0..name).map(|other| vec![4, constants + name, constants + other]));
        }
        for set in 2..8 {
            let count = more.min(SPARE.into()) as u8;
            more -= u64::from(count);
            draft.lines.push(list(set, places..places + count));
        }
        assert_eq!(more, 0, "so many steps cannot be added");
        draft.bytes()
    };
    let least = solver::run(&draft(0), 10_000, &mut vec![0; 1 << 20], &mut vec![0; 40_000]);
    draft(steps.checked_sub(answer::steps(least)).expect("fewer steps than asked for"))
}

/// Ten times A ≠ B, and so many constants: 1,024 forms.
fn ten_apart(constants: i16) -> Vec<u8> {
    let draft = Draft {
        constants: (1..=constants).collect(),
        names: Vec::new(),
        sets: b"AB".to_vec(),
        lines: vec![vec![6, 0, 1]; 10],
    };
    draft.bytes()
}

/// A and B are subsets of D, A is not any of these sets, and A is not A.
fn not_itself(others: [u8; 8]) -> Vec<u8> {
    let mut draft = Draft {
        constants: Vec::new(),
        names: Vec::new(),
        sets: b"ABCD".to_vec(),
        lines: vec![vec![9, 0, 3], vec![9, 1, 3]],
    };
    draft.lines.extend(others.map(|other| vec![6, 0, other]));
    draft.lines.push(vec![6, 0, 0]);
    draft.bytes()
}

/// A problem of so many bytes: x is one of four constants, said over and over.
fn of_length(length: usize) -> Vec<u8> {
    let mut draft = Draft {
        constants: vec![-32_000, -7, 7, 32_000],
        names: b"x".to_vec(),
        sets: b"Q".to_vec(),
        lines: vec![vec![1, 4, 0]],
    };
    loop {
        let room = length - draft.bytes().len();
        if room == 0 {
            return draft.bytes();
        }
        // Never one or two bytes are left, which no list can fill.
        let count = if room >= 258 + 3 { 255 } else if room > 258 { 250 } else { room - 3 };
        let mut line = vec![11, 0, count as u8];
        line.extend((0..count).map(|entry| (entry * 7 / 2 % 4) as u8));
        line[3..].rotate_left(draft.lines.len());
        draft.lines.push(line);
    }
}

fn chosen() -> Vec<Input> {
    let mut all = Vec::new();
    for case in &WRITTEN {
        for feed in [Feed::Whole, Feed::File] {
            all.push(Input { text: Some(case.text), ..input(case.name, case.problem, feed) });
        }
    }

    let mut started = |name: &str, bytes: Vec<u8>, start: &'static str| {
        for slowly in [false, true] {
            all.push(Input { start, slowly, ..input(name, &bytes, Feed::Whole) });
        }
    };
    started("170 records of 192 bytes", two_names(17, 10), "FORMS 170 STEPS 47\nx=-31 y=-14 A={-31,");
    started("171 records of 192 bytes", two_names(19, 9), "NOROOM 170 STEPS 50\nx=-31 y=-12 A={-31,");
    // 254 records of 129 bytes are 32,766 bytes; 331 of 99 are 32,769.
    started("records of 129 bytes", many(-20, 41, 2, 0), "NOROOM 254 STEPS 51\np=-20 q=-20 A={-20,");
    started("records of 99 bytes", many(0, 31, 2, 0), "NOROOM 330 STEPS 45\np=0 q=0 A={0,1,");
    started("long lines", long_lines(), "NOROOM 170 STEPS ");
    started("1,728 forms", many(-2, 3, 3, 2), "FORMS 1728 STEPS ");
    started("1,820 records of 18 bytes", many(31_997, 4, 2, 2), "NOROOM 1820 STEPS ");
    started("many forms, then SPENT", many(-32_000, 4, 1, 3), "SPENT 1");
    let first = "FORMS 120 STEPS 999\na=-28 b=-31 c=-34 d=-37 e=-40 z=-25 A={-40,-37,-34,-31,-28} B={-25} C=";
    started("999 steps", of_steps(5, 5, 1, 999), first);
    started("1,000 steps", of_steps(5, 5, 1, 1000), "FORMS 120 STEPS 1000\na=-28 b=-31 ");
    // Ten steps follow the last form: 4 + 3 + 2 + 1 places that are taken.
    started("1,001 steps", of_steps(5, 5, 1, 1001), "SPENT 120 STEPS 1000\na=-28 b=-31 ");
    started("1,010 steps", of_steps(5, 5, 1, 1010), "SPENT 120 STEPS 1000\na=-28 b=-31 ");
    started("1,011 steps", of_steps(5, 5, 1, 1011), "SPENT 119 STEPS 1000\na=-28 b=-31 ");
    started("1,000 steps without a form", of_steps(4, 5, 3, 1000), "FALSE 0 STEPS 1000\n");
    started("1,001 steps without a form", of_steps(4, 5, 3, 1001), "SPENT 0 STEPS 1000\n");
    // The rows of crate limits.
    started("1,000 steps of witnesses", not_itself([2, 1, 2, 1, 2, 1, 1, 1]), "FALSE 0 STEPS 1000\n");
    started("1,001 steps of witnesses", not_itself([1, 1, 2, 1, 2, 1, 1, 1]), "SPENT 0 STEPS 1000\n");
    started("992 records of 33 bytes", ten_apart(1), "NOROOM 992 STEPS 997\nA={32002,32003,");
    started("910 records of 36 bytes", ten_apart(2), "NOROOM 910 STEPS 914\nA={32003,32004,");

    // Lengths about the limits. The longer ones start with a whole problem.
    for length in [4095, 4096] {
        let problem = of_length(length);
        for feed in [Feed::File, Feed::Whole, Feed::Pieces(1000, pause(3)), Feed::Pieces(7, pause(0)), Feed::Pieces(4095, pause(30))] {
            all.push(Input { start: "FORMS 4 STEPS 6\nx=", ..input(format!("{length} bytes"), &problem, feed) });
        }
    }
    let mut longer = of_length(MAX_BYTES);
    for length in [4097, 4098, 8192, 65_536, 100_000] {
        longer.resize(length, 0);
        for feed in [Feed::File, Feed::Whole, Feed::Pieces(1000, pause(1)), Feed::Pieces(4096, pause(10)), Feed::Open] {
            all.push(Input { text: Some("REFUSED 1\n"), ..input(format!("{length} bytes"), &longer, feed) });
        }
    }
    for length in [4096, 4097, 100_000] {
        let bytes = vec![0; length];
        let text = if length == 4096 { "REFUSED 10\n" } else { "REFUSED 1\n" };
        all.push(Input { text: Some(text), ..input(format!("{length} zeros"), &bytes, Feed::Whole) });
    }

    // Small pieces, and pieces that are problems by themselves.
    for case in &WRITTEN {
        let feed = Feed::Pieces(1, pause(2));
        all.push(Input { text: Some(case.text), ..input(case.name, case.problem, feed) });
    }
    let longer = [WRITTEN[0].problem, &[0]].concat();
    for (bytes, piece, text) in [
        (WRITTEN[0].problem, 20, "FORMS 1 STEPS 5\nx=4 A={3,4}\n"),
        (&longer, 20, "REFUSED 10\n"),
        (&[0, 0, 0, 0, 0], 4, "REFUSED 10\n"),
        (&[], 1, "REFUSED 2\n"),
    ] {
        all.push(Input { text: Some(text), ..input("late", bytes, Feed::Pieces(piece, pause(200))) });
    }
    let problem = of_steps(5, 5, 1, 950);
    for (piece, wait) in [(1, 0), (7, 1), (64, 3), (problem.len(), 100)] {
        let name = format!("120 forms, in pieces of {piece}");
        all.push(Input { start: "FORMS 120 STEPS 950\na=", slowly: true, ..input(name, &problem, Feed::Pieces(piece, pause(wait))) });
    }
    all
}

fn drawn() -> Vec<Input> {
    let mut all = Vec::new();
    for number in 0..800 {
        let rng = &mut Rng::new(number);
        let Drawn { draft, .. } = generate::draw(rng);
        let mut problem = draft.bytes();
        if number % 4 == 3 {
            let fault = 1 + (number / 4 % 11) as u8;
            let other = 1 + rng.below(11) as u8;
            match rng.below(10) {
                0..=4 => problem = generate::damage(rng, &draft, fault),
                5 | 6 => problem = generate::damage_twice(rng, &draft, [fault, other]),
                7 | 8 => problem = generate::damage_line(rng, &draft),
                _ => generate::scratch(rng, &mut problem),
            }
        }
        let feed = match rng.below(20) {
            0 => Feed::Pieces(7, pause(0)),
            1 => Feed::Pieces(1000, pause(1)),
            2..=5 => Feed::File,
            _ => Feed::Whole,
        };
        all.push(input(format!("seed {number}"), &problem, feed));
    }
    all
}

/// What the listings held, so that nothing is left untried.
#[derive(Default)]
struct Held {
    words: BTreeMap<String, usize>,
    refusals: [usize; 12],
    lines: usize,
    most_lines: usize,
    most_bytes: usize,
    negative: usize,
    empty_set: usize,
    empty_line: usize,
    lowest: usize,
    highest: usize,
    made: usize,
    forms_after_spent: usize,
}

impl Held {
    fn note(&mut self, text: &[u8]) {
        let text = std::str::from_utf8(text).expect("ASCII");
        let (first, rest) = text.split_once('\n').expect("a first line");
        let (word, numbers) = first.split_once(' ').expect("a word and a number");
        *self.words.entry(word.to_string()).or_default() += 1;
        if word == "REFUSED" {
            self.refusals[numbers.parse::<usize>().expect("a number")] += 1;
        }
        let lines = rest.lines().count();
        self.lines += lines;
        self.most_lines = self.most_lines.max(lines);
        self.most_bytes = self.most_bytes.max(text.len());
        self.negative += rest.contains('-') as usize;
        self.empty_set += rest.contains("{}") as usize;
        self.empty_line += (rest == "\n") as usize;
        self.lowest += rest.contains("-32000") as usize;
        self.highest += rest.contains("=32000") as usize;
        // A member with a value of the model's making.
        let members = rest.split(['{', '}']).skip(1).step_by(2).flat_map(|set| set.split(','));
        self.made += members.flat_map(|member| member.parse::<i32>()).any(|value| value > 32_000) as usize;
        self.forms_after_spent += (word == "SPENT" && lines > 0) as usize;
    }

    fn report(&self) {
        for word in ["FORMS", "FALSE", "SPENT", "NOROOM", "REFUSED"] {
            println!("  {word:8} {}", self.words.get(word).unwrap_or(&0));
        }
        println!("  refusals 1 to 11: {:?}", &self.refusals[1..]);
        println!("  lines of forms {}; most {}, and {} bytes, in one listing", self.lines, self.most_lines, self.most_bytes);
        println!(
            "  listings with a negative number {}, -32000 {}, 32000 {}, {{}} {}, an empty line {}, a member over 32000 {}; SPENT with forms {}",
            self.negative, self.lowest, self.highest, self.empty_set, self.empty_line, self.made, self.forms_after_spent
        );
    }

    /// What never occurred, if anything.
    fn lacks(&self) -> Option<String> {
        let counts = [
            ("a negative number", self.negative),
            ("-32000", self.lowest),
            ("32000", self.highest),
            ("an empty set", self.empty_set),
            ("an empty line", self.empty_line),
            ("a member over 32000", self.made),
            ("SPENT with forms", self.forms_after_spent),
        ];
        let words = ["FORMS", "FALSE", "SPENT", "NOROOM", "REFUSED"];
        let word = words.into_iter().find(|word| !self.words.contains_key(*word)).map(String::from);
        let refusal = (1..=11).find(|&number| self.refusals[number] == 0).map(|number| format!("REFUSED {number}"));
        let count = counts.into_iter().find(|(_, count)| *count == 0).map(|(name, _)| name.to_string());
        word.or(refusal).or(count)
    }
}

fn compare_all(program: &Path) {
    let mut held = Held::default();
    let mut compared = 0;
    for given in chosen().into_iter().chain(drawn()) {
        let wanted = listing(&given.bytes);
        if given.text.is_some_and(|text| text.as_bytes() != wanted) || !wanted.starts_with(given.start.as_bytes()) {
            println!("the separate listing:");
            show(&wanted, 0);
            fail(&given, "the separate listing is not the one written by hand");
        }
        compare(program, &given, &wanted);
        held.note(&wanted);
        compared += 1;
    }
    println!("{compared} inputs compared");
    held.report();
    if let Some(what) = held.lacks() {
        println!("FAULT: never occurred: {what}");
        exit(1);
    }
    println!("no difference");
}

fn compare_examples(program: &Path, folder: &Path) {
    let entries = fs::read_dir(folder).expect("a folder of examples");
    let mut paths: Vec<_> = entries.map(|entry| entry.expect("an entry").path()).collect();
    paths.sort();
    let of_kind = |kind: &str| -> Vec<_> {
        let fits = paths.iter().filter(|path| path.extension().is_some_and(|found| found == kind));
        fits.map(|path| path.with_extension("")).collect()
    };
    let problems = of_kind("problem");
    if problems.is_empty() || problems != of_kind("listing") {
        println!("FAULT: there is not one .listing for each .problem, or there are none");
        exit(1);
    }
    for path in &problems {
        let bytes = fs::read(path.with_extension("problem")).expect("a problem");
        let wanted = fs::read(path.with_extension("listing")).expect("a listing");
        let name = path.file_name().expect("a name").to_string_lossy();
        let given = input(name, &bytes, Feed::File);
        if listing(&bytes) != wanted {
            println!("the separate listing:");
            show(&listing(&bytes), 0);
            fail(&given, "the separate listing is not the example's");
        }
        compare(program, &given, &wanted);
    }
    println!("{} examples compared, no difference", problems.len());
}

fn main() {
    let arguments: Vec<_> = std::env::args_os().skip(1).collect();
    match arguments.as_slice() {
        [program] => compare_all(Path::new(program)),
        [program, folder] => compare_examples(Path::new(program), Path::new(folder)),
        _ => {
            println!("listings PROGRAM [DIR]");
            exit(2);
        }
    }
}
