//! A benchmark: the separately written solver and the library on a fixed set
//! of problems, in one process, taking turns. Not a test.
//!
//! `--problems FOLDER` adds the problems of a folder. tests/bench-beside builds
//! it with the library of another commit, which then takes its turn as well.
//!
//! Times are of the thread's clock. By the wall clock, on a machine shared with
//! others, the slower of the two is made to look slower still: its batches are
//! longer, and so are interrupted more often.

use separate::ffi::Run;
use separate::generate::{Draft, Rng};
use separate::{answer, ffi, sheet::Sheet, solver};
use std::hint::black_box;
use std::path::Path;

const ROUNDS: usize = 41;
const BUDGET: u64 = 10_000;
const FORMS: usize = 4_000_000;
const TRACE: usize = 4 * BUDGET as usize;

fn letters(first: u8, count: usize) -> Vec<u8> {
    (first..first + count as u8).collect()
}

fn draft(constants: usize, names: usize, sets: usize) -> Draft {
    Draft {
        constants: (1..=constants as i16).collect(),
        names: letters(b'a', names),
        sets: letters(b'A', sets),
        lines: Vec::new(),
    }
}

/// Document 01's C1, C10 and C11.
fn c1() -> Draft {
    let mut d = draft(0, 1, 1);
    d.constants = vec![3, 4];
    d.lines = vec![vec![1, 2, 0], vec![12, 0, 0, 1], vec![4, 2, 0]];
    d
}

fn c10() -> Draft {
    let mut d = draft(0, 1, 3);
    d.lines = vec![vec![7, 0, 1, 2], vec![1, 0, 2]];
    d
}

fn c11() -> Draft {
    let mut d = draft(0, 2, 2);
    d.lines = vec![vec![8, 0, 1], vec![1, 0, 0], vec![1, 1, 1]];
    d
}

/// A zone sheet: sectors 1 to 6; cranes A and B make up C, all the sectors;
/// they share D, in which the hoist stands; the laydown is with B alone.
fn zones() -> Draft {
    let mut d = draft(6, 2, 4);
    let (hoist, laydown) = (6, 7);
    d.lines = vec![
        vec![12, 2, 0, 5],
        vec![7, 0, 1, 2],
        vec![10, 0, 1, 3],
        vec![11, 3, 2, 2, 3],
        vec![1, hoist, 3],
        vec![1, laydown, 1],
        vec![2, laydown, 0],
        vec![2, 0, 1],
        vec![2, 5, 0],
        vec![4, hoist, 3],
    ];
    d
}

/// Zones that cannot be: A within B, B apart from C, and a shared hoist.
fn no_zones() -> Draft {
    let mut d = draft(3, 2, 3);
    d.lines = vec![
        vec![9, 0, 1],
        vec![8, 1, 2],
        vec![7, 0, 2, 1],
        vec![1, 3, 0],
        vec![1, 4, 2],
        vec![6, 0, 1],
        vec![3, 3, 4],
    ];
    d
}

/// 48 lines and no split: membership climbs through eight sets.
fn climb(terms: usize, worst_order: bool) -> Draft {
    let names = (terms / 2).min(26);
    let mut d = draft(terms - names, names, 8);
    let mut steps: Vec<Vec<u8>> = (0..7).map(|a| vec![9, a, a + 1]).collect();
    if worst_order {
        steps.reverse();
    }
    d.lines = steps;
    for n in 0..41 {
        d.lines.push(vec![1, (n * 7 % terms) as u8, 0]);
    }
    d
}

/// 48 lines of many kinds.
fn mixed(terms: usize) -> Draft {
    let names = (terms / 2).min(24);
    let mut d = draft(terms - names - 2, names, 8);
    let x = d.constants.len() as u8;
    d.lines = vec![
        vec![7, 0, 1, 7],
        vec![10, 2, 3, 1],
        vec![6, 0, 2],
        vec![6, 2, 4],
        vec![8, 4, 5],
        vec![9, 5, 7],
        vec![11, 6, 3, x, x + 1, 0],
        vec![1, x, 6],
        vec![1, x + 2, 6],
        vec![4, x, x + 1],
        vec![1, x + 1, 7],
        vec![1, x + 3, 7],
        vec![2, x + 3, 4],
        vec![12, 5, 0, 1],
        vec![1, x + 2, 7],
    ];
    let nameable = terms as u8 - 2;
    let mut n = 0u8;
    while d.lines.len() < 48 {
        let t = n.wrapping_mul(5) % nameable;
        d.lines.push(match n % 3 {
            0 => vec![4, t, (t + 1) % nameable],
            1 => vec![2, if t < 2 { 2.min(nameable - 1) } else { t }, 5],
            _ => vec![9, 1, 3],
        });
        n += 1;
    }
    d
}

/// Every name is in a union: two ways each. `idle` constants stand by.
fn unions(names: usize, idle: usize) -> Draft {
    let mut d = draft(idle, names, 3);
    d.lines.push(vec![7, 0, 1, 2]);
    for t in 0..names {
        d.lines.push(vec![1, (idle + t) as u8, 2]);
    }
    d
}

/// Unions of 7 names, with constraints that have nothing to do: only the
/// number of constraints grows.
fn padded(lines: usize) -> Draft {
    let mut d = unions(7, 8);
    let idle = [vec![4, 0, 1], vec![9, 0, 2], vec![4, 2, 3], vec![9, 1, 2], vec![5, 2, 2], vec![4, 4, 5]];
    for n in 0..lines - d.lines.len() {
        d.lines.push(idle[n % idle.len()].clone());
    }
    d
}

/// Names, all apart, on too few places. Further terms stand by.
fn crowd(places: usize, names: usize, terms: usize) -> Draft {
    let more = terms - places - names;
    let mut d = draft(places + more, names, 1);
    let first = places + more;
    let mut list = vec![11, 0, places as u8];
    list.extend(0..places as u8);
    d.lines.push(list);
    for t in 0..names {
        d.lines.push(vec![1, (first + t) as u8, 0]);
        for u in 0..t {
            d.lines.push(vec![4, (first + t) as u8, (first + u) as u8]);
        }
    }
    d
}

/// Unions whose every way fails at the last line.
fn dead_unions(names: usize, idle: usize) -> Draft {
    let mut d = draft(idle, names, 5);
    d.lines.push(vec![7, 0, 1, 2]);
    for t in 0..names {
        d.lines.push(vec![1, (idle + t) as u8, 2]);
    }
    // D differs from E, but each is part of the other.
    d.lines.push(vec![6, 3, 4]);
    d.lines.push(vec![9, 3, 4]);
    d.lines.push(vec![9, 4, 3]);
    d
}

/// Inequalities among eight sets: two ways for each witness.
fn witnesses(count: usize, idle: usize) -> Draft {
    let mut d = draft(idle, 0, 8);
    for n in 0..count {
        let a = n % 8;
        let b = (n + 1 + n / 8) % 8;
        d.lines.push(vec![6, a as u8, b as u8]);
    }
    d
}

/// Two names in intervals, of which one is within the other: the first name is
/// at an end of the wider.
fn intervals(terms: usize) -> Draft {
    let constants = terms - 2;
    let mut d = draft(constants, 2, 3);
    let x = constants as u8;
    d.lines = vec![
        vec![12, 0, 0, x - 1],
        vec![12, 1, 1, x - 2],
        vec![1, x, 0],
        vec![1, x + 1, 1],
        vec![4, x, x + 1],
        vec![10, 0, 1, 2],
        vec![2, x, 2],
    ];
    d
}

/// Nearly as many bytes as a problem may have: 46 lists of 80 entries, out of
/// order, each entry several times; one name is listed, another in a set.
fn long_lists() -> Draft {
    let mut d = draft(30, 2, 8);
    let mut rng = Rng::new(46);
    for n in 0..46 {
        let mut entries: Vec<u8> = (0..80).map(|at| (n % 8 * 3 + at) % 30).collect();
        if n == 7 {
            entries[70..].fill(30);
        }
        rng.shuffle(&mut entries);
        d.lines.push([&[11, n % 8, 80], &entries[..]].concat());
    }
    d.lines.push(vec![1, 31, 0]);
    d
}

/// Names at the top of a chain: A and B make up F, F and C G, G and D H. A is
/// apart from E, which D is within.
fn union_chain(names: usize, idle: usize) -> Draft {
    let mut d = draft(idle, names, 8);
    d.lines = vec![vec![7, 6, 3, 7], vec![7, 5, 2, 6], vec![7, 0, 1, 5], vec![8, 0, 4], vec![9, 3, 4]];
    for t in 0..names {
        d.lines.push(vec![1, (idle + t) as u8, 7]);
    }
    d
}

/// As many terms, sets and lines as a problem may have; the budget cuts its
/// tree.
fn big() -> Draft {
    let mut d = draft(38, 24, 8);
    let name = |at: u8| 38 + at;
    d.lines = vec![
        vec![12, 0, 0, 16],
        vec![12, 1, 12, 30],
        vec![7, 0, 1, 2],
        vec![10, 0, 1, 3],
        [vec![11, 4, 9, 0, 10, 20, 30, 35], (0..4).map(name).collect()].concat(),
        vec![9, 5, 2],
        vec![8, 5, 3],
        vec![7, 5, 4, 6],
        [vec![11, 7, 8], (4..12).map(name).collect()].concat(),
        vec![6, 5, 0],
        vec![6, 7, 4],
        vec![9, 7, 6],
    ];
    for (names, set) in [(0..4, 2), (12..18, 6), (18..22, 7), (23..24, 3)] {
        d.lines.extend(names.map(|at| vec![1, name(at), set]));
    }
    d.lines.push(vec![2, name(22), 2]);
    d.lines.extend((0..19).map(|at| vec![4, name(at), name(at + 1)]));
    d.lines.push(vec![4, name(22), name(23)]);
    d
}

struct Problem {
    name: String,
    bytes: Vec<u8>,
}

fn problem(name: &str, draft: Draft) -> Problem {
    Problem { name: name.into(), bytes: draft.bytes() }
}

/// The benchmark's own set.
fn own() -> Vec<Problem> {
    let rows = vec![
        ("C1", c1()),
        ("C10", c10()),
        ("C11", c11()),
        ("zone sheet", zones()),
        ("zone sheet that cannot be", no_zones()),
        ("climb, 48 lines", climb(8, false)),
        ("climb, 48 lines", climb(16, false)),
        ("climb, 48 lines", climb(32, false)),
        ("climb, 48 lines", climb(64, false)),
        ("climb, 48 lines, reversed", climb(64, true)),
        ("mixed, 48 lines", mixed(8)),
        ("mixed, 48 lines", mixed(16)),
        ("mixed, 48 lines", mixed(32)),
        ("mixed, 48 lines", mixed(64)),
        ("13 names in a union", unions(13, 0)),
        ("13 names in a union", unions(13, 19)),
        ("13 names in a union", unions(13, 51)),
        ("13 witnesses", witnesses(13, 0)),
        ("13 witnesses", witnesses(13, 51)),
        ("40 witnesses, spent", witnesses(40, 24)),
        ("6 names on 5 places", crowd(5, 6, 11)),
        ("6 names on 5 places", crowd(5, 6, 32)),
        ("7 names on 6 places", crowd(6, 7, 13)),
        ("7 names on 6 places", crowd(6, 7, 64)),
        ("dead unions of 11 names", dead_unions(11, 0)),
        ("dead unions of 11 names", dead_unions(11, 51)),
        ("two names in intervals", intervals(8)),
        ("two names in intervals", intervals(16)),
        ("two names in intervals", intervals(32)),
        ("two names in intervals", intervals(64)),
        ("46 lists of 80 entries", long_lists()),
        ("6 names, chain of unions", union_chain(6, 0)),
        ("6 names, chain of unions", union_chain(6, 58)),
        ("big, spent", big()),
    ];
    rows.into_iter().map(|(name, draft)| problem(name, draft)).collect()
}

/// The problems of a folder, by name: its files *.bin and *.problem.
fn problems_in(folder: &Path) -> std::io::Result<Vec<Problem>> {
    let mut all = Vec::new();
    for entry in std::fs::read_dir(folder)? {
        let path = entry?.path();
        if path.extension().is_some_and(|end| end == "bin" || end == "problem") {
            let name = path.file_stem().unwrap_or_default().to_string_lossy().into();
            all.push(Problem { name, bytes: std::fs::read(&path)? });
        }
    }
    all.sort_by(|one, other| one.name.cmp(&other.name));
    Ok(all)
}

/// Problems of which one number grows.
struct Series {
    what: &'static str,
    of: fn(&Row) -> usize,
    problems: Vec<Problem>,
}

fn series() -> Vec<Series> {
    let sizes = [8, 16, 32, 64];
    let counts = [4, 7, 10, 13];
    let terms = |row: &Row| row.terms;
    let steps = |row: &Row| answer::steps(row.word) as usize;
    let new = |what, name, of, drafts: [Draft; 4]| {
        Series { what, of, problems: drafts.map(|draft| problem(name, draft)).into() }
    };
    vec![
        new("terms", "climb, 48 lines", terms, sizes.map(|t| climb(t, false))),
        new("terms", "mixed, 48 lines", terms, sizes.map(mixed)),
        new("terms", "7 names in a union", terms, sizes.map(|t| unions(7, t - 7))),
        new("terms", "two names in intervals", terms, sizes.map(intervals)),
        new("constraints", "7 names in a union", |row| row.lines, [8, 12, 24, 48].map(padded)),
        new("steps", "names in a union, 13 T", steps, counts.map(|n| unions(n, 13 - n))),
        new("steps", "witnesses, 13 T", steps, counts.map(|n| witnesses(n, 13 - n))),
    ]
}

fn median(mut all: Vec<f64>) -> f64 {
    all.sort_by(f64::total_cmp);
    all[all.len() / 2]
}

/// A problem as it was measured.
struct Row {
    name: String,
    bytes: usize,
    terms: usize,
    sets: usize,
    lines: usize,
    word: u64,
    /// Nanoseconds a call, of each solver.
    times: Vec<f64>,
}

impl Row {
    /// Nanoseconds a step, of each solver.
    fn a_step(&self) -> Vec<f64> {
        let steps = answer::steps(self.word).max(1) as f64;
        self.times.iter().map(|time| time / steps).collect()
    }

    /// One solver's time, divided by another's.
    fn ratio(&self, who: usize, other: usize) -> f64 {
        self.times[who] / self.times[other]
    }

    /// Rows of one shape differ in the number at the end of their names, or
    /// in their terms only.
    fn shape(&self) -> &str {
        self.name.trim_end_matches(|letter: char| letter.is_ascii_digit())
    }
}

/// The solvers that take turns: the separate one first, the library as it is
/// now last, and between them the library of another commit, if it is linked.
struct Bench {
    names: Vec<&'static str>,
    runs: Vec<Run>,
    forms: Vec<u8>,
    trace: Vec<u8>,
}

impl Bench {
    fn new() -> Bench {
        let (mut names, mut runs) = (vec!["separate", "now"], vec![solver::run as Run, ffi::run_bare]);
        if let Some(before) = ffi::BEFORE {
            names.insert(1, "before");
            runs.insert(1, before);
        }
        Bench { names, runs, forms: vec![0; FORMS], trace: vec![0; TRACE] }
    }

    fn now(&self) -> usize {
        self.runs.len() - 1
    }

    /// Whether the problem is one, and all answer the same: the word, and every
    /// byte of both buffers. If not, it says so.
    fn agree(&self, problem: &Problem) -> bool {
        if let Err(number) = Sheet::read(&problem.bytes) {
            eprintln!("{}: refused with {number}", problem.name);
            return false;
        }
        let answer = |run: Run| {
            let (mut forms, mut trace) = (vec![0xA5; FORMS], vec![0xA5; TRACE]);
            (run(&problem.bytes, BUDGET, &mut forms, &mut trace), forms, trace)
        };
        let wanted = answer(self.runs[0]);
        let mut agreed = true;
        for who in 1..self.runs.len() {
            let given = answer(self.runs[who]);
            let parts = [
                ("word", given.0 == wanted.0),
                ("forms", given.1 == wanted.1),
                ("trace", given.2 == wanted.2),
            ];
            for (part, _) in parts.iter().filter(|(_, same)| !same) {
                eprintln!("{}: {} and {} differ in the {part}", problem.name, self.names[0], self.names[who]);
                agreed = false;
            }
        }
        agreed
    }

    /// The time of some calls of one solver, in nanoseconds of the thread's clock.
    fn batch(&mut self, problem: &Problem, who: usize, calls: usize) -> f64 {
        let run = self.runs[who];
        let start = ffi::thread_time();
        for _ in 0..calls {
            black_box(run(black_box(&problem.bytes), BUDGET, &mut self.forms, &mut self.trace));
        }
        (ffi::thread_time() - start) as f64
    }

    /// Medians of the solvers, which take turns.
    fn measure(&mut self, problem: &Problem) -> Row {
        let sheet = Sheet::read(&problem.bytes).expect("a problem that they agree on");
        let word = solver::run(&problem.bytes, BUDGET, &mut self.forms, &mut self.trace);
        let count = self.runs.len();
        // Calls in a batch, so that a batch of each takes a millisecond.
        let mut calls = vec![1; count];
        for who in 0..count {
            while self.batch(problem, who, calls[who]) < 1e6 {
                calls[who] *= 2;
            }
        }
        let mut times = vec![Vec::new(); count];
        for round in 0..ROUNDS {
            for turn in 0..count {
                let who = (round + turn) % count;
                times[who].push(self.batch(problem, who, calls[who]) / calls[who] as f64);
            }
        }
        Row {
            name: problem.name.clone(),
            bytes: problem.bytes.len(),
            terms: sheet.terms,
            sets: sheet.sets.len(),
            lines: sheet.lines.len(),
            word,
            times: times.into_iter().map(median).collect(),
        }
    }

    /// Measures problems and prints a row of each.
    fn table(&mut self, problems: &[Problem]) -> Vec<Row> {
        print!("{:26} {:>2} {:>1} {:>5} {:>8} {:>5} {:>5} |", "problem", "T", "S", "lines", "verdict", "steps", "forms");
        for unit in [" ns", "/step"] {
            for name in &self.names {
                print!(" {:>13}", format!("{name}{unit}"));
            }
            print!(" |");
        }
        print!(" {:>7}", "now÷sep");
        if ffi::BEFORE.is_some() {
            print!(" {:>7}", "bef÷now");
        }
        println!();
        let mut rows = Vec::new();
        for problem in problems {
            let row = self.measure(problem);
            print!(
                "{:26} {:>2} {:>1} {:>5} {:>8} {:>5} {:>5} |",
                row.name,
                row.terms,
                row.sets,
                row.lines,
                answer::NAMES[answer::verdict(row.word) as usize],
                answer::steps(row.word),
                answer::forms(row.word)
            );
            for time in &row.times {
                print!(" {time:>13.0}");
            }
            print!(" |");
            for time in row.a_step() {
                print!(" {time:>13.1}");
            }
            print!(" | {:>7.2}", row.ratio(self.now(), 0));
            if ffi::BEFORE.is_some() {
                print!(" {:>7.2}", row.ratio(1, self.now()));
            }
            println!();
            rows.push(row);
        }
        rows
    }

    /// What the rows come to.
    fn summary(&self, rows: &[Row]) {
        let mean = |who, other| {
            let logs: f64 = rows.iter().map(|row| row.ratio(who, other).ln()).sum();
            (logs / rows.len() as f64).exp()
        };
        println!("geometric mean of now ÷ separate: {:.2}", mean(self.now(), 0));
        if ffi::BEFORE.is_some() {
            let ratio = |row: &Row| row.ratio(1, self.now());
            let lowest = rows.iter().min_by(|one, other| ratio(one).total_cmp(&ratio(other))).expect("a row");
            println!("geometric mean of before ÷ now: {:.2}", mean(1, self.now()));
            println!("lowest before ÷ now: {:.2} ({}, {} T)", ratio(lowest), lowest.name, lowest.terms);
        }
        let print_each = |what: &str, over: &[f64], under: &[f64]| {
            print!("{what}:");
            for who in 0..self.names.len() {
                print!(" {} {:.2}", self.names[who], over[who] / under[who]);
            }
            println!();
        };
        for large in rows.iter().filter(|row| row.terms == 64) {
            for small in rows.iter().filter(|row| row.terms == 8 && row.shape() == large.shape()) {
                print_each(&format!("a step at 64 terms ÷ at 8, {}", large.shape()), &large.a_step(), &small.a_step());
            }
        }
        let mut least = vec![f64::INFINITY; self.names.len()];
        for row in rows {
            for (low, time) in least.iter_mut().zip(row.a_step()) {
                *low = low.min(time);
            }
        }
        let longest = rows.iter().max_by_key(|row| row.bytes).expect("a row");
        print_each(&format!("a step of the longest problem ({}) ÷ the least of all", longest.name), &longest.a_step(), &least);
    }
}

fn fail(why: &str) -> ! {
    eprintln!("bench: {why}");
    std::process::exit(1)
}

fn main() {
    let arguments: Vec<String> = std::env::args().skip(1).collect();
    let mut sets = vec![own()];
    match &arguments[..] {
        [] => {}
        [flag, folder] if flag == "--problems" => match problems_in(Path::new(folder)) {
            Ok(problems) if !problems.is_empty() => sets.push(problems),
            Ok(_) => fail(&format!("no problem in {folder}")),
            Err(error) => fail(&format!("{folder}: {error}")),
        },
        _ => fail("usage: bench [--problems FOLDER]"),
    }
    let series = series();
    let mut bench = Bench::new();

    let all = sets.iter().chain(series.iter().map(|series| &series.problems)).flatten();
    if all.filter(|problem| !bench.agree(problem)).count() > 0 {
        fail("nothing was measured");
    }
    for set in &sets {
        let rows = bench.table(set);
        bench.summary(&rows);
        println!();
    }
    println!("how the time of a step grows, in nanoseconds ({})", bench.names.join(", "));
    for series in &series {
        print!("with {:12} {:24}", series.what, series.problems[0].name);
        for problem in &series.problems {
            let row = bench.measure(problem);
            print!(" | {:>5}:", (series.of)(&row));
            for time in row.a_step() {
                print!(" {time:>5.0}");
            }
        }
        println!();
    }
}
