//! A listing program over the separate solver that makes one mistake, named by
//! LISTING_MISTAKE; without it, none. `wrong_listing names` writes the names.
//! It shows that `listings` finds each of them.

use separate::answer;
use separate::listing::{listing, BUDGET, MOST_READ, ROOM};
use separate::sheet::Sheet;
use separate::solver;
use std::collections::BTreeSet;
use std::fs::File;
use std::io::{stderr, stdin, stdout, Read, Write};
use std::os::fd::AsFd;
use std::process::exit;

const MISTAKES: [&str; 47] = [
    // Members.
    "falling", "as-text", "unsigned-order", "by-size", "doubled", "no-witness", "first-16-terms", "comma-space",
    "empty-set-bare", "empty-set-left-out",
    // Numbers.
    "no-minus", "no-minus-in-sets", "long-minus", "unsigned-constants", "root-not-added", "term-not-root",
    // Lines.
    "no-last-newline", "one-more-newline", "no-empty-line", "sets-first", "trailing-space", "crlf", "output-64k",
    "one-line-short",
    // First line.
    "swapped", "no-room-spaced", "refused-steps", "false-short", "noroom-one-more", "steps-of-path",
    // What is run.
    "spent-no-forms", "noroom-no-forms", "budget-999", "budget-1001", "budget-10000", "room-32765", "room-32769",
    // Reading.
    "one-piece", "two-pieces", "reads-4096", "reads-8192", "reads-all", "buffered", "nothing-if-empty",
    // Ending.
    "exit-1-if-false", "exit-refusal", "stderr",
];

fn main() {
    if std::env::args().nth(1).as_deref() == Some("names") {
        println!("{}", MISTAKES.join("\n"));
        return;
    }
    let mistake = std::env::var("LISTING_MISTAKE").unwrap_or_default();
    assert!(mistake.is_empty() || MISTAKES.contains(&mistake.as_str()), "no such mistake");
    let is = |name: &str| mistake == name;

    let most = match mistake.as_str() {
        "reads-4096" => 4096,
        "reads-8192" | "buffered" => 8192,
        "reads-all" => 1 << 20,
        _ => MOST_READ,
    };
    let mut input = vec![0; most];
    let (mut length, mut pieces) = (0, 0);
    // Not through stdin()'s own buffer, which takes 8,192 bytes at a time.
    let mut from = File::from(stdin().as_fd().try_clone_to_owned().unwrap());
    while length < most {
        let count = from.read(&mut input[length..]).unwrap();
        length += count;
        pieces += 1;
        let enough = is("one-piece") || is("two-pieces") && pieces == 2 || is("buffered") && length >= MOST_READ;
        if count == 0 || enough {
            break;
        }
    }
    let problem = &input[..length.min(MOST_READ)];

    let budget = match mistake.as_str() {
        "budget-999" => 999,
        "budget-1001" => 1001,
        "budget-10000" => 10_000,
        _ => BUDGET,
    };
    let room = match mistake.as_str() {
        "room-32765" => 32_765,
        "room-32769" => 32_769,
        _ => ROOM,
    };
    let mut forms = vec![0; room];
    let mut trace = vec![0; 40_000];
    let word = solver::run(problem, budget, &mut forms, &mut trace);
    let (steps, listed) = (answer::steps(word), answer::forms(word));
    let verdict = answer::verdict(word);
    let mut text = match verdict {
        answer::REFUSED if is("refused-steps") => format!("REFUSED {} STEPS 0\n", answer::number(word)),
        answer::REFUSED => format!("REFUSED {}\n", answer::number(word)),
        answer::FALSE if is("false-short") => format!("FALSE STEPS {steps}\n"),
        _ => {
            let name = ["", "FORMS", "FALSE", "SPENT", if is("no-room-spaced") { "NO ROOM" } else { "NOROOM" }];
            let more = (is("noroom-one-more") && verdict == answer::NO_ROOM) as u64;
            let name = name[verdict as usize];
            if is("swapped") {
                format!("{name} {steps} STEPS {listed}\n")
            } else if is("steps-of-path") && listed > 1 {
                format!("{name} {listed} STEPS {}\n", steps.saturating_sub(listed))
            } else {
                format!("{name} {} STEPS {steps}\n", listed + more)
            }
        }
    };
    let hidden = is("spent-no-forms") && verdict == answer::SPENT || is("noroom-no-forms") && verdict == answer::NO_ROOM;
    if verdict != answer::REFUSED && !hidden {
        let sheet = Sheet::read(problem).ok().unwrap();
        let size = 3 * sheet.terms;
        for at in 0..listed as usize - (is("one-line-short") && listed > 1000) as usize {
            text += &line(&sheet, &forms[at * size..(at + 1) * size], &mistake);
        }
    }
    if is("no-last-newline") {
        text.pop();
    }
    if is("one-more-newline") {
        text.push('\n');
    }
    if is("no-minus-in-sets") {
        text = text.replace("{-", "{").replace(",-", ",");
    }
    if is("no-minus") {
        text = text.replace('-', "");
    }
    if is("long-minus") {
        text = text.replace('-', "\u{2212}");
    }
    if is("crlf") {
        text = text.replace('\n', "\r\n");
    }
    if is("output-64k") {
        text.truncate(65_536);
    }
    if is("nothing-if-empty") && length == 0 {
        text.clear();
    }
    if mistake.is_empty() {
        assert_eq!(text.as_bytes(), listing(problem));
    }
    stdout().write_all(text.as_bytes()).unwrap();
    stdout().flush().unwrap();
    if is("stderr") && verdict == answer::REFUSED {
        stderr().write_all(b"refused\n").unwrap();
    }
    if is("exit-1-if-false") && verdict == answer::FALSE {
        exit(1);
    }
    if is("exit-refusal") {
        exit(answer::number(word) as i32);
    }
}

fn line(sheet: &Sheet, record: &[u8], mistake: &str) -> String {
    let is = |name: &str| mistake == name;
    let constants = sheet.constants();
    let value = |t: usize| {
        let root = record[3 * t] as usize;
        if root < constants {
            let v = sheet.constant(root);
            if is("unsigned-constants") { v & 0xFFFF } else { v }
        } else if is("root-not-added") {
            32_001
        } else if is("term-not-root") {
            32_001 + t as i32
        } else {
            32_001 + root as i32
        }
    };
    let numbers: Vec<String> = sheet
        .names
        .iter()
        .enumerate()
        .map(|(at, &name)| format!("{}={}", name as char, value(constants + at)))
        .collect();
    let named = constants + sheet.names.len();
    let sets: Vec<String> = sheet
        .sets
        .iter()
        .enumerate()
        .map(|(s, &name)| {
            let last = match mistake {
                "no-witness" => named,
                "first-16-terms" => sheet.terms.min(16),
                _ => sheet.terms,
            };
            let inside = (0..last).filter(|&t| record[3 * t + 1] >> s & 1 == 1);
            let mut members: Vec<i32> = if is("doubled") {
                inside.map(value).collect()
            } else {
                inside.map(value).collect::<BTreeSet<i32>>().into_iter().collect()
            };
            match mistake {
                "falling" => members.reverse(),
                "as-text" => members.sort_by_key(|member| member.to_string()),
                "unsigned-order" => members.sort_by_key(|&member| member & 0xFFFF),
                "by-size" => members.sort_by_key(|&member| member.abs()),
                _ => {}
            }
            let members: Vec<String> = members.iter().map(i32::to_string).collect();
            if is("empty-set-bare") && members.is_empty() {
                return format!("{}=", name as char);
            }
            format!("{}={{{}}}", name as char, members.join(if is("comma-space") { ", " } else { "," }))
        })
        .collect();
    let mut parts = [numbers, sets];
    if is("empty-set-left-out") {
        parts[1].retain(|set| !set.ends_with("{}"));
    }
    if is("sets-first") {
        parts.reverse();
    }
    let parts = parts.concat();
    if parts.is_empty() && is("no-empty-line") {
        return String::new();
    }
    parts.join(" ") + if is("trailing-space") { " \n" } else { "\n" }
}
