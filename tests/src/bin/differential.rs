//! Compares the library with the separately written solver, on seeded
//! problems: every answer, every byte of both buffers.
//!
//! It counts what it tries. Unless it is told to be short it fails if
//! something wanted was not reached.
//!
//! differential [problems] [seed] [short]

use separate::answer;
use separate::check::{check, Setting};
use separate::coverage::{kinds, Coverage};
use separate::ffi;
use separate::generate::{self, Draft, Drawn, Plan, Rng};
use separate::sheet::{Sheet, MAX_BYTES};
use separate::solver;
use std::process::exit;

#[derive(Default)]
struct Counts {
    problems: u64,
    damaged: u64,
    well_formed: u64,
    satisfiable: u64,
    satisfiable_split: u64,
    split_problems: u64,
    runs: u64,
    split_runs: u64,
    most_steps: u64,
    most_forms: u64,
    checks: u64,
    coverage: Coverage,
}

fn hex(bytes: &[u8]) -> String {
    bytes.iter().map(|byte| format!("{byte:02X} ")).collect::<String>().trim_end().to_string()
}

fn is_split(rule: u8) -> bool {
    matches!(rule, 7 | 12 | 20)
}

/// One run of both, on buffers of these lengths. Ends the program if they
/// differ in anything.
fn compare(problem: &[u8], budget: u64, room: usize, traced: usize, rng: &mut Rng, counts: &mut Counts) -> u64 {
    let mut forms = vec![0; room];
    let mut trace = vec![0; traced];
    rng.fill(&mut forms);
    rng.fill(&mut trace);
    let mut forms_of_library = forms.clone();
    let mut trace_of_library = trace.clone();
    let forms_before = forms.clone();
    let trace_before = trace.clone();

    let word = solver::run(problem, budget, &mut forms, &mut trace);
    let of_library = ffi::run(problem, budget, &mut forms_of_library, &mut trace_of_library, rng.next());

    let fault = match of_library {
        Err(what) => Some(what.to_string()),
        Ok(other) if other != word => Some("the answers differ".to_string()),
        Ok(_) => {
            let differing = |a: &[u8], b: &[u8]| a.iter().zip(b).position(|(x, y)| x != y);
            if let Some(at) = differing(&forms, &forms_of_library) {
                Some(format!(
                    "form buffer byte {at}: separate {:02X}, library {:02X}, before {:02X}",
                    forms[at], forms_of_library[at], forms_before[at]
                ))
            } else {
                differing(&trace, &trace_of_library).map(|at| {
                    format!(
                        "trace buffer byte {at}: separate {:02X}, library {:02X}, before {:02X}",
                        trace[at], trace_of_library[at], trace_before[at]
                    )
                })
            }
        }
    };
    if let Some(fault) = fault {
        println!("DIFFERENCE: {fault}");
        println!("problem ({} bytes): {}", problem.len(), hex(problem));
        println!("budget {budget}, form buffer {room}, trace buffer {traced}");
        println!("separate: {}", answer::show(word));
        if let Ok(other) = of_library {
            println!("library:  {}", answer::show(other));
        }
        exit(1);
    }

    // What this solver itself leaves unchanged.
    let written = match Sheet::read(problem) {
        Ok(sheet) => answer::forms(word) as usize * 3 * sheet.terms,
        Err(_) => 0,
    };
    let recorded = 4 * answer::steps(word) as usize;
    if forms[written..] != forms_before[written..] || trace[recorded..] != trace_before[recorded..] {
        println!("FAULT of the separate solver: later bytes changed: {}", hex(problem));
        exit(1);
    }

    counts.runs += 1;
    counts.most_steps = counts.most_steps.max(answer::steps(word));
    counts.most_forms = counts.most_forms.max(answer::forms(word));
    let (verdict, listed) = (answer::verdict(word), answer::forms(word));
    let coverage = &mut counts.coverage;
    coverage.see("runs answering", answer::NAMES[verdict as usize]);
    let mut with = |name: &str, seen: bool| coverage.see_if("runs with", name, seen);
    let fourfold = budget.checked_mul(4);
    if verdict == answer::REFUSED {
        let number = answer::number(word);
        with("budget 10,001", number == 12 && budget == 10_001);
        with("budget whose fourfold is past 64 bits", number == 12 && fourfold.is_none());
        with("trace buffer one byte short", number == 13 && fourfold == Some(traced as u64 + 1));
        coverage.see_number("runs refused by", number);
    } else {
        with("budget 0", budget == 0);
        with("budget 1", budget == 1);
        with("budget 10,000", budget == 10_000);
        with("trace buffer of 0 bytes", traced == 0);
        with("trace buffer exact", fourfold == Some(traced as u64));
        with("trace buffer with bytes left", fourfold < Some(traced as u64));
        with("form buffer with bytes left", written < room);
        with("steps equal to the budget and no SPENT", answer::steps(word) == budget && verdict != answer::SPENT);
        with("SPENT after some form", verdict == answer::SPENT && listed > 0);
        with("NO ROOM after some form", verdict == answer::NO_ROOM && listed > 0);
        with("more than 65,535 forms", listed > 65_535);
    }
    trace.truncate(recorded);
    counts.split_runs += trace.chunks_exact(4).any(|record| is_split(record[0])) as u64;
    word
}

/// What the answers mean, by the hand check: every worked setting meets the
/// sheet, and a setting that meets the sheet meets a form.
fn judge(problem: &[u8], drawn: &Drawn, word: u64, forms: &[u8], rng: &mut Rng, counts: &mut Counts) {
    let fail = |what: &str| -> ! {
        println!("FAULT in meaning: {what}: {}", hex(problem));
        exit(1)
    };
    let sheet = Sheet::read(problem).unwrap_or_else(|_| fail("refused"));
    let size = 3 * sheet.terms;
    let listed = answer::forms(word) as usize;
    let record = |at: usize| &forms[at * size..(at + 1) * size];
    let plan = &drawn.plan;
    let mut settings = vec![plan.bytes()];
    for at in 0..listed.min(40) {
        let worked = Plan::worked(&sheet, record(at));
        if check(problem, &worked.bytes()) != answer::HOLDS {
            fail("a worked setting does not meet the sheet");
        }
        settings.push(worked.bytes());
        if at < 3 {
            settings.push(generate::near(rng, &sheet, &worked).bytes());
            malformed(problem, &worked, rng, counts);
        }
    }
    malformed(problem, plan, rng, counts);
    settings.push(generate::near(rng, &sheet, plan).bytes());
    if rng.percent(10) {
        settings.push(generate::wide(rng, plan).bytes());
    }
    let finished = matches!(answer::verdict(word), answer::FORMS | answer::FALSE);
    for setting in settings {
        let answered = compare_check(problem, &setting, rng, counts);
        if answered == answer::HOLDS && finished {
            let setting = Setting::read(&sheet, &setting).unwrap();
            if !(0..listed).any(|at| setting.meets_facts(&sheet, record(at))) {
                fail("a solution meets no listed form");
            }
        }
    }
    let whole = problem == drawn.draft.bytes();
    if !whole || sheet.lines.is_empty() || check(problem, &plan.bytes()) != answer::HOLDS {
        return;
    }
    // The plan holds: make one constraint untrue of it, and at times a second.
    let all: Vec<usize> = (0..sheet.lines.len()).collect();
    let few = [rng.below(all.len()), rng.below(all.len())];
    for &at in if rng.percent(10) { &all[..] } else { &few } {
        let kind = 1 + rng.below(12) as u8;
        let Some(mut draft) = generate::untrue_at(rng, drawn, at, kind) else { continue };
        if rng.percent(30) {
            let other = rng.below(all.len());
            let again = Drawn { draft: draft.clone(), plan: plan.clone() };
            draft = generate::untrue_at(rng, &again, other, kind).unwrap_or(draft);
        }
        compare_check(&draft.bytes(), &plan.bytes(), rng, counts);
    }
}

fn malformed(problem: &[u8], plan: &Plan, rng: &mut Rng, counts: &mut Counts) {
    let way = rng.below(generate::WAYS);
    let (setting, done) = generate::malform(rng, plan, way);
    let answered = compare_check(problem, &setting, rng, counts);
    if done && answered == answer::refused(14) {
        counts.coverage.see_number("assignments refused by 14, made malformed in way", way as u64);
    }
}

fn compare_check(problem: &[u8], setting: &[u8], rng: &mut Rng, counts: &mut Counts) -> u64 {
    let mine = check(problem, setting);
    let of_library = ffi::check(problem, setting, rng.next());
    if of_library != Ok(mine) {
        println!("DIFFERENCE in the hand check: {of_library:?}");
        println!("problem: {}", hex(problem));
        println!("setting: {}", hex(setting));
        println!("separate: {}", answer::show(mine));
        if let Ok(other) = of_library {
            println!("library:  {}", answer::show(other));
        }
        exit(1);
    }
    counts.checks += 1;
    let number = answer::number(mine);
    let coverage = &mut counts.coverage;
    let Ok(sheet) = Sheet::read(problem) else {
        coverage.see_number("checks refused by", number);
        return mine;
    };
    if let Some(setting) = Setting::read(&sheet, setting) {
        let values = || setting.values.iter().chain(setting.sets.iter().flatten());
        coverage.see_if("assignments", "HOLDS", mine == answer::HOLDS);
        coverage.see_if("assignments", "FAILS", mine != answer::HOLDS);
        coverage.see_if("assignments", "with -32,768", values().any(|&v| v == -32_768));
        coverage.see_if("assignments", "with 32,767", values().any(|&v| v == 32_767));
        coverage.see_if("assignments", "with a set of 255", setting.sets.iter().any(|set| set.len() == 255));
    }
    if answer::verdict(mine) == answer::FAILS {
        coverage.see_number("assignments that fail first at constraint", number);
        let kind = kinds(problem, &sheet)[number as usize];
        coverage.see_number("assignments that fail first at kind", kind);
    }
    mine
}

/// Very many forms: names that may stand on any of the constants. The counts
/// go past 16 bits.
fn many_forms(rng: &mut Rng, counts: &mut Counts) {
    for (constants, names) in [(42u8, 3u8), (16, 5)] {
        let mut draft = Draft {
            constants: (0..i16::from(constants)).map(|n| n - 5).collect(),
            names: (b'a'..b'a' + names).collect(),
            sets: vec![b'A'],
            lines: vec![vec![12, 0, 0, constants - 1]],
        };
        draft.lines.extend((0..names).map(|name| vec![1, constants + name, 0]));
        let problem = draft.bytes();
        let size = 3 * usize::from(constants + names);
        let ran = compare(&problem, 10_000, 160_000 * size, 40_000, rng, counts);
        let need = answer::forms(ran) as usize * size;
        counts.problems += 1;
        compare(&problem, answer::steps(ran), need, 40_000, rng, counts);
        compare(&problem, 10_000, need - 1, 40_000, rng, counts);
    }
}

fn main() {
    let mut arguments = std::env::args().skip(1);
    let mut number = |otherwise: u64| arguments.next().map_or(otherwise, |text| text.parse().expect("a number"));
    let (problems, seed) = (number(6000), number(1));
    let short = match arguments.next().as_deref() {
        None => false,
        Some("short") => true,
        Some(other) => panic!("{other}?"),
    };
    let mut counts = Counts::default();
    let mut wide_forms = vec![0; 10_001 * 192];
    let mut wide_trace = vec![0; 40_000];

    for number in 0..problems {
        let mut rng = Rng::new(seed.wrapping_mul(1 << 32) + number);
        let rng = &mut rng;
        let drawn = generate::draw(rng);
        let draft = &drawn.draft;
        let mut problem = draft.bytes();
        counts.problems += 1;
        let damaged = number % 6 == 5;
        if damaged {
            counts.damaged += 1;
            let fault = 1 + (number / 6 % 11) as u8;
            let other = 1 + rng.below(11) as u8;
            match rng.below(10) {
                0..=3 => problem = generate::damage(rng, draft, fault),
                4 | 5 => problem = generate::damage_twice(rng, draft, [fault, other]),
                6 | 7 => problem = generate::damage_line(rng, draft),
                8 => {
                    problem = generate::damage(rng, draft, fault);
                    generate::scratch(rng, &mut problem);
                }
                _ => generate::scratch(rng, &mut problem),
            }
            if rng.percent(3) {
                problem.clear();
            }
        }

        // How many steps and what room the whole run takes, by this solver.
        let whole = solver::run(&problem, 10_000, &mut wide_forms, &mut wide_trace);
        let steps = answer::steps(whole);
        let Ok(sheet) = Sheet::read(&problem) else {
            // Refused: budgets and buffers of all sorts change nothing.
            let coverage = &mut counts.coverage;
            coverage.see_if("refused problems of", "0 bytes", problem.is_empty());
            coverage.see_if("refused problems of", "4,097 bytes", problem.len() == MAX_BYTES + 1);
            coverage.see_if("refused problems of", "more", problem.len() > MAX_BYTES + 1);
            let budget = *rng.pick(&[0, 1, 10_000, 10_001, u64::MAX]);
            compare(&problem, 0, 0, 0, rng, &mut counts);
            compare(&problem, 5, 64, 20, rng, &mut counts);
            let room = rng.below(500);
            let traced = rng.below(500);
            compare(&problem, budget, room, traced, rng, &mut counts);
            compare_check(&problem, &drawn.plan.bytes(), rng, &mut counts);
            continue;
        };
        // About how much work a run is: steps, each a search over the problem.
        let work = |steps: u64| steps * (200 + problem.len() as u64);
        if short && work(steps) > 200_000 {
            continue;
        }
        counts.well_formed += 1;
        let listed = answer::forms(whole);
        let records = wide_trace[..4 * steps as usize].to_vec();
        let split = records.chunks_exact(4).any(|record| is_split(record[0]));
        counts.satisfiable += (listed > 0) as u64;
        counts.split_problems += split as u64;
        counts.satisfiable_split += (listed > 0 && split) as u64;
        let ended = matches!(answer::verdict(whole), answer::FORMS | answer::FALSE);
        let size = 3 * sheet.terms;
        let mut budgets = vec![0, 1, steps, 10_000, 10_001];
        if steps > 0 {
            budgets.push(steps - 1);
            budgets.push(rng.below(steps as usize) as u64);
        }
        if rng.percent(20) {
            budgets.push(*rng.pick(&[u64::MAX, 1 << 32, 1 << 62, (1 << 62) + 1, 20_000]));
        }
        for budget in budgets {
            let exact = 4 * budget.min(10_001) as usize;
            if budget > 10_000 {
                let room = rng.below(600);
                compare(&problem, budget, room, exact, rng, &mut counts);
                continue;
            }
            // The room that this budget's records take.
            let wanted = if budget >= steps {
                whole
            } else {
                solver::run(&problem, budget, &mut wide_forms, &mut wide_trace)
            };
            let need = answer::forms(wanted) as usize * size;
            let heavy = work(steps.min(budget)) > 200_000;
            let very = work(steps.min(budget)) > 4_000_000;
            let other = budget != steps && budget + 1 != steps;
            if very && rng.percent(90) || heavy && other && rng.percent(80) {
                continue;
            }
            let mut rooms = vec![need];
            if !heavy || rng.percent(15) {
                rooms.push(need + 3 * size + rng.below(50));
                rooms.push(need.saturating_sub(1));
            }
            if !heavy || rng.percent(5) {
                rooms.push(0);
                rooms.push(rng.below(need + 2));
            }
            for room in rooms {
                let traced = exact + rng.below(2) * rng.below(60);
                let ran = compare(&problem, budget, room, traced, rng, &mut counts);
                // (One split can give 64 forms, so even the wide buffer may
                // have been too small.)
                if ended && room >= need && ran != wanted {
                    println!("FAULT of the separate solver: {}", hex(&problem));
                    exit(1);
                }
                let mut with = |name: &str, seen: bool| counts.coverage.see_if("runs with", name, seen);
                if need > 0 {
                    with("form buffer of 0 bytes", room == 0);
                    with("form buffer exact", room == need);
                    with("form buffer one byte short", room + 1 == need);
                }
                if ended && steps > 0 && room >= need {
                    with("budget one less than needed", budget + 1 == steps);
                    with("budget as needed", budget == steps);
                }
            }
            if exact > 0 && rng.percent(40) {
                compare(&problem, budget, need, exact - 1, rng, &mut counts);
            }
        }
        solver::run(&problem, 10_000, &mut wide_forms, &mut wide_trace);
        judge(&problem, &drawn, whole, &wide_forms, rng, &mut counts);
        if answer::verdict(whole) == answer::FALSE && check(&problem, &drawn.plan.bytes()) == answer::HOLDS {
            println!("FAULT in meaning: FALSE, but a setting holds: {}", hex(&problem));
            exit(1);
        }
        counts.coverage.problem(&problem, &sheet);
        counts.coverage.steps(&problem, &sheet, &records, listed > 0);

        // The same problem with faults at its end, or two anywhere.
        for _ in 0..3 {
            let faults = [1 + rng.below(11) as u8, 1 + rng.below(11) as u8];
            let bytes = if rng.percent(70) {
                generate::damage_line(rng, draft)
            } else {
                generate::damage_twice(rng, draft, faults)
            };
            let (budget, room) = (rng.below(30), rng.below(100));
            compare(&bytes, budget as u64, room, 4 * budget, rng, &mut counts);
            compare_check(&bytes, &drawn.plan.bytes(), rng, &mut counts);
        }
    }

    if !short {
        many_forms(&mut Rng::new(seed), &mut counts);
    }
    println!("seed {seed}: {} problems, {} of them meant to be damaged", counts.problems, counts.damaged);
    println!(
        "well formed: {}; satisfiable: {}; reaching a split: {}; both: {}",
        counts.well_formed, counts.satisfiable, counts.split_problems, counts.satisfiable_split
    );
    println!(
        "runs compared: {}, {} of them with a split, most steps {}, most forms {}; checks compared: {}",
        counts.runs, counts.split_runs, counts.most_steps, counts.most_forms, counts.checks
    );
    if !short {
        let whole = counts.coverage.report();
        let half = 2 * counts.satisfiable_split >= counts.well_formed;
        if !half {
            println!("NOT REACHED: half of the well formed problems satisfiable and with a split");
        }
        let many = counts.runs >= 20_000;
        if !many {
            println!("NOT REACHED: 20,000 runs");
        }
        if !whole || !half || !many {
            exit(1);
        }
    }
    println!("no difference");
}
