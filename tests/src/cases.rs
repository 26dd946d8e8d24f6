//! C1 to C12 of document 01, on this solver and on the library. Only C1's trace
//! is given there; the others were worked by hand from its rules.

use crate::{answer, ffi, generate::Plan, sheet::Sheet, solver};

struct Case {
    name: &'static str,
    sheet: &'static str,
    budget: u64,
    room: usize,
    word: u64,
    forms: &'static str,
    trace: &'static str,
}

fn hex(text: &str) -> Vec<u8> {
    text.split_whitespace().map(|byte| u8::from_str_radix(byte, 16).unwrap()).collect()
}

const C1: &str = "02 03 00 04 00 01 78 01 41 03 01 02 00 0C 00 00 01 04 02 00";
const C4: &str = "02 03 00 04 00 01 78 01 41 03 01 02 00 0C 00 00 01 04 02";
const C11: &str = "00 02 78 79 02 41 42 03 08 00 01 01 00 00 01 01 01";

fn cases() -> Vec<Case> {
    use answer::*;
    let case = |name, sheet, budget, room, word, forms, trace| Case {
        name,
        sheet,
        budget,
        room,
        word,
        forms,
        trace,
    };
    vec![
        case(
            "C1", C1, 5, 9, ended(FORMS, 5, 1),
            "00 01 00 01 01 00 01 01 00",
            "01 00 02 01 13 01 00 01 13 01 01 01 14 01 02 02 04 02 00 00",
        ),
        case(
            "C2", C1, 4, 9, ended(SPENT, 4, 0), "",
            "01 00 02 01 13 01 00 01 13 01 01 01 14 01 02 02",
        ),
        case(
            "C3", C1, 5, 8, ended(NO_ROOM, 5, 0), "",
            "01 00 02 01 13 01 00 01 13 01 01 01 14 01 02 02 04 02 00 00",
        ),
        case("C4", C4, 5, 9, refused(2), "", ""),
        case("C5", "00 00 00 00", 0, 0, ended(FORMS, 0, 1), "", ""),
        case("C6", "", 0, 0, refused(2), "", ""),
        case("C7", "00 00 01 41 01 06 00 00", 9, 99, ended(FALSE, 1, 0), "", "07 00 00 00"),
        case(
            "C8", "00 01 78 01 41 02 0B 00 00 01 00 00", 9, 99, ended(FALSE, 2, 0), "",
            "01 01 00 01 14 00 00 00",
        ),
        case(
            "C9", "02 03 00 04 00 00 00 01 03 00 01", 9, 99, ended(FALSE, 1, 0), "",
            "03 00 00 00",
        ),
        case(
            "C10", "00 01 78 03 41 42 43 02 07 00 01 02 01 00 02", 9, 99, ended(FORMS, 2, 2),
            "00 05 00 00 06 01", "01 01 00 01 0C 00 00 02",
        ),
        case(
            "C11", C11, 9, 99, ended(FORMS, 4, 1), "00 01 02 01 02 01",
            "01 01 00 01 0D 00 00 01 01 02 01 01 0E 00 01 01",
        ),
        case("C12", "02 03 00 05 00 00 01 41 01 0C 00 00 01", 9, 99, refused(9), "", ""),
    ]
}

/// Further cases, worked by hand.
fn further() -> Vec<Case> {
    use answer::*;
    let case = |name, sheet, word, forms, trace| Case { name, sheet, budget: 9, room: 99, word, forms, trace };
    vec![
        // x in A, y in B, x = y: the class has both facts.
        case(
            "facts meet", "00 02 78 79 02 41 42 03 01 00 00 01 01 01 03 00 01", ended(FORMS, 3, 1),
            "00 03 00 00 03 00", "01 00 00 01 01 01 01 01 03 02 00 01",
        ),
        // y in A, x out of A, x = y.
        case(
            "facts contradict", "00 02 78 79 01 41 03 01 01 00 02 00 00 03 00 01", ended(FALSE, 3, 0),
            "", "01 00 01 01 02 01 00 01 03 02 00 00",
        ),
        // Constants -1 and 1.
        case("signs", "02 FF FF 01 00 00 00 00", ended(FORMS, 0, 1), "00 00 00 01 00 00", ""),
        // Constants -1 and 0, A = [-1, 0].
        case(
            "interval over 0", "02 FF FF 00 00 00 01 41 01 0C 00 00 01", ended(FORMS, 2, 1),
            "00 01 00 01 01 00", "13 00 00 01 13 00 01 01",
        ),
    ]
}

fn expect(case: &Case, run: impl Fn(&[u8], u64, &mut [u8], &mut [u8]) -> u64) {
    let sheet = hex(case.sheet);
    let mut forms: Vec<u8> = (0..case.room).map(|at| (at * 7 + 0xA5) as u8).collect();
    let mut trace: Vec<u8> = (0..4 * case.budget as usize + 9).map(|at| (at * 5 + 0x5A) as u8).collect();
    let (forms_before, trace_before) = (forms.clone(), trace.clone());
    let word = run(&sheet, case.budget, &mut forms, &mut trace);
    assert_eq!(word, case.word, "{}: {}", case.name, answer::show(word));
    let wanted = hex(case.forms);
    assert_eq!(forms[..wanted.len()], wanted, "{}: forms", case.name);
    assert_eq!(forms[wanted.len()..], forms_before[wanted.len()..], "{}: rest of forms", case.name);
    let steps = 4 * answer::steps(word) as usize;
    assert_eq!(trace[..steps], hex(case.trace), "{}: trace", case.name);
    assert_eq!(trace[steps..], trace_before[steps..], "{}: rest of trace", case.name);
}

#[test]
fn cases_of_document_01_on_this_solver() {
    for case in cases() {
        expect(&case, solver::run);
    }
}

#[test]
fn cases_of_document_01_on_the_library() {
    for case in cases() {
        expect(&case, |sheet, budget, forms, trace| {
            ffi::run(sheet, budget, forms, trace, 77).unwrap()
        });
    }
}

#[test]
fn further_cases_on_this_solver() {
    for case in further() {
        expect(&case, solver::run);
    }
}

#[test]
fn further_cases_on_the_library() {
    for case in further() {
        expect(&case, |sheet, budget, forms, trace| {
            ffi::run(sheet, budget, forms, trace, 77).unwrap()
        });
    }
}

#[test]
fn worked_settings_of_document_01() {
    let c11 = hex(C11);
    let plan = Plan::worked(&Sheet::read(&c11).ok().unwrap(), &hex("00 01 02 01 02 01"));
    assert_eq!(plan.values, [32_001, 32_002]);
    let c1 = hex(C1);
    let plan = Plan::worked(&Sheet::read(&c1).ok().unwrap(), &hex("00 01 00 01 01 00 01 01 00"));
    assert_eq!(plan.values, [4]);
    assert_eq!(plan.sets, [[3, 4].into()]);
    assert_eq!(crate::check::check(&c1, &plan.bytes()), answer::HOLDS);
}

#[test]
fn budget_and_trace_refusals() {
    let c1 = hex(C1);
    let mut forms = [0xEE; 9];
    let mut trace = vec![0xDD; 40_004];
    assert_eq!(solver::run(&c1, 10_001, &mut forms, &mut trace), answer::refused(12));
    assert_eq!(solver::run(&c1, u64::MAX, &mut forms, &mut trace), answer::refused(12));
    assert_eq!(solver::run(&c1, 10_000, &mut forms, &mut trace[..39_999]), answer::refused(13));
    assert!(forms.iter().all(|&byte| byte == 0xEE) && trace.iter().all(|&byte| byte == 0xDD));
    // Asked in order: the sheet's own fault comes first.
    assert_eq!(solver::run(&c1[..3], 10_001, &mut forms, &mut []), answer::refused(2));
    assert_eq!(solver::run(&c1, 10_001, &mut forms, &mut []), answer::refused(12));
}

#[test]
fn hand_check() {
    let c1 = hex(C1);
    let check = |setting: &str| crate::check::check(&c1, &hex(setting));
    assert_eq!(check("01 04 00 02 03 00 04 00"), answer::HOLDS);
    assert_eq!(check("01 05 00 02 03 00 04 00"), answer::fails(0));
    assert_eq!(check("01 04 00 03 03 00 04 00 05 00"), answer::fails(1));
    assert_eq!(check("01 03 00 02 03 00 04 00"), answer::fails(2));
    assert_eq!(check("01 04 00 02 04 00 03 00"), answer::refused(14));
    assert_eq!(check("01 04 00 02 03 00 03 00"), answer::refused(14));
    assert_eq!(check("01 04 00 02 03 00 04"), answer::refused(14));
    assert_eq!(check("01 04 00 02 03 00 04 00 00"), answer::refused(14));
    assert_eq!(check("00 02 03 00 04 00"), answer::refused(14));
    assert_eq!(check(""), answer::refused(14));
    assert_eq!(crate::check::check(&c1[..19], &[]), answer::refused(2));
    assert_eq!(crate::check::check(&hex("00 00 00 00"), &[0]), answer::HOLDS);
}
