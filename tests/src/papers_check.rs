//! Every row of the table in papers.rs, run and decided by meaning.

use crate::check::Setting;
use crate::generate::{Plan, Rng};
use crate::models::Models;
use crate::papers::{document, Row, SOURCES};
use crate::sheet::Sheet;
use crate::text::Problem;
use crate::{answer, ffi, solver};
use std::collections::BTreeSet;

/// The values of the variables named in `of`, as the table writes them.
fn shown(sheet: &Sheet, setting: &Setting, of: &[u8]) -> String {
    let part = |letter: &u8| {
        if letter.is_ascii_lowercase() {
            let at = sheet.names.iter().position(|name| name == letter).expect("no such variable");
            format!("{}={}", char::from(*letter), setting.values[at])
        } else {
            let at = sheet.sets.iter().position(|name| name == letter).expect("no such set variable");
            let members: Vec<String> = setting.sets[at].iter().map(i32::to_string).collect();
            format!("{}={{{}}}", char::from(*letter), members.join(","))
        }
    };
    of.iter().map(part).collect::<Vec<_>>().join(" ")
}

fn setting_of(plan: &Plan) -> Setting {
    Setting {
        values: plan.values.iter().map(|&v| i32::from(v)).collect(),
        sets: plan.sets.iter().map(|set| set.iter().map(|&v| i32::from(v)).collect()).collect(),
    }
}

fn plan_of(setting: &Setting) -> Plan {
    Plan {
        values: setting.values.iter().map(|&v| v as i16).collect(),
        sets: setting.sets.iter().map(|set| set.iter().map(|&v| v as i16).collect()).collect(),
    }
}

fn run_row(name: &str, row: &Row, rng: &mut Rng) {
    let bytes = Problem::read(row.text).unwrap_or_else(|fault| panic!("{name}: {fault}")).bytes();
    let sheet = Sheet::read(&bytes).unwrap_or_else(|number| panic!("{name}: refused, {number}"));

    // Both runs, all bytes.
    let (mut forms, mut trace) = (vec![0; 30_000], vec![0; 40_000]);
    rng.fill(&mut forms);
    rng.fill(&mut trace);
    let (mut forms_of_library, mut trace_of_library) = (forms.clone(), trace.clone());
    let word = solver::run(&bytes, 10_000, &mut forms, &mut trace);
    let of_library = ffi::run(&bytes, 10_000, &mut forms_of_library, &mut trace_of_library, rng.next());
    assert_eq!(of_library, Ok(word), "{name}: answers");
    assert!(forms == forms_of_library, "{name}: form buffers");
    assert!(trace == trace_of_library, "{name}: trace buffers");

    // The verdict.
    let wanted = if row.satisfiable { answer::FORMS } else { answer::FALSE };
    assert_eq!(answer::verdict(word), wanted, "{name}: {}", answer::show(word));

    // The verdict by meaning.
    let models = Models::of(&sheet);
    let most = 400;
    let found = models.some(most);
    assert_eq!(!found.is_empty(), row.satisfiable, "{name}: by meaning");
    if let Some(count) = models.tried(70_000.0) {
        assert_eq!(count.min(most), found.len(), "{name}: two ways to count solutions");
    }
    let meets = |setting: &Setting| sheet.lines.iter().all(|line| setting.meets(&sheet, line));
    let holds = |plan: &Plan| ffi::check(&bytes, &plan.bytes(), 5) == Ok(answer::HOLDS);
    let size = 3 * sheet.terms;
    let records: Vec<&[u8]> =
        (0..answer::forms(word) as usize).map(|at| &forms[at * size..(at + 1) * size]).collect();
    for model in &found {
        assert!(meets(model) && holds(&plan_of(model)), "{name}: a solution is not one");
        let form = records.iter().any(|record| model.meets_facts(&sheet, record));
        assert!(form, "{name}: a solution meets no form");
    }

    // Each form's model.
    let worked: Vec<Setting> = records.iter().map(|record| setting_of(&Plan::worked(&sheet, record))).collect();
    for model in &worked {
        assert!(meets(model) && holds(&plan_of(model)), "{name}: a form's model is no solution");
    }

    // The solutions that the row gives.
    let letters = |text: &str| -> Vec<u8> {
        let named = text.split(' ').map(|part| part.as_bytes()[0]);
        named.collect()
    };
    let listed = |of: &[u8]| -> BTreeSet<String> {
        assert!(found.len() < most, "{name}: too many solutions to list");
        found.iter().map(|model| shown(&sheet, model, of)).collect()
    };
    if let Some(first) = row.solutions.first() {
        let of = letters(first);
        let given: BTreeSet<String> = row.solutions.iter().map(|text| text.to_string()).collect();
        assert_eq!(given.len(), row.solutions.len(), "{name}: a solution twice");
        assert_eq!(listed(&of), given, "{name}: solutions");
        for model in &worked {
            assert!(given.contains(&shown(&sheet, model, &of)), "{name}: a form's model is not listed");
        }
    }
    if let Some((count, of)) = row.count {
        assert_eq!(listed(&letters(of)).len(), count, "{name}: number of solutions");
    }
}

#[test]
fn the_papers_examples() {
    let mut rng = Rng::new(7);
    for source in &SOURCES {
        for (at, row) in source.rows.iter().enumerate() {
            run_row(&format!("{}.{} `{}`", source.file, at + 1, row.text), row, &mut rng);
        }
    }
}

#[test]
fn each_row_is_there_once() {
    let rows: Vec<&Row> = SOURCES.iter().flat_map(|source| source.rows).collect();
    assert!(rows.len() >= 100);
    for source in &SOURCES {
        for (at, row) in source.rows.iter().enumerate() {
            let again = source.rows[..at].iter().any(|other| other.line == row.line && other.text == row.text);
            assert!(!again, "{}.{}: `{}`", source.file, at + 1, row.text);
            assert!(row.satisfiable || row.solutions.is_empty() && row.count.is_none(), "{}.{}", source.file, at + 1);
        }
    }
}

#[test]
fn papers_md_is_the_table() {
    let written = include_str!("../PAPERS.md");
    assert!(written == document(), "write tests/PAPERS.md anew: papers > PAPERS.md");
}
