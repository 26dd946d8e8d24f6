//! Demand 3 on small sheets, by trying every setting over a few numbers.

use crate::check::Setting;
use crate::generate::{self, Rng};
use crate::sheet::Sheet;
use crate::{answer, generate::Plan, solver};

#[test]
fn sheets_and_their_forms_share_their_solutions() {
    let mut rng = Rng::new(3);
    let (mut sheets, mut solved, mut impossible) = (0, 0, 0);
    let mut forms = vec![0; 2_000_000];
    let mut trace = vec![0; 40_000];
    while sheets < 400 {
        let drawn = generate::draw(&mut rng);
        let bytes = drawn.draft.bytes();
        let Ok(sheet) = Sheet::read(&bytes) else { panic!("a drawn sheet is refused") };
        let word = solver::run(&bytes, 10_000, &mut forms, &mut trace);
        let ended = matches!(answer::verdict(word), answer::FORMS | answer::FALSE);
        let (names, sets) = (sheet.names.len() as u32, sheet.sets.len() as u32);
        if !ended || sheet.constants() > 4 {
            continue;
        }
        let mut domain: Vec<i16> = (0..sheet.constants()).map(|t| sheet.constant(t) as i16).collect();
        domain.extend([32_001, 32_002]);
        let d = domain.len() as u64;
        let tries = d.pow(names) as f64 * 2f64.powi((d as u32 * sets) as i32);
        if tries > 20_000.0 {
            continue;
        }
        let size = 3 * sheet.terms;
        let listed: Vec<&[u8]> =
            (0..answer::forms(word) as usize).map(|at| &forms[at * size..(at + 1) * size]).collect();
        let mut any = false;
        for numbers in 0..d.pow(names) {
            for members in 0..1u64 << (d as u32 * sets) {
                let setting = Setting {
                    values: (0..names).map(|n| i32::from(domain[(numbers / d.pow(n) % d) as usize])).collect(),
                    sets: (0..sets)
                        .map(|s| {
                            (0..d as u32)
                                .filter(|at| members >> (s * d as u32 + at) & 1 == 1)
                                .map(|at| i32::from(domain[at as usize]))
                                .collect()
                        })
                        .collect(),
                };
                let meets = sheet.lines.iter().all(|line| setting.meets(&sheet, line));
                let formed = meets && listed.iter().any(|record| setting.meets_facts(&sheet, record));
                // A form is its facts and the sheet's lines: the other way
                // round, that a form met means the sheet met, goes by itself.
                assert_eq!(meets, formed, "{bytes:02X?}: {:?} {:?}", setting.values, setting.sets);
                any |= meets;
            }
        }
        sheets += 1;
        solved += any as u32;
        impossible += (answer::verdict(word) == answer::FALSE) as u32;
        for record in listed {
            let plan = Plan::worked(&sheet, record);
            assert_eq!(crate::check::check(&bytes, &plan.bytes()), answer::HOLDS, "{bytes:02X?}");
        }
    }
    println!("{sheets} sheets, {solved} with a solution here, {impossible} FALSE");
    assert!(solved > sheets / 3 && impossible > 20);
}
