//! The hand check: does a setting meet a sheet?

use crate::answer;
use crate::sheet::{Line, Sheet};
use std::collections::BTreeSet;

/// A setting as read: a value for each number name, members for each set.
pub struct Setting {
    pub values: Vec<i32>,
    pub sets: Vec<BTreeSet<i32>>,
}

impl Setting {
    /// None if the bytes are not all of a setting of this sheet, and no more.
    pub fn read(sheet: &Sheet, bytes: &[u8]) -> Option<Setting> {
        let mut bytes = bytes.iter().copied();
        let values = |count: u8, bytes: &mut dyn Iterator<Item = u8>| -> Option<Vec<i32>> {
            (0..count)
                .map(|_| {
                    let pair = [bytes.next()?, bytes.next()?];
                    Some(i32::from(i16::from_le_bytes(pair)))
                })
                .collect()
        };
        let count = bytes.next()?;
        if usize::from(count) != sheet.names.len() {
            return None;
        }
        let of_names = values(count, &mut bytes)?;
        let mut sets = Vec::new();
        for _ in sheet.sets {
            let count = bytes.next()?;
            let members = values(count, &mut bytes)?;
            if !members.windows(2).all(|pair| pair[0] < pair[1]) {
                return None;
            }
            sets.push(members.into_iter().collect());
        }
        if bytes.next().is_some() {
            return None;
        }
        Some(Setting { values: of_names, sets })
    }

    /// The value of a constant or number name.
    pub fn value(&self, sheet: &Sheet, t: usize) -> i32 {
        if t < sheet.constants() {
            sheet.constant(t)
        } else {
            self.values[t - sheet.constants()]
        }
    }

    pub fn meets(&self, sheet: &Sheet, line: &Line) -> bool {
        let value = |t: usize| self.value(sheet, t);
        let set = |a: usize| &self.sets[a];
        match *line {
            Line::In { t, a } => set(a).contains(&value(t)),
            Line::Out { t, a } => !set(a).contains(&value(t)),
            Line::Same { t, u } => value(t) == value(u),
            Line::Differ { t, u } => value(t) != value(u),
            Line::Equal { a, b } => set(a) == set(b),
            Line::Unequal { a, b, .. } => set(a) != set(b),
            Line::Union { a, b, c } => *set(c) == set(a) | set(b),
            Line::Disjoint { a, b } => set(a).is_disjoint(set(b)),
            Line::Subset { a, b } => set(a).is_subset(set(b)),
            Line::Meet { a, b, c } => *set(c) == set(a) & set(b),
            // A kind 12 line's entries are all the whole numbers meant:
            // question 9 saw to it.
            Line::List { a, entries } => {
                *set(a) == entries.iter().map(|&t| value(t as usize)).collect()
            }
        }
    }

    /// Whether, with some whole numbers chosen for the witnesses, each term has
    /// its head's value and the facts of a form record are true.
    pub fn meets_facts(&self, sheet: &Sheet, record: &[u8]) -> bool {
        let named = sheet.constants() + sheet.names.len();
        let fits = |head: usize, v: i32| {
            let (ins, outs) = (record[3 * head + 1], record[3 * head + 2]);
            self.sets.iter().enumerate().all(|(s, members)| {
                let inside = members.contains(&v);
                (ins >> s & 1 == 0 || inside) && (outs >> s & 1 == 0 || !inside)
            })
        };
        // A named class has its head's value, since names come before
        // witnesses; for a class of witnesses only, any number will do, and
        // all numbers outside every set are alike.
        let outside = (0..).find(|v| !self.sets.iter().any(|set| set.contains(v))).unwrap();
        (0..sheet.terms).all(|t| {
            let head = record[3 * t] as usize;
            if t < named {
                let v = self.value(sheet, t);
                v == self.value(sheet, head) && fits(head, v)
            } else if head < named {
                fits(head, self.value(sheet, head))
            } else {
                self.sets.iter().flatten().copied().chain([outside]).any(|v| fits(head, v))
            }
        })
    }
}

/// Answers HOLDS, FAILS with the lowest failing line, or a refusal.
pub fn check(problem: &[u8], setting: &[u8]) -> u64 {
    let sheet = match Sheet::read(problem) {
        Ok(sheet) => sheet,
        Err(number) => return answer::refused(number),
    };
    let Some(setting) = Setting::read(&sheet, setting) else {
        return answer::refused(14);
    };
    match sheet.lines.iter().position(|line| !setting.meets(&sheet, line)) {
        None => answer::HOLDS,
        Some(line) => answer::fails(line),
    }
}
