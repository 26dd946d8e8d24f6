//! Counts of what the differential has tried, each of which is wanted.

use crate::answer;
use crate::generate::WAYS;
use crate::sheet::{Line, Sheet, HIGHEST, LOWEST, MAX_BYTES, MAX_LINES, MAX_SETS, MAX_TERMS};

/// Names with counts, in groups. Only what is wanted can be counted.
pub struct Coverage {
    groups: Vec<(&'static str, Vec<(String, u64)>)>,
}

/// The rules that a merge alone can make apply, where no propagation rule
/// applied before it: rule 4, and those with two premises.
const BY_MERGE: [u8; 4] = [4, 10, 11, 18];

impl Default for Coverage {
    /// Everything that is wanted, and nothing seen.
    fn default() -> Coverage {
        let texts = |all: &[&str]| all.iter().map(|text| text.to_string()).collect::<Vec<_>>();
        let numbers = |from: usize, to: usize| (from..=to).map(|n| n.to_string()).collect::<Vec<_>>();
        // Rule 12 keeps its first child; where rules 11 or 14 would close a
        // branch, rules 10 or 13 do so before them.
        let closing = (1..=20).filter(|rule| ![11, 12, 14].contains(rule));
        let parts: Vec<(&'static str, Vec<String>)> = vec![
            ("problems with kind", numbers(1, 12)),
            (
                "problems with",
                texts(&[
                    "a set twice in a constraint",
                    "a term twice in a constraint",
                    "an entry twice",
                    "an empty list",
                    "an empty interval",
                    "an interval of one",
                    "no constants",
                    "no variables",
                    "no sets",
                    "no constraints",
                    "T = 64",
                    "26 variables",
                    "8 sets",
                    "48 constraints",
                    "4,096 bytes",
                    "all four of these",
                    "constant -32,000",
                    "constant 32,000",
                    "constants of both signs",
                ]),
            ),
            ("steps of rule", numbers(1, 20)),
            ("branches closed by rule", closing.map(|rule| rule.to_string()).collect()),
            ("satisfiable problems that split by rule", texts(&["7", "12", "20"])),
            ("splits with a child dropped, of rule", texts(&["12", "20 (an interval)"])),
            (
                "merges",
                texts(&[
                    "facts meet in a conflict (rule 3, at most one constant)",
                    "facts meet in a conflict (rule 20 loses all children, at most one constant)",
                    "facts meet in a rule of two premises (after rule 20)",
                    "rules compete (after rule 20)",
                    "two constants (rule 3, no sets)",
                ]),
            ),
            ("runs answering", answer::NAMES[..5].iter().map(|name| name.to_string()).collect()),
            (
                "runs with",
                texts(&[
                    "budget 0",
                    "budget 1",
                    "budget one less than needed",
                    "budget as needed",
                    "budget 10,000",
                    "budget 10,001",
                    "budget whose fourfold is past 64 bits",
                    "steps equal to the budget and no SPENT",
                    "SPENT after some form",
                    "NO ROOM after some form",
                    "form buffer of 0 bytes",
                    "form buffer exact",
                    "form buffer one byte short",
                    "form buffer with bytes left",
                    "trace buffer of 0 bytes",
                    "trace buffer exact",
                    "trace buffer one byte short",
                    "trace buffer with bytes left",
                    "more than 65,535 forms",
                ]),
            ),
            ("runs refused by", numbers(1, 13)),
            ("refused problems of", texts(&["0 bytes", "4,097 bytes", "more"])),
            ("checks refused by", numbers(1, 11)),
            ("assignments", texts(&["HOLDS", "FAILS", "with -32,768", "with 32,767", "with a set of 255"])),
            ("assignments that fail first at constraint", numbers(0, MAX_LINES - 1)),
            ("assignments that fail first at kind", numbers(1, 12)),
            ("assignments refused by 14, made malformed in way", numbers(0, WAYS - 1)),
        ];
        let groups = parts
            .into_iter()
            .map(|(group, names)| (group, names.into_iter().map(|name| (name, 0)).collect()))
            .collect();
        Coverage { groups }
    }
}

impl Coverage {
    pub fn add(&mut self, group: &str, name: &str, times: u64) {
        let (_, names) = self.groups.iter_mut().find(|(g, _)| *g == group).expect("no such group");
        let (_, count) = names.iter_mut().find(|(n, _)| n == name).expect("not wanted");
        *count += times;
    }

    pub fn see(&mut self, group: &str, name: &str) {
        self.add(group, name, 1);
    }

    pub fn see_if(&mut self, group: &str, name: &str, seen: bool) {
        self.add(group, name, u64::from(seen));
    }

    pub fn see_number(&mut self, group: &str, number: impl Into<u64>) {
        self.add(group, &number.into().to_string(), 1);
    }

    /// The shape of a problem that was accepted.
    pub fn problem(&mut self, bytes: &[u8], sheet: &Sheet) {
        let kinds = kinds(bytes, sheet);
        for kind in 1..=12 {
            self.add("problems with kind", &kind.to_string(), u64::from(kinds.contains(&kind)));
        }
        let mut some = |name: &str, seen: bool| self.see_if("problems with", name, seen);
        let any = |seen: &dyn Fn(&Line) -> bool| sheet.lines.iter().any(seen);
        some("a set twice in a constraint", any(&|line| match *line {
            Line::Equal { a, b } | Line::Unequal { a, b, .. } => a == b,
            Line::Disjoint { a, b } | Line::Subset { a, b } => a == b,
            Line::Union { a, b, c } | Line::Meet { a, b, c } => a == b || a == c || b == c,
            _ => false,
        }));
        some("a term twice in a constraint", any(&|line| {
            matches!(*line, Line::Same { t, u } | Line::Differ { t, u } if t == u)
        }));
        let lists = |is: u8, seen: &dyn Fn(&[u8]) -> bool| {
            kinds.iter().zip(&sheet.lines).any(|(&kind, line)| {
                kind == is && matches!(*line, Line::List { entries, .. } if seen(entries))
            })
        };
        some("an entry twice", lists(11, &|e| e.iter().enumerate().any(|(at, x)| e[..at].contains(x))));
        some("an empty list", lists(11, &|e| e.is_empty()));
        some("an empty interval", lists(12, &|e| e.is_empty()));
        some("an interval of one", lists(12, &|e| e.len() == 1));
        let constants: Vec<i32> = (0..sheet.constants()).map(|t| sheet.constant(t)).collect();
        some("no constants", constants.is_empty());
        some("no variables", sheet.names.is_empty());
        some("no sets", sheet.sets.is_empty());
        some("no constraints", sheet.lines.is_empty());
        some("T = 64", sheet.terms == MAX_TERMS);
        some("26 variables", sheet.names.len() == 26);
        some("8 sets", sheet.sets.len() == MAX_SETS);
        some("48 constraints", sheet.lines.len() == MAX_LINES);
        some("4,096 bytes", bytes.len() == MAX_BYTES);
        some(
            "all four of these",
            sheet.terms == MAX_TERMS
                && sheet.sets.len() == MAX_SETS
                && sheet.lines.len() == MAX_LINES
                && bytes.len() == MAX_BYTES,
        );
        some("constant -32,000", constants.contains(&i32::from(LOWEST)));
        some("constant 32,000", constants.contains(&i32::from(HIGHEST)));
        some("constants of both signs", constants.iter().any(|&c| c < 0) && constants.iter().any(|&c| c >= 0));
    }

    /// The steps of a problem's longest run.
    pub fn steps(&mut self, bytes: &[u8], sheet: &Sheet, trace: &[u8], satisfiable: bool) {
        let kinds = kinds(bytes, sheet);
        let records: Vec<&[u8]> = trace.chunks_exact(4).collect();
        for record in &records {
            let (rule, left) = (record[0], record[3]);
            self.see_number("steps of rule", rule);
            if left == 0 {
                self.see_number("branches closed by rule", rule);
            }
            let dropped = "splits with a child dropped, of rule";
            self.see_if(dropped, "12", rule == 12 && left == 1);
            let entries = match sheet.lines[usize::from(record[1])] {
                Line::List { entries, .. } if kinds[usize::from(record[1])] == 12 => entries.len(),
                _ => 0,
            };
            self.see_if(dropped, "20 (an interval)", rule == 20 && left > 0 && usize::from(left) < entries);
        }
        for rule in [7, 12, 20] {
            let splits = satisfiable && records.iter().any(|record| record[0] == rule);
            self.add("satisfiable problems that split by rule", &rule.to_string(), u64::from(splits));
        }
        let closes = |rule: u8| records.iter().any(|record| record[0] == rule && record[3] == 0);
        let few = sheet.constants() < 2;
        let entries = sheet.lines.iter().all(|line| !matches!(line, Line::List { entries: [], .. }));
        let mut merge = |name: &str, seen: bool| self.see_if("merges", name, seen);
        merge("facts meet in a conflict (rule 3, at most one constant)", few && closes(3));
        merge(
            "facts meet in a conflict (rule 20 loses all children, at most one constant)",
            few && entries && closes(20),
        );
        merge("two constants (rule 3, no sets)", sheet.sets.is_empty() && closes(3));
        // The propagation steps right after each rule 20: all of them because
        // of the merge.
        let (mut met, mut compete) = (false, false);
        for (at, _) in records.iter().enumerate().filter(|(_, record)| record[0] == 20 && record[3] > 0) {
            let after = records[at + 1..].iter().take_while(|record| !matches!(record[0], 7 | 12 | 20));
            let steps: Vec<(u8, u8)> = after.map(|record| (record[0], record[1])).collect();
            let by_merge: Vec<(u8, u8)> = steps.into_iter().filter(|step| BY_MERGE.contains(&step.0)).collect();
            met |= !by_merge.is_empty();
            compete |= by_merge.iter().any(|step| step.0 != by_merge[0].0 && step.1 != by_merge[0].1);
        }
        merge("facts meet in a rule of two premises (after rule 20)", met);
        merge("rules compete (after rule 20)", compete);
    }

    /// Prints every count; false if one of them is 0.
    pub fn report(&self) -> bool {
        let mut whole = true;
        for (group, names) in &self.groups {
            println!("{group}:");
            let parts: Vec<String> = names.iter().map(|(name, count)| format!("{name}: {count}")).collect();
            println!("  {}", parts.join("; "));
            whole &= names.iter().all(|(_, count)| *count > 0);
        }
        for (group, names) in &self.groups {
            for (name, _) in names.iter().filter(|(_, count)| *count == 0) {
                println!("NOT REACHED: {group} {name}");
            }
        }
        whole
    }
}

/// The kind of each constraint of an accepted problem: a list's is 11 or 12.
pub fn kinds(bytes: &[u8], sheet: &Sheet) -> Vec<u8> {
    let mut at = 4 + 2 * sheet.constants() + sheet.names.len() + sheet.sets.len();
    let mut kinds = Vec::new();
    for _ in &sheet.lines {
        kinds.push(bytes[at]);
        at += match bytes[at] {
            7 | 10 | 12 => 4,
            11 => 3 + usize::from(bytes[at + 2]),
            _ => 3,
        };
    }
    kinds
}
