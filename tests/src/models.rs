//! Deciding a problem by its meaning alone: every assignment over a domain of
//! values is tried. The rules of document 01 are not used.
//!
//! The domain holds the constants and as many further values as there are
//! number variables and constraints of kind 6. If a problem has a solution, it
//! has one over this domain: rename the values of its variables, and one value
//! for each kind 6 in which its two sets differ, into the domain, and drop all
//! other values from the sets. So a problem without one here has none at all.
//!
//! Once the numbers are chosen, each kind but 6 says of each value separately
//! which sets may hold it. So the sets are tried value by value, and kind 6
//! asks for one value at which two sets differ.

use crate::check::Setting;
use crate::sheet::{Line, Sheet};
use std::ops::ControlFlow;

pub struct Models<'a> {
    sheet: &'a Sheet<'a>,
    pub domain: Vec<i32>,
    /// The sets of each constraint of kind 6.
    unequal: Vec<(usize, usize)>,
}

/// For each value of the domain, what sets may hold it.
struct Choices {
    numbers: Vec<i32>,
    /// Per value: the masks of sets.
    masks: Vec<Vec<u8>>,
    /// Per value and one beyond: the kind 6 constraints (as a mask) that may be
    /// left over when the values before it are done, and can still be met.
    open: Vec<Vec<bool>>,
}

impl<'a> Models<'a> {
    pub fn of(sheet: &'a Sheet<'a>) -> Models<'a> {
        let unequal: Vec<(usize, usize)> = sheet
            .lines
            .iter()
            .filter_map(|line| if let Line::Unequal { a, b, .. } = *line { Some((a, b)) } else { None })
            .collect();
        let further = (sheet.names.len() + unequal.len()).max(1) as i32;
        let constants = (0..sheet.constants()).map(|t| sheet.constant(t));
        let domain = constants.chain((0..further).map(|n| 32_001 + n)).collect();
        Models { sheet, domain, unequal }
    }

    /// How many ways there are to give values to the variables.
    fn ways(&self) -> f64 {
        (self.domain.len() as f64).powi(self.sheet.names.len() as i32)
    }

    fn term(&self, numbers: &[i32], t: usize) -> i32 {
        match t.checked_sub(self.sheet.constants()) {
            None => self.sheet.constant(t),
            Some(name) => numbers[name],
        }
    }

    /// What a constraint of any kind but 6 says of one value `v`, held by the
    /// sets of `mask` and no others.
    fn at(&self, line: &Line, numbers: &[i32], v: i32, mask: u8) -> bool {
        let holds = |a: usize| mask >> a & 1 == 1;
        let is = |t: usize| self.term(numbers, t) == v;
        match *line {
            Line::In { t, a } => !is(t) || holds(a),
            Line::Out { t, a } => !is(t) || !holds(a),
            Line::Same { t, u } => self.term(numbers, t) == self.term(numbers, u),
            Line::Differ { t, u } => self.term(numbers, t) != self.term(numbers, u),
            Line::Equal { a, b } => holds(a) == holds(b),
            Line::Unequal { .. } => true,
            Line::Union { a, b, c } => holds(c) == (holds(a) || holds(b)),
            Line::Disjoint { a, b } => !(holds(a) && holds(b)),
            Line::Subset { a, b } => !holds(a) || holds(b),
            Line::Meet { a, b, c } => holds(c) == (holds(a) && holds(b)),
            Line::List { a, entries } => holds(a) == entries.iter().any(|&t| is(t as usize)),
        }
    }

    /// The kind 6 constraints whose two sets differ at a value with this mask.
    fn parted(&self, mask: u8) -> usize {
        let differ = |&(a, b): &(usize, usize)| mask >> a & 1 != mask >> b & 1;
        self.unequal.iter().enumerate().filter(|(_, pair)| differ(pair)).map(|(n, _)| 1 << n).sum()
    }

    fn choices(&self, numbers: &[i32]) -> Option<Choices> {
        let of_terms = |line: &&Line| matches!(line, Line::Same { .. } | Line::Differ { .. });
        if !self.sheet.lines.iter().filter(of_terms).all(|line| self.at(line, numbers, 0, 0)) {
            return None;
        }
        let mut masks = Vec::new();
        for &v in &self.domain {
            let fits = |&mask: &u8| self.sheet.lines.iter().all(|line| self.at(line, numbers, v, mask));
            let here: Vec<u8> = (0..1u32 << self.sheet.sets.len()).map(|mask| mask as u8).filter(fits).collect();
            if here.is_empty() {
                return None;
            }
            masks.push(here);
        }
        let all = 1 << self.unequal.len();
        let mut open = vec![vec![false; all]; self.domain.len() + 1];
        open[self.domain.len()][0] = true;
        for at in (0..self.domain.len()).rev() {
            for &mask in &masks[at] {
                for left in 0..all {
                    open[at][left] |= open[at + 1][left & !self.parted(mask)];
                }
            }
        }
        open[0][all - 1].then(|| Choices { numbers: numbers.to_vec(), masks, open })
    }

    /// Gives each choice of numbers that some sets go with. With `alike`, of
    /// the choices that differ only by which of the further values they use,
    /// one is given: the first further value is used before the second, and so on.
    fn each_choice(
        &self,
        alike: bool,
        numbers: &mut Vec<i32>,
        give: &mut dyn FnMut(Choices) -> ControlFlow<()>,
    ) -> ControlFlow<()> {
        if numbers.len() == self.sheet.names.len() {
            return self.choices(numbers).map_or(ControlFlow::Continue(()), give);
        }
        let seen = numbers.iter().max().map_or(0, |most| (most - 32_000).max(0)) as usize;
        let range = if alike { self.sheet.constants() + seen + 1 } else { self.domain.len() };
        for at in 0..range.min(self.domain.len()) {
            numbers.push(self.domain[at]);
            self.each_choice(alike, numbers, give)?;
            numbers.pop();
        }
        ControlFlow::Continue(())
    }

    fn each_model(
        &self,
        choices: &Choices,
        left: usize,
        held: &mut Vec<u8>,
        give: &mut dyn FnMut(Setting) -> ControlFlow<()>,
    ) -> ControlFlow<()> {
        let at = held.len();
        if !choices.open[at][left] {
            return ControlFlow::Continue(());
        }
        if at == self.domain.len() {
            let members = |s: usize| {
                let inside = held.iter().zip(&self.domain).filter(|(mask, _)| **mask >> s & 1 == 1);
                inside.map(|(_, v)| *v).collect()
            };
            return give(Setting {
                values: choices.numbers.clone(),
                sets: (0..self.sheet.sets.len()).map(members).collect(),
            });
        }
        for &mask in &choices.masks[at] {
            held.push(mask);
            self.each_model(choices, left & !self.parted(mask), held, give)?;
            held.pop();
        }
        ControlFlow::Continue(())
    }

    /// The solutions over the domain, at most `most` of them: all, if there are
    /// fewer. Where there are many ways to choose the numbers, only those that
    /// are not alike are gone through.
    pub fn some(&self, most: usize) -> Vec<Setting> {
        let all = (1usize << self.unequal.len()) - 1;
        let mut found = Vec::new();
        let _ = self.each_choice(self.ways() > 50_000.0, &mut Vec::new(), &mut |choices| {
            self.each_model(&choices, all, &mut Vec::new(), &mut |model| {
                found.push(model);
                if found.len() < most {
                    ControlFlow::Continue(())
                } else {
                    ControlFlow::Break(())
                }
            })
        });
        found
    }

    /// The number of solutions over the domain, found without any of the above
    /// but the domain, if there are not too many assignments to try.
    pub fn tried(&self, most: f64) -> Option<usize> {
        let d = self.domain.len();
        let members = d * self.sheet.sets.len();
        if self.ways() * 2f64.powi(members as i32) > most {
            return None;
        }
        let mut met = 0;
        for numbers in 0..self.ways() as usize {
            for held in 0..1u64 << members {
                let digit = |n: usize| numbers / d.pow(n as u32) % d;
                let setting = Setting {
                    values: (0..self.sheet.names.len()).map(|n| self.domain[digit(n)]).collect(),
                    sets: (0..self.sheet.sets.len())
                        .map(|s| (0..d).filter(|at| held >> (s * d + at) & 1 == 1).map(|at| self.domain[at]).collect())
                        .collect(),
                };
                met += self.sheet.lines.iter().all(|line| setting.meets(self.sheet, line)) as usize;
            }
        }
        Some(met)
    }
}
