//! A problem, as its text and its bytes both give it, and document 01's limits.

use std::collections::BTreeSet;
use std::ops::RangeInclusive;

pub const NUMBERS: RangeInclusive<i16> = -32_000..=32_000;
pub const MAX_TERMS: usize = 64;
pub const MAX_SETS: usize = 8;
pub const MAX_CONSTRAINTS: usize = 48;
pub const MAX_ENTRIES: usize = 255;
pub const MAX_BYTES: usize = 4_096;

pub fn at_most(limit: usize, count: usize, what: &str) -> Result<(), String> {
    if count > limit {
        return Err(format!("{count} {what}, but at most {limit} are allowed"));
    }
    Ok(())
}

/// A constant or a variable. Their order here is the order of their numbers.
#[derive(Clone, Copy, Debug, PartialEq, Eq, PartialOrd, Ord)]
pub enum Term {
    Number(i16),
    Variable(char),
}

#[derive(Clone, Copy, Debug, PartialEq, Eq, PartialOrd, Ord)]
pub struct Set(pub char);

/// The twelve kinds, with their operands in document 01's order.
#[derive(Clone, Debug, PartialEq)]
pub enum Constraint {
    In(Term, Set),
    NotIn(Term, Set),
    Same(Term, Term),
    Differ(Term, Term),
    Equal(Set, Set),
    Unequal(Set, Set),
    /// The third set is the union of the first two.
    Union(Set, Set, Set),
    Disjoint(Set, Set),
    Subset(Set, Set),
    /// The third set is the intersection of the first two.
    Intersection(Set, Set, Set),
    List(Set, Vec<Term>),
    Interval(Set, i16, i16),
}

/// What one operand byte stands for.
pub enum Operand {
    Term(Term),
    Set(Set),
    Count(usize),
}

impl Constraint {
    pub fn kind_and_operands(&self) -> (u8, Vec<Operand>) {
        use Constraint::*;
        let term = |t: &Term| Operand::Term(*t);
        let set = |a: &Set| Operand::Set(*a);
        let number = |n: &i16| Operand::Term(Term::Number(*n));
        match self {
            In(t, a) => (1, vec![term(t), set(a)]),
            NotIn(t, a) => (2, vec![term(t), set(a)]),
            Same(t, u) => (3, vec![term(t), term(u)]),
            Differ(t, u) => (4, vec![term(t), term(u)]),
            Equal(a, b) => (5, vec![set(a), set(b)]),
            Unequal(a, b) => (6, vec![set(a), set(b)]),
            Union(a, b, c) => (7, vec![set(a), set(b), set(c)]),
            Disjoint(a, b) => (8, vec![set(a), set(b)]),
            Subset(a, b) => (9, vec![set(a), set(b)]),
            Intersection(a, b, c) => (10, vec![set(a), set(b), set(c)]),
            List(a, entries) => {
                let mut operands = vec![set(a), Operand::Count(entries.len())];
                operands.extend(entries.iter().map(term));
                (11, operands)
            }
            Interval(a, i, j) => (12, vec![set(a), number(i), number(j)]),
        }
    }
}

#[derive(Clone, Debug, Default, PartialEq)]
pub struct Problem {
    pub terms: BTreeSet<Term>,
    pub sets: BTreeSet<Set>,
    pub constraints: Vec<Constraint>,
}

impl Problem {
    /// Adds a constraint, and all that it mentions.
    pub fn add(&mut self, constraint: Constraint) {
        for operand in constraint.kind_and_operands().1 {
            match operand {
                Operand::Term(t) => _ = self.terms.insert(t),
                Operand::Set(a) => _ = self.sets.insert(a),
                Operand::Count(_) => {}
            }
        }
        if let Constraint::Interval(_, i, j) = constraint {
            self.terms.extend((i..=j).map(Term::Number));
        }
        self.constraints.push(constraint);
    }

    /// What is there but is mentioned by no constraint.
    pub fn unmentioned(&self) -> (Vec<Term>, Vec<Set>) {
        let mut mentioned = Problem::default();
        for constraint in &self.constraints {
            mentioned.add(constraint.clone());
        }
        (
            self.terms.difference(&mentioned.terms).copied().collect(),
            self.sets.difference(&mentioned.sets).copied().collect(),
        )
    }

    pub fn constants(&self) -> usize {
        self.terms.iter().filter(|t| matches!(t, Term::Number(_))).count()
    }

    /// One for each `A != B`.
    pub fn witnesses(&self) -> usize {
        self.constraints.iter().filter(|c| matches!(c, Constraint::Unequal(..))).count()
    }

    /// Says which limit is passed, if one is.
    pub fn within_limits(&self) -> Result<(), String> {
        at_most(MAX_SETS, self.sets.len(), "sets")?;
        at_most(MAX_CONSTRAINTS, self.constraints.len(), "constraints")?;
        let (constants, witnesses) = (self.constants(), self.witnesses());
        let variables = self.terms.len() - constants;
        at_most(MAX_TERMS, constants + variables + witnesses, "terms").map_err(|why| {
            format!(
                "{why}: there are {constants} numbers, {variables} variables \
                 and {witnesses} witnesses (one for each A != B)"
            )
        })?;
        let operands = |c: &Constraint| c.kind_and_operands().1.len();
        let lines: usize = self.constraints.iter().map(|c| 1 + operands(c)).sum();
        at_most(MAX_BYTES, 4 + 2 * constants + variables + self.sets.len() + lines, "bytes")
    }
}
