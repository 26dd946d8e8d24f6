//! A small text for problems, so that one can be read beside its source.
//!
//! Statements stand between semicolons. A small letter is a number variable, a
//! capital is a set variable, a numeral is a constant.
//!
//! | kind | text |
//! |---|---|
//! | 1, 2 | `x in A`, `x notin A` |
//! | 3, 4 | `x = y`, `x != y` |
//! | 5, 6 | `A = B`, `A != B` |
//! | 7 | `C = A + B` |
//! | 8 | `A || B` |
//! | 9 | `A sub B` |
//! | 10 | `C = A & B` |
//! | 11 | `A = {x, 3}` |
//! | 12 | `A = [1, 4]` |
//!
//! Where a set variable may stand, so may `{x, 3}`, `[1, 4]` or `{x, 3 | A}`.
//! It gets an unused capital, from Z downwards, and its own constraints, which
//! stand before the statement: `Z = {x, 3}`; `Z = [1, 4]`; for the tail A,
//! `Z = {x, 3}; Y = Z + A`. The same text in one problem gets the same letter.
//! `B = {x | A}` is `Z = {x}; B = Z + A`. An interval's numbers become
//! constants of the problem.

use crate::generate::Draft;
use std::collections::{BTreeMap, BTreeSet};

#[derive(Clone, Copy, PartialEq, Eq, PartialOrd, Ord)]
enum Term {
    Constant(i16),
    Variable(u8),
}

/// One constraint of the twelve kinds; sets by their letters.
enum Constraint {
    In(Term, u8),
    NotIn(Term, u8),
    Same(Term, Term),
    Differ(Term, Term),
    Equal(u8, u8),
    Unequal(u8, u8),
    Union(u8, u8, u8),
    Disjoint(u8, u8),
    Subset(u8, u8),
    Intersection(u8, u8, u8),
    List(u8, Vec<Term>),
    Interval(u8, i16, i16),
}

/// A set as written.
#[derive(Clone, PartialEq, Eq, PartialOrd, Ord)]
enum Written {
    Letter(u8),
    List(Vec<Term>),
    Interval(i16, i16),
    Tail(Vec<Term>, Box<Written>),
}

#[derive(Clone, Debug, PartialEq, Eq)]
enum Token {
    Number(i16),
    Small(u8),
    Capital(u8),
    Word(String),
    Sign(&'static str),
}

const SIGNS: [&str; 13] = ["!=", "||", "=", "+", "&", "{", "}", "[", "]", "|", ",", ";", "-"];

fn tokens(text: &str) -> Result<Vec<Token>, String> {
    let mut found = Vec::new();
    let mut rest = text.trim_start();
    while let Some(first) = rest.chars().next() {
        let run = |fits: fn(char) -> bool| rest.find(|c| !fits(c)).unwrap_or(rest.len());
        let length = if first.is_ascii_digit() {
            let end = run(|c| c.is_ascii_digit());
            let negative = found.last() == Some(&Token::Sign("-"));
            if negative {
                found.pop();
            }
            let size: i16 = rest[..end].parse().map_err(|_| format!("number {}", &rest[..end]))?;
            found.push(Token::Number(if negative { -size } else { size }));
            end
        } else if first.is_ascii_alphabetic() {
            let end = run(|c| c.is_ascii_alphabetic());
            found.push(match (&rest[..end], rest.as_bytes()[0]) {
                (word, letter) if word.len() == 1 && letter.is_ascii_lowercase() => Token::Small(letter),
                (word, letter) if word.len() == 1 => Token::Capital(letter),
                (word, _) => Token::Word(word.to_string()),
            });
            end
        } else {
            let sign = SIGNS.iter().find(|sign| rest.starts_with(**sign));
            let sign = sign.ok_or_else(|| format!("sign {first}"))?;
            found.push(Token::Sign(sign));
            sign.len()
        };
        rest = rest[length..].trim_start();
    }
    Ok(found)
}

pub struct Problem {
    constraints: Vec<Constraint>,
}

struct Parser {
    tokens: std::iter::Peekable<std::vec::IntoIter<Token>>,
    constraints: Vec<Constraint>,
    /// Capitals not yet used, the next one last.
    unused: Vec<u8>,
    letters: BTreeMap<Written, u8>,
}

impl Parser {
    fn takes(&mut self, sign: &'static str) -> bool {
        self.tokens.next_if(|token| *token == Token::Sign(sign)).is_some()
    }

    fn wants(&mut self, sign: &'static str) -> Result<(), String> {
        if self.takes(sign) {
            Ok(())
        } else {
            Err(format!("{sign} wanted, {:?} found", self.tokens.peek()))
        }
    }

    fn term(&mut self) -> Result<Term, String> {
        match self.tokens.next() {
            Some(Token::Number(n)) => Ok(Term::Constant(n)),
            Some(Token::Small(x)) => Ok(Term::Variable(x)),
            other => Err(format!("a term wanted, {other:?} found")),
        }
    }

    fn number(&mut self) -> Result<i16, String> {
        match self.term()? {
            Term::Constant(n) => Ok(n),
            Term::Variable(_) => Err("an interval's ends are constants".to_string()),
        }
    }

    fn set(&mut self) -> Result<Written, String> {
        if self.takes("[") {
            let low = self.number()?;
            self.wants(",")?;
            let high = self.number()?;
            self.wants("]")?;
            return Ok(Written::Interval(low, high));
        }
        if self.takes("{") {
            let mut entries = Vec::new();
            if self.takes("}") {
                return Ok(Written::List(entries));
            }
            loop {
                entries.push(self.term()?);
                if self.takes("}") {
                    return Ok(Written::List(entries));
                }
                if self.takes("|") {
                    let tail = self.set()?;
                    self.wants("}")?;
                    return Ok(Written::Tail(entries, Box::new(tail)));
                }
                self.wants(",")?;
            }
        }
        match self.tokens.next() {
            Some(Token::Capital(a)) => Ok(Written::Letter(a)),
            other => Err(format!("a set wanted, {other:?} found")),
        }
    }

    /// The letter of a set as written, its own constraints being added.
    fn letter(&mut self, set: Written) -> Result<u8, String> {
        if let Written::Letter(a) = set {
            return Ok(a);
        }
        if let Some(&a) = self.letters.get(&set) {
            return Ok(a);
        }
        let parts = match &set {
            Written::Tail(entries, tail) => {
                let list = self.letter(Written::List(entries.clone()))?;
                Some((list, self.letter((**tail).clone())?))
            }
            _ => None,
        };
        let a = self.unused.pop().ok_or("no capital left")?;
        self.constraints.push(match (&set, parts) {
            (Written::List(entries), _) => Constraint::List(a, entries.clone()),
            (Written::Interval(low, high), _) => Constraint::Interval(a, *low, *high),
            (_, Some((list, tail))) => Constraint::Union(list, tail, a),
            _ => unreachable!(),
        });
        self.letters.insert(set, a);
        Ok(a)
    }

    fn statement(&mut self) -> Result<(), String> {
        let of_terms = matches!(self.tokens.peek(), Some(Token::Number(_) | Token::Small(_)));
        if of_terms {
            let t = self.term()?;
            let constraint = match self.tokens.next() {
                Some(Token::Sign("=")) => Constraint::Same(t, self.term()?),
                Some(Token::Sign("!=")) => Constraint::Differ(t, self.term()?),
                Some(Token::Word(word)) => {
                    let set = self.set()?;
                    let a = self.letter(set)?;
                    match word.as_str() {
                        "in" => Constraint::In(t, a),
                        "notin" => Constraint::NotIn(t, a),
                        _ => return Err(format!("word {word}")),
                    }
                }
                other => return Err(format!("after a term: {other:?}")),
            };
            self.constraints.push(constraint);
            return Ok(());
        }

        let left = self.set()?;
        let sign = self.tokens.next();
        let right = self.set()?;
        if sign == Some(Token::Sign("=")) {
            let sum = self.takes("+");
            if sum || self.takes("&") {
                let other = self.set()?;
                let (a, b) = (self.letter(right)?, self.letter(other)?);
                let c = self.letter(left)?;
                self.constraints.push(if sum {
                    Constraint::Union(a, b, c)
                } else {
                    Constraint::Intersection(a, b, c)
                });
                return Ok(());
            }
            if let (Written::Letter(a), right) = (&left, &right) {
                let own = match right.clone() {
                    Written::Letter(b) => Constraint::Equal(*a, b),
                    Written::List(entries) => Constraint::List(*a, entries),
                    Written::Interval(low, high) => Constraint::Interval(*a, low, high),
                    Written::Tail(entries, tail) => {
                        let list = self.letter(Written::List(entries))?;
                        Constraint::Union(list, self.letter(*tail)?, *a)
                    }
                };
                self.constraints.push(own);
                return Ok(());
            }
        }
        let (a, b) = (self.letter(left)?, self.letter(right)?);
        self.constraints.push(match sign {
            Some(Token::Sign("=")) => Constraint::Equal(a, b),
            Some(Token::Sign("!=")) => Constraint::Unequal(a, b),
            Some(Token::Sign("||")) => Constraint::Disjoint(a, b),
            Some(Token::Word(word)) if word == "sub" => Constraint::Subset(a, b),
            other => return Err(format!("between sets: {other:?}")),
        });
        Ok(())
    }
}

impl Problem {
    pub fn read(text: &str) -> Result<Problem, String> {
        let tokens = tokens(text)?;
        let used = |letter: &u8| tokens.contains(&Token::Capital(*letter));
        let unused = (b'A'..=b'Z').filter(|letter| !used(letter)).collect();
        let mut parser = Parser {
            tokens: tokens.into_iter().peekable(),
            constraints: Vec::new(),
            unused,
            letters: BTreeMap::new(),
        };
        loop {
            parser.statement()?;
            if parser.tokens.peek().is_none() {
                return Ok(Problem { constraints: parser.constraints });
            }
            parser.wants(";")?;
        }
    }

    fn terms(&self) -> BTreeSet<Term> {
        let mut terms = BTreeSet::new();
        for constraint in &self.constraints {
            match constraint {
                Constraint::In(t, _) | Constraint::NotIn(t, _) => terms.extend([*t]),
                Constraint::Same(t, u) | Constraint::Differ(t, u) => terms.extend([*t, *u]),
                Constraint::List(_, entries) => terms.extend(entries),
                Constraint::Interval(_, low, high) => {
                    terms.extend([Term::Constant(*low), Term::Constant(*high)]);
                    terms.extend((*low..=*high).map(Term::Constant));
                }
                _ => {}
            }
        }
        terms
    }

    fn sets(&self) -> BTreeSet<u8> {
        let mut sets = BTreeSet::new();
        for constraint in &self.constraints {
            match *constraint {
                Constraint::In(_, a) | Constraint::NotIn(_, a) => sets.extend([a]),
                Constraint::Same(..) | Constraint::Differ(..) => {}
                Constraint::List(a, _) | Constraint::Interval(a, ..) => sets.extend([a]),
                Constraint::Equal(a, b)
                | Constraint::Unequal(a, b)
                | Constraint::Disjoint(a, b)
                | Constraint::Subset(a, b) => sets.extend([a, b]),
                Constraint::Union(a, b, c) | Constraint::Intersection(a, b, c) => sets.extend([a, b, c]),
            }
        }
        sets
    }

    /// The problem in document 01's bytes.
    pub fn bytes(&self) -> Vec<u8> {
        // Constants come before variables in this order, as in document 01's.
        let terms: Vec<Term> = self.terms().into_iter().collect();
        let sets: Vec<u8> = self.sets().into_iter().collect();
        let term = |t: &Term| terms.iter().position(|u| u == t).unwrap() as u8;
        let constant = |n: &i16| term(&Term::Constant(*n));
        let set = |a: &u8| sets.iter().position(|b| b == a).unwrap() as u8;
        let line = |constraint: &Constraint| match constraint {
            Constraint::In(t, a) => vec![1, term(t), set(a)],
            Constraint::NotIn(t, a) => vec![2, term(t), set(a)],
            Constraint::Same(t, u) => vec![3, term(t), term(u)],
            Constraint::Differ(t, u) => vec![4, term(t), term(u)],
            Constraint::Equal(a, b) => vec![5, set(a), set(b)],
            Constraint::Unequal(a, b) => vec![6, set(a), set(b)],
            Constraint::Union(a, b, c) => vec![7, set(a), set(b), set(c)],
            Constraint::Disjoint(a, b) => vec![8, set(a), set(b)],
            Constraint::Subset(a, b) => vec![9, set(a), set(b)],
            Constraint::Intersection(a, b, c) => vec![10, set(a), set(b), set(c)],
            Constraint::List(a, entries) => {
                let mut line = vec![11, set(a), entries.len() as u8];
                line.extend(entries.iter().map(term));
                line
            }
            Constraint::Interval(a, low, high) => vec![12, set(a), constant(low), constant(high)],
        };
        let of = |pick: fn(&Term) -> Option<i16>| terms.iter().filter_map(pick);
        Draft {
            constants: of(|t| if let Term::Constant(n) = t { Some(*n) } else { None }).collect(),
            names: of(|t| if let Term::Variable(x) = t { Some(i16::from(*x)) } else { None })
                .map(|x| x as u8)
                .collect(),
            lines: self.constraints.iter().map(line).collect(),
            sets,
        }
        .bytes()
    }

    /// The same problem with every set named: one statement a constraint.
    pub fn whole(&self) -> String {
        let term = |t: &Term| match t {
            Term::Constant(n) => n.to_string(),
            Term::Variable(x) => char::from(*x).to_string(),
        };
        let line = |constraint: &Constraint| {
            let c = |letter: &u8| char::from(*letter);
            match constraint {
                Constraint::In(t, a) => format!("{} in {}", term(t), c(a)),
                Constraint::NotIn(t, a) => format!("{} notin {}", term(t), c(a)),
                Constraint::Same(t, u) => format!("{} = {}", term(t), term(u)),
                Constraint::Differ(t, u) => format!("{} != {}", term(t), term(u)),
                Constraint::Equal(a, b) => format!("{} = {}", c(a), c(b)),
                Constraint::Unequal(a, b) => format!("{} != {}", c(a), c(b)),
                Constraint::Union(a, b, d) => format!("{} = {} + {}", c(d), c(a), c(b)),
                Constraint::Disjoint(a, b) => format!("{} || {}", c(a), c(b)),
                Constraint::Subset(a, b) => format!("{} sub {}", c(a), c(b)),
                Constraint::Intersection(a, b, d) => format!("{} = {} & {}", c(d), c(a), c(b)),
                Constraint::List(a, entries) => {
                    let entries: Vec<String> = entries.iter().map(term).collect();
                    format!("{} = {{{}}}", c(a), entries.join(", "))
                }
                Constraint::Interval(a, low, high) => format!("{} = [{low}, {high}]", c(a)),
            }
        };
        let lines: Vec<String> = self.constraints.iter().map(line).collect();
        lines.join("; ")
    }
}

#[cfg(test)]
mod tests {
    use super::Problem;

    fn hex(text: &str) -> String {
        let bytes = Problem::read(text).unwrap().bytes();
        bytes.iter().map(|byte| format!("{byte:02X}")).collect::<Vec<_>>().join(" ")
    }

    /// The bytes are document 01's, or were worked from it by hand.
    #[test]
    fn the_text_of_known_problems() {
        assert_eq!(
            hex("x in A; A = [3, 4]; x != 3"),
            "02 03 00 04 00 01 78 01 41 03 01 02 00 0C 00 00 01 04 02 00"
        );
        assert_eq!(hex("A != A"), "00 00 01 41 01 06 00 00");
        assert_eq!(hex("A = {}; x in A"), "00 01 78 01 41 02 0B 00 00 01 00 00");
        assert_eq!(hex("3 = 4"), "02 03 00 04 00 00 00 01 03 00 01");
        assert_eq!(hex("C = A + B; x in C"), "00 01 78 03 41 42 43 02 07 00 01 02 01 00 02");
        assert_eq!(
            hex("A || B; x in A; y in B"),
            "00 02 78 79 02 41 42 03 08 00 01 01 00 00 01 01 01"
        );
        assert_eq!(
            hex("x notin A; A = B; A sub B; C = A & B; D = {x, -2}; E = [1, -1]; 1 = x"),
            "03 FE FF FF FF 01 00 01 78 05 41 42 43 44 45 07 \
             02 03 00 05 00 01 09 00 01 0A 00 01 02 0B 03 02 03 00 0C 04 02 01 03 02 03"
        );
    }

    #[test]
    fn sets_without_a_letter() {
        let whole = |text: &str| Problem::read(text).unwrap().whole();
        assert_eq!(
            whole("{x, 1 | A} = {x, 1 | A} + [1, 2]; A || {x, 1}"),
            "Z = {x, 1}; Y = Z + A; X = [1, 2]; Y = Y + X; A || Z"
        );
        assert_eq!(whole("B = {x | A}; B != {x | Z}"), "Y = {x}; B = Y + A; X = Y + Z; B != X");
        assert_eq!(whole("{x | {y | A}} sub A"), "Z = {x}; Y = {y}; X = Y + A; W = Z + X; W sub A");
    }

    #[test]
    fn what_is_not_a_problem() {
        for text in ["", "x", "x in", "x in A;", "A = x", "A | B", "[x, 3] = A", "{x = A", "x is A", "A = B + "] {
            assert!(Problem::read(text).is_err(), "{text}");
        }
    }
}
