//! A problem's text, both ways.
//!
//! A line is a constraint, a declaration or empty; `#` starts a comment. One letter a to z is a
//! variable, one letter A to Z a set. A declaration is for what no constraint mentions.

use crate::problem::*;
use std::fmt;

pub const FORMS: &str = "  x in A, x not in A, x = y, x != y (x and y may be numbers)
  A = B, A != B, C = A + B (union), C = A & B (intersection), A disjoint B, A subset B
  A = {3, x}, A = {}, A = [3, 6] (all whole numbers from 3 to 6)
  numbers 3 -4, variables x y, sets A B (what no other line mentions)";

impl fmt::Display for Term {
    fn fmt(&self, f: &mut fmt::Formatter) -> fmt::Result {
        match self {
            Term::Number(n) => write!(f, "{n}"),
            Term::Variable(x) => write!(f, "{x}"),
        }
    }
}

impl fmt::Display for Set {
    fn fmt(&self, f: &mut fmt::Formatter) -> fmt::Result {
        write!(f, "{}", self.0)
    }
}

impl fmt::Display for Constraint {
    fn fmt(&self, f: &mut fmt::Formatter) -> fmt::Result {
        use Constraint::*;
        match self {
            In(t, a) => write!(f, "{t} in {a}"),
            NotIn(t, a) => write!(f, "{t} not in {a}"),
            Same(t, u) => write!(f, "{t} = {u}"),
            Differ(t, u) => write!(f, "{t} != {u}"),
            Equal(a, b) => write!(f, "{a} = {b}"),
            Unequal(a, b) => write!(f, "{a} != {b}"),
            Union(a, b, c) => write!(f, "{c} = {a} + {b}"),
            Disjoint(a, b) => write!(f, "{a} disjoint {b}"),
            Subset(a, b) => write!(f, "{a} subset {b}"),
            Intersection(a, b, c) => write!(f, "{c} = {a} & {b}"),
            List(a, entries) => {
                let entries: Vec<String> = entries.iter().map(Term::to_string).collect();
                write!(f, "{a} = {{{}}}", entries.join(", "))
            }
            Interval(a, i, j) => write!(f, "{a} = [{i}, {j}]"),
        }
    }
}

/// Declarations of what no constraint mentions, then a line for each constraint.
impl fmt::Display for Problem {
    fn fmt(&self, f: &mut fmt::Formatter) -> fmt::Result {
        let declare = |f: &mut fmt::Formatter, word: &str, names: Vec<String>| match names.len() {
            0 => Ok(()),
            _ => writeln!(f, "{word} {}", names.join(" ")),
        };
        let (terms, sets) = self.unmentioned();
        let (numbers, variables): (Vec<Term>, Vec<Term>) =
            terms.into_iter().partition(|t| matches!(t, Term::Number(_)));
        declare(f, "numbers", numbers.iter().map(Term::to_string).collect())?;
        declare(f, "variables", variables.iter().map(Term::to_string).collect())?;
        declare(f, "sets", sets.iter().map(Set::to_string).collect())?;
        self.constraints.iter().try_for_each(|constraint| writeln!(f, "{constraint}"))
    }
}

/// Reads a text. An error names the line, counted from 1.
pub fn read(text: &[u8]) -> Result<Problem, String> {
    let mut problem = Problem::default();
    for (number, line) in (1..).zip(text.split(|&byte| byte == b'\n')) {
        read_line(line, &mut problem).map_err(|why| format!("line {number}: {why}"))?;
    }
    Ok(problem)
}

fn read_line(line: &[u8], problem: &mut Problem) -> Result<(), String> {
    let before_comment = line.split(|&byte| byte == b'#').next().unwrap_or_default();
    let line = std::str::from_utf8(before_comment).map_err(|_| "this is not UTF-8 text")?;
    let mut line = Line { tokens: tokens(line).into_iter(), taken: "" };
    match line.take() {
        "" => return Ok(()),
        "numbers" => problem.terms.extend(line.each(Line::number)?.into_iter().map(Term::Number)),
        "variables" => problem.terms.extend(line.each(Line::variable)?),
        "sets" => problem.sets.extend(line.each(Line::set)?),
        _ => problem.add(line.constraint()?),
    }
    problem.within_limits()
}

/// Words, names, numbers and symbols; any other character is a token by itself.
fn tokens(line: &str) -> Vec<&str> {
    let mut tokens = Vec::new();
    let mut rest = line.trim_start();
    while let Some(first) = rest.chars().next() {
        let run = |from: usize, of: fn(&u8) -> bool| {
            from + rest.bytes().skip(from).take_while(of).count()
        };
        let length = match first {
            'a'..='z' | 'A'..='Z' => run(0, u8::is_ascii_alphabetic),
            '0'..='9' | '-' => run(1, u8::is_ascii_digit),
            '!' if rest.starts_with("!=") => 2,
            _ => first.len_utf8(),
        };
        let (token, after) = rest.split_at(length);
        tokens.push(token);
        rest = after.trim_start();
    }
    tokens
}

/// A line's tokens that are left, and the one taken last: "" at the end.
struct Line<'a> {
    tokens: std::vec::IntoIter<&'a str>,
    taken: &'a str,
}

impl<'a> Line<'a> {
    fn take(&mut self) -> &'a str {
        self.taken = self.tokens.next().unwrap_or("");
        self.taken
    }

    /// The error that the token taken last is not what was expected.
    fn fail<T>(&self, expected: &str) -> Result<T, String> {
        let found = match self.taken {
            "" => "the end of the line".to_string(),
            token => format!("`{token}`"),
        };
        Err(format!("expected {expected}, found {found}; a line is one of\n{FORMS}"))
    }

    fn expect(&mut self, token: &str) -> Result<(), String> {
        if self.take() == token {
            Ok(())
        } else {
            self.fail(&format!("`{token}`"))
        }
    }

    /// The token taken last as a number or variable, if it is one.
    fn as_term(&self) -> Result<Option<Term>, String> {
        let token = self.taken;
        match token.as_bytes() {
            [x @ b'a'..=b'z'] => Ok(Some(Term::Variable(char::from(*x)))),
            [.., b'0'..=b'9'] => match token.parse() {
                Ok(n) if NUMBERS.contains(&n) => Ok(Some(Term::Number(n))),
                _ => Err(format!("the number {token} is not from -32000 to 32000")),
            },
            _ => Ok(None),
        }
    }

    /// The token taken last as a set, if it is one.
    fn as_set(&self) -> Option<Set> {
        match self.taken.as_bytes() {
            [a @ b'A'..=b'Z'] => Some(Set(char::from(*a))),
            _ => None,
        }
    }

    fn number(&mut self) -> Result<i16, String> {
        self.take();
        match self.as_term()? {
            Some(Term::Number(n)) => Ok(n),
            _ => self.fail("a number"),
        }
    }

    fn variable(&mut self) -> Result<Term, String> {
        self.take();
        match self.as_term()? {
            Some(x @ Term::Variable(_)) => Ok(x),
            _ => self.fail("a variable (a to z)"),
        }
    }

    fn term(&mut self) -> Result<Term, String> {
        self.take();
        self.as_term()?.map_or_else(|| self.fail("a number or a variable (a to z)"), Ok)
    }

    fn set(&mut self) -> Result<Set, String> {
        self.take();
        self.as_set().map_or_else(|| self.fail("a set (A to Z)"), Ok)
    }

    /// One item or more, to the end of the line.
    fn each<T>(&mut self, read: fn(&mut Self) -> Result<T, String>) -> Result<Vec<T>, String> {
        let mut items = vec![read(self)?];
        while self.tokens.len() > 0 {
            items.push(read(self)?);
        }
        Ok(items)
    }

    /// A constraint whose first token is the one taken last.
    fn constraint(&mut self) -> Result<Constraint, String> {
        use Constraint::*;
        let constraint = if let Some(t) = self.as_term()? {
            match self.take() {
                "in" => In(t, self.set()?),
                "not" => {
                    self.expect("in")?;
                    NotIn(t, self.set()?)
                }
                "=" => Same(t, self.term()?),
                "!=" => Differ(t, self.term()?),
                _ => return self.fail("`in`, `not in`, `=` or `!=`"),
            }
        } else if let Some(a) = self.as_set() {
            match self.take() {
                "=" => self.set_equals(a)?,
                "!=" => Unequal(a, self.set()?),
                "disjoint" => Disjoint(a, self.set()?),
                "subset" => Subset(a, self.set()?),
                _ => return self.fail("`=`, `!=`, `disjoint` or `subset`"),
            }
        } else {
            return self.fail(
                "a number, a variable (a to z), a set (A to Z), `numbers`, `variables` or `sets`",
            );
        };
        match self.take() {
            "" => Ok(constraint),
            _ => self.fail("the end of the line"),
        }
    }

    /// What follows `c =` for a set c.
    fn set_equals(&mut self, c: Set) -> Result<Constraint, String> {
        use Constraint::*;
        match self.take() {
            "{" => self.list(c),
            "[" => {
                let first = self.number()?;
                self.expect(",")?;
                let last = self.number()?;
                self.expect("]")?;
                Ok(Interval(c, first, last))
            }
            _ => {
                let Some(a) = self.as_set() else {
                    return self.fail("a set (A to Z), `{` or `[`");
                };
                match self.take() {
                    "" => Ok(Equal(c, a)),
                    "+" => Ok(Union(a, self.set()?, c)),
                    "&" => Ok(Intersection(a, self.set()?, c)),
                    _ => self.fail("`+`, `&` or the end of the line"),
                }
            }
        }
    }

    /// What follows `a = {`.
    fn list(&mut self, a: Set) -> Result<Constraint, String> {
        let mut entries = Vec::new();
        if self.tokens.as_slice().first() == Some(&"}") {
            self.take();
            return Ok(Constraint::List(a, entries));
        }
        loop {
            entries.push(self.term()?);
            match self.take() {
                "," => {}
                "}" => break,
                _ => return self.fail("`,` or `}`"),
            }
        }
        at_most(MAX_ENTRIES, entries.len(), "entries of a list")?;
        Ok(Constraint::List(a, entries))
    }
}
