//! A problem's bytes, both ways.

use crate::problem::*;
use std::fmt::Debug;
use std::ops::RangeInclusive;

/// The number of the question in document 01 that refuses the bytes, and why.
pub type Refusal = (u8, String);

fn refuse<T>(question: u8, why: impl Into<String>) -> Result<T, Refusal> {
    Err((question, why.into()))
}

/// The bytes of a problem within its limits.
pub fn write(problem: &Problem) -> Vec<u8> {
    let constants = problem.constants();
    let mut bytes = vec![constants as u8];
    for term in &problem.terms {
        if let Term::Number(n) = term {
            bytes.extend(n.to_le_bytes());
        }
    }
    bytes.push((problem.terms.len() - constants) as u8);
    for term in &problem.terms {
        if let Term::Variable(x) = term {
            bytes.push(*x as u8);
        }
    }
    bytes.push(problem.sets.len() as u8);
    bytes.extend(problem.sets.iter().map(|a| a.0 as u8));
    bytes.push(problem.constraints.len() as u8);
    for constraint in &problem.constraints {
        let (kind, operands) = constraint.kind_and_operands();
        bytes.push(kind);
        bytes.extend(operands.iter().map(|operand| match operand {
            Operand::Term(t) => problem.terms.range(..t).count() as u8,
            Operand::Set(a) => problem.sets.range(..a).count() as u8,
            Operand::Count(n) => *n as u8,
        }));
    }
    bytes
}

/// What is left of the bytes.
struct Reader<'a>(&'a [u8]);

impl<'a> Reader<'a> {
    fn take(&mut self, count: usize, what: &str) -> Result<&'a [u8], Refusal> {
        let Some((taken, rest)) = self.0.split_at_checked(count) else {
            let left = self.0.len();
            return refuse(2, format!("{what}: {count} bytes wanted, but {left} are left"));
        };
        self.0 = rest;
        Ok(taken)
    }

    fn byte(&mut self, what: &str) -> Result<u8, Refusal> {
        Ok(self.take(1, what)?[0])
    }
}

/// Asks whether items ascend strictly and are in range.
fn ascending<T: Copy + PartialOrd + Debug>(
    question: u8,
    what: &str,
    items: &[T],
    range: RangeInclusive<T>,
) -> Result<(), Refusal> {
    if let Some(item) = items.iter().find(|item| !range.contains(item)) {
        return refuse(question, format!("{what}: {item:?} is outside {range:?}"));
    }
    if let Some(pair) = items.windows(2).find(|pair| pair[0] >= pair[1]) {
        let (first, second) = (pair[0], pair[1]);
        return refuse(
            question,
            format!("{what}: {second:?} stands after {first:?}, but they must ascend"),
        );
    }
    Ok(())
}

/// Asks questions 1 to 11 in document 01's order.
pub fn read(bytes: &[u8]) -> Result<Problem, Refusal> {
    at_most(MAX_BYTES, bytes.len(), "bytes").or_else(|why| refuse(1, why))?;
    let mut reader = Reader(bytes);

    let count = reader.byte("count of constants")?;
    let constants: Vec<i16> = reader
        .take(2 * usize::from(count), "constants")?
        .chunks_exact(2)
        .map(|pair| i16::from_le_bytes([pair[0], pair[1]]))
        .collect();
    ascending(3, "constants", &constants, NUMBERS)?;

    let count = reader.byte("count of variables")?;
    let names = reader.take(count.into(), "variables")?;
    let names: Vec<char> = names.iter().map(|&byte| char::from(byte)).collect();
    ascending(4, "variables", &names, 'a'..='z')?;

    let count = reader.byte("count of sets")?;
    let letters = reader.take(count.into(), "sets")?;
    let letters: Vec<char> = letters.iter().map(|&byte| char::from(byte)).collect();
    ascending(5, "sets", &letters, 'A'..='Z')?;
    at_most(MAX_SETS, letters.len(), "sets").or_else(|why| refuse(5, why))?;

    let numbers = constants.into_iter().map(Term::Number);
    let mut problem = Problem {
        terms: numbers.chain(names.into_iter().map(Term::Variable)).collect(),
        sets: letters.into_iter().map(Set).collect(),
        constraints: Vec::new(),
    };
    let count = reader.byte("count of constraints")?;
    at_most(MAX_CONSTRAINTS, count.into(), "constraints").or_else(|why| refuse(6, why))?;
    for number in 0..count {
        let constraint = read_constraint(&mut reader, &problem)
            .map_err(|(question, why)| (question, format!("constraint {number}: {why}")))?;
        problem.constraints.push(constraint);
    }

    if !reader.0.is_empty() {
        return refuse(10, format!("{} bytes are left after the last constraint", reader.0.len()));
    }
    // Only the count of terms can still be too high.
    problem.within_limits().or_else(|why| refuse(11, why))?;
    Ok(problem)
}

fn read_constraint(reader: &mut Reader, problem: &Problem) -> Result<Constraint, Refusal> {
    use Constraint::*;
    let kind = reader.byte("kind")?;
    let count = match kind {
        1..=6 | 8 | 9 | 11 => 2,
        7 | 10 | 12 => 3,
        _ => return refuse(7, format!("kind {kind}, but kinds are 1 to 12")),
    };
    let operands = reader.take(count, "operands")?;
    let entries = match kind {
        11 => reader.take(usize::from(operands[1]), "list entries")?,
        _ => &[],
    };
    let term_of = |byte: u8| match problem.terms.iter().nth(usize::from(byte)) {
        Some(&term) => Ok(term),
        None => refuse(8, format!("no constant or variable has number {byte}")),
    };
    let term = |at: usize| term_of(operands[at]);
    let set = |at: usize| match problem.sets.iter().nth(usize::from(operands[at])) {
        Some(&set) => Ok(set),
        None => refuse(8, format!("no set has number {}", operands[at])),
    };
    Ok(match kind {
        1 => In(term(0)?, set(1)?),
        2 => NotIn(term(0)?, set(1)?),
        3 => Same(term(0)?, term(1)?),
        4 => Differ(term(0)?, term(1)?),
        5 => Equal(set(0)?, set(1)?),
        6 => Unequal(set(0)?, set(1)?),
        7 => Union(set(0)?, set(1)?, set(2)?),
        8 => Disjoint(set(0)?, set(1)?),
        9 => Subset(set(0)?, set(1)?),
        10 => Intersection(set(0)?, set(1)?, set(2)?),
        11 => List(set(0)?, entries.iter().map(|&byte| term_of(byte)).collect::<Result<_, _>>()?),
        _ => {
            let (a, first, last) = (set(0)?, term(1)?, term(2)?);
            let (Term::Number(i), Term::Number(j)) = (first, last) else {
                return refuse(9, "a variable stands as the end of an interval");
            };
            let missing = (i..=j).find(|&n| !problem.terms.contains(&Term::Number(n)));
            if let Some(n) = missing {
                return refuse(
                    9,
                    format!("{n} is between {i} and {j}, but is not a constant here"),
                );
            }
            Interval(a, i, j)
        }
    })
}
