//! The run: a sheet worked through the rules of document 01.

use crate::answer;
use crate::sheet::{Line, Sheet, MAX_TERMS};

pub const MAX_BUDGET: u64 = 10_000;
/// The bytes of a term in a form record.
pub const TERM_BYTES: usize = 3;

/// Classes of terms and their facts. Facts stand at the head; the masks of a
/// term that is not a head are 0.
#[derive(Clone, Copy)]
struct Branch {
    head: [u8; MAX_TERMS],
    ins: [u8; MAX_TERMS],
    outs: [u8; MAX_TERMS],
    /// Steps on the way here, for demand 3's limit.
    path: usize,
}

impl Branch {
    fn start() -> Branch {
        Branch {
            head: std::array::from_fn(|t| t as u8),
            ins: [0; MAX_TERMS],
            outs: [0; MAX_TERMS],
            path: 0,
        }
    }

    fn head(&self, t: usize) -> usize {
        self.head[t] as usize
    }

    /// Notes facts of the class of head `h`; false if that contradicts.
    fn note(&mut self, h: usize, ins: u8, outs: u8) -> bool {
        self.ins[h] |= ins;
        self.outs[h] |= outs;
        self.ins[h] & self.outs[h] == 0
    }

    /// Joins the classes of two heads; false if that contradicts. A class with
    /// a constant has it as its head, since constants are the lowest terms.
    fn join(&mut self, g: usize, h: usize, constants: usize) -> bool {
        let (low, high) = (g.min(h), g.max(h));
        if low == high {
            return true;
        }
        for head in &mut self.head {
            if *head as usize == high {
                *head = low as u8;
            }
        }
        let (ins, outs) = (self.ins[high], self.outs[high]);
        self.ins[high] = 0;
        self.outs[high] = 0;
        self.note(low, ins, outs) && high >= constants
    }
}

/// What a step does to the branch.
enum Act<'a> {
    Close,
    Note(u8, u8),
    Join(usize),
    Cases([(u8, u8); 2]),
    JoinEach(&'a [u8]),
}

/// A place where a rule applies.
struct Place<'a> {
    rule: u8,
    line: usize,
    head: usize,
    act: Act<'a>,
}

fn bit(set: usize) -> u8 {
    1 << set
}

/// The first head in all of `ins` and out of all of `outs` of which the
/// conclusion (`give_in`, `give_out`) is not yet known. `ins` is never 0, so
/// only heads are found.
fn first(
    branch: &Branch,
    terms: usize,
    (ins, outs): (u8, u8),
    (give_in, give_out): (u8, u8),
) -> Option<usize> {
    branch.ins[..terms]
        .iter()
        .zip(&branch.outs[..terms])
        .position(|(&i, &o)| {
            i & ins == ins && o & outs == outs && (i & give_in != give_in || o & give_out != give_out)
        })
}

fn first_forced<'a>(sheet: &Sheet<'a>, branch: &Branch) -> Option<Place<'a>> {
    for (line, &what) in sheet.lines.iter().enumerate() {
        // Tries one rule that goes over the heads.
        let over_heads = |rule: u8, when: (u8, u8), gives: (u8, u8)| {
            first(branch, sheet.terms, when, gives).map(|head| Place {
                rule,
                line,
                head,
                act: Act::Note(gives.0, gives.1),
            })
        };
        let found = match what {
            Line::In { t, a } => {
                let head = branch.head(t);
                (branch.ins[head] & bit(a) == 0).then_some(Place {
                    rule: 1,
                    line,
                    head,
                    act: Act::Note(bit(a), 0),
                })
            }
            Line::Out { t, a } => {
                let head = branch.head(t);
                (branch.outs[head] & bit(a) == 0).then_some(Place {
                    rule: 2,
                    line,
                    head,
                    act: Act::Note(0, bit(a)),
                })
            }
            Line::Same { t, u } => {
                let (head, other) = (branch.head(t), branch.head(u));
                (head != other).then_some(Place { rule: 3, line, head, act: Act::Join(other) })
            }
            Line::Differ { t, u } => {
                let head = branch.head(t);
                (head == branch.head(u)).then_some(Place { rule: 4, line, head, act: Act::Close })
            }
            Line::Equal { a, b } => over_heads(5, (bit(a), 0), (bit(b), 0))
                .or_else(|| over_heads(6, (bit(b), 0), (bit(a), 0))),
            Line::Unequal { .. } => None,
            Line::Union { a, b, c } => over_heads(8, (bit(a), 0), (bit(c), 0))
                .or_else(|| over_heads(9, (bit(b), 0), (bit(c), 0)))
                .or_else(|| over_heads(10, (bit(c), bit(a)), (bit(b), 0)))
                .or_else(|| over_heads(11, (bit(c), bit(b)), (bit(a), 0))),
            Line::Disjoint { a, b } => over_heads(13, (bit(a), 0), (0, bit(b)))
                .or_else(|| over_heads(14, (bit(b), 0), (0, bit(a)))),
            Line::Subset { a, b } => over_heads(15, (bit(a), 0), (bit(b), 0)),
            Line::Meet { a, b, c } => over_heads(16, (bit(c), 0), (bit(a), 0))
                .or_else(|| over_heads(17, (bit(c), 0), (bit(b), 0)))
                .or_else(|| over_heads(18, (bit(a) | bit(b), 0), (bit(c), 0))),
            Line::List { a, entries } => entries
                .iter()
                .map(|&entry| branch.head(entry as usize))
                .find(|&head| branch.ins[head] & bit(a) == 0)
                .map(|head| Place { rule: 19, line, head, act: Act::Note(bit(a), 0) }),
        };
        if found.is_some() {
            return found;
        }
    }
    None
}

fn first_split<'a>(sheet: &Sheet<'a>, branch: &Branch) -> Option<Place<'a>> {
    let ins = &branch.ins[..sheet.terms];
    let outs = &branch.outs[..sheet.terms];
    for (line, &what) in sheet.lines.iter().enumerate() {
        let found = match what {
            Line::Unequal { a, b, w } => {
                let (a, b) = (bit(a), bit(b));
                let head = branch.head(w);
                let parted = ins[head] & a != 0 && outs[head] & b != 0
                    || outs[head] & a != 0 && ins[head] & b != 0;
                (!parted).then_some(Place {
                    rule: 7,
                    line,
                    head,
                    act: Act::Cases([(a, b), (b, a)]),
                })
            }
            Line::Union { a, b, c } => {
                let (a, b, c) = (bit(a), bit(b), bit(c));
                ins.iter()
                    .zip(outs)
                    .position(|(&i, &o)| i & c != 0 && (i | o) & (a | b) == 0)
                    .map(|head| Place { rule: 12, line, head, act: Act::Cases([(a, 0), (b, a)]) })
            }
            Line::List { a, entries } => {
                let mut entered = 0u64;
                for &entry in entries {
                    entered |= 1 << branch.head(entry as usize);
                }
                ins.iter()
                    .enumerate()
                    .position(|(h, &i)| i & bit(a) != 0 && entered >> h & 1 == 0)
                    .map(|head| Place { rule: 20, line, head, act: Act::JoinEach(entries) })
            }
            _ => None,
        };
        if found.is_some() {
            return found;
        }
    }
    None
}

/// Pushes the children of a split, the one to be worked first on top. Answers
/// how many are left.
fn split(place: &Place, branch: &Branch, constants: usize, stack: &mut Vec<Branch>) -> u8 {
    let bottom = stack.len();
    match place.act {
        Act::Cases(cases) => {
            for (ins, outs) in cases {
                let mut child = *branch;
                if child.note(place.head, ins, outs) {
                    stack.push(child);
                }
            }
        }
        Act::JoinEach(entries) => {
            let mut seen = 0u64;
            for &entry in entries {
                let other = branch.head(entry as usize);
                if seen >> other & 1 == 0 {
                    seen |= 1 << other;
                    let mut child = *branch;
                    if child.join(place.head, other, constants) {
                        stack.push(child);
                    }
                }
            }
        }
        Act::Close | Act::Note(..) | Act::Join(_) => unreachable!("not a split"),
    }
    stack[bottom..].reverse();
    (stack.len() - bottom) as u8
}

fn write_form(branch: &Branch, record: &mut [u8]) {
    for (t, bytes) in record.chunks_exact_mut(TERM_BYTES).enumerate() {
        let head = branch.head(t);
        bytes[0] = head as u8;
        bytes[1] = branch.ins[head];
        bytes[2] = branch.outs[head];
    }
}

/// Works the sheet; answers the answer word.
pub fn run(problem: &[u8], budget: u64, forms: &mut [u8], trace: &mut [u8]) -> u64 {
    let sheet = match Sheet::read(problem) {
        Ok(sheet) => sheet,
        Err(number) => return answer::refused(number),
    };
    if budget > MAX_BUDGET {
        return answer::refused(12);
    }
    if (trace.len() as u64) < 4 * budget {
        return answer::refused(13);
    }

    let constants = sheet.constants();
    let size = TERM_BYTES * sheet.terms;
    let longest = sheet.terms * (sheet.sets.len() + 1);
    let mut steps = 0;
    let mut listed = 0;
    let mut used = 0;
    let mut stack = vec![Branch::start()];
    while let Some(mut branch) = stack.pop() {
        // Work this branch until it closes, splits or is a form.
        loop {
            let place = first_forced(&sheet, &branch).or_else(|| first_split(&sheet, &branch));
            let Some(place) = place else {
                if forms.len() - used < size {
                    return answer::ended(answer::NO_ROOM, steps, listed);
                }
                write_form(&branch, &mut forms[used..used + size]);
                used += size;
                listed += 1;
                break;
            };
            if steps == budget {
                return answer::ended(answer::SPENT, steps, listed);
            }
            branch.path += 1;
            assert!(branch.path <= longest, "demand 3: a path is too long");
            let (open, left) = match place.act {
                Act::Close => (false, 0),
                Act::Note(ins, outs) => {
                    let open = branch.note(place.head, ins, outs);
                    (open, open as u8)
                }
                Act::Join(other) => {
                    let open = branch.join(place.head, other, constants);
                    (open, open as u8)
                }
                _ => (false, split(&place, &branch, constants, &mut stack)),
            };
            let at = 4 * steps as usize;
            trace[at..at + 4].copy_from_slice(&[place.rule, place.line as u8, place.head as u8, left]);
            steps += 1;
            if !open {
                break;
            }
        }
    }
    let verdict = if listed == 0 { answer::FALSE } else { answer::FORMS };
    answer::ended(verdict, steps, listed)
}
