//! Reading a sheet: questions 1 to 11 of document 01, in their order.

pub const MAX_BYTES: usize = 4096;
pub const MAX_SETS: usize = 8;
pub const MAX_LINES: usize = 48;
pub const MAX_TERMS: usize = 64;
pub const LOWEST: i16 = -32_000;
pub const HIGHEST: i16 = 32_000;

/// One line. `t`, `u`, `w` are term numbers; `a`, `b`, `c` are set numbers.
#[derive(Clone, Copy, Debug)]
pub enum Line<'a> {
    In { t: usize, a: usize },
    Out { t: usize, a: usize },
    Same { t: usize, u: usize },
    Differ { t: usize, u: usize },
    Equal { a: usize, b: usize },
    /// `w` is the line's witness.
    Unequal { a: usize, b: usize, w: usize },
    Union { a: usize, b: usize, c: usize },
    Disjoint { a: usize, b: usize },
    Subset { a: usize, b: usize },
    Meet { a: usize, b: usize, c: usize },
    /// Kind 11, and kind 12 with the constants i to j as entries.
    List { a: usize, entries: &'a [u8] },
}

pub struct Sheet<'a> {
    constants: &'a [u8],
    pub names: &'a [u8],
    pub sets: &'a [u8],
    pub lines: Vec<Line<'a>>,
    /// T: constants, number names and witnesses.
    pub terms: usize,
}

/// 0, 1, ... 255: a kind 12 line's entries are a part of this.
static NUMBERS: [u8; 256] = {
    let mut all = [0; 256];
    let mut n = 0;
    while n < 256 {
        all[n] = n as u8;
        n += 1;
    }
    all
};

fn value(bytes: &[u8]) -> i16 {
    i16::from_le_bytes([bytes[0], bytes[1]])
}

fn ascending(bytes: &[u8]) -> bool {
    bytes.windows(2).all(|pair| pair[0] < pair[1])
}

/// Takes bytes from the front; "not all there" is refusal 2.
struct Reader<'a>(&'a [u8]);

impl<'a> Reader<'a> {
    fn byte(&mut self) -> Result<u8, u8> {
        Ok(self.take(1)?[0])
    }

    fn take(&mut self, count: usize) -> Result<&'a [u8], u8> {
        if self.0.len() < count {
            return Err(2);
        }
        let (front, rest) = self.0.split_at(count);
        self.0 = rest;
        Ok(front)
    }
}

impl<'a> Sheet<'a> {
    /// The sheet, or the number of the first question answered "no".
    pub fn read(bytes: &'a [u8]) -> Result<Sheet<'a>, u8> {
        if bytes.len() > MAX_BYTES {
            return Err(1);
        }
        let mut reader = Reader(bytes);

        let count = reader.byte()? as usize;
        let constants = reader.take(2 * count)?;
        let mut last = None;
        for pair in constants.chunks_exact(2) {
            let v = value(pair);
            if !(LOWEST..=HIGHEST).contains(&v) || last.is_some_and(|l| l >= v) {
                return Err(3);
            }
            last = Some(v);
        }

        let count = reader.byte()? as usize;
        let names = reader.take(count)?;
        if !ascending(names) || !names.iter().all(u8::is_ascii_lowercase) {
            return Err(4);
        }

        let count = reader.byte()? as usize;
        let sets = reader.take(count)?;
        if !ascending(sets) || !sets.iter().all(u8::is_ascii_uppercase) || count > MAX_SETS {
            return Err(5);
        }

        let count = reader.byte()? as usize;
        if count > MAX_LINES {
            return Err(6);
        }
        let mut sheet = Sheet {
            constants,
            names,
            sets,
            lines: Vec::with_capacity(count),
            terms: constants.len() / 2 + names.len(),
        };
        for _ in 0..count {
            let line = sheet.read_line(&mut reader)?;
            sheet.lines.push(line);
        }

        if !reader.0.is_empty() {
            return Err(10);
        }
        if sheet.terms > MAX_TERMS {
            return Err(11);
        }
        Ok(sheet)
    }

    fn read_line(&mut self, reader: &mut Reader<'a>) -> Result<Line<'a>, u8> {
        let constants = self.constants();
        let nameable = constants + self.names.len();
        let term = |byte: u8| {
            let t = byte as usize;
            if t < nameable { Ok(t) } else { Err(8) }
        };
        let sets = self.sets.len();
        let set = |byte: u8| {
            let a = byte as usize;
            if a < sets { Ok(a) } else { Err(8) }
        };

        let kind = reader.byte()?;
        Ok(match kind {
            1..=4 => {
                let x = reader.take(2)?;
                match kind {
                    1 => Line::In { t: term(x[0])?, a: set(x[1])? },
                    2 => Line::Out { t: term(x[0])?, a: set(x[1])? },
                    3 => Line::Same { t: term(x[0])?, u: term(x[1])? },
                    _ => Line::Differ { t: term(x[0])?, u: term(x[1])? },
                }
            }
            5 | 6 | 8 | 9 => {
                let x = reader.take(2)?;
                let (a, b) = (set(x[0])?, set(x[1])?);
                match kind {
                    5 => Line::Equal { a, b },
                    6 => {
                        let w = self.terms;
                        self.terms += 1;
                        Line::Unequal { a, b, w }
                    }
                    8 => Line::Disjoint { a, b },
                    _ => Line::Subset { a, b },
                }
            }
            7 | 10 => {
                let x = reader.take(3)?;
                let (a, b, c) = (set(x[0])?, set(x[1])?, set(x[2])?);
                if kind == 7 {
                    Line::Union { a, b, c }
                } else {
                    Line::Meet { a, b, c }
                }
            }
            11 => {
                let x = reader.take(2)?;
                let entries = reader.take(x[1] as usize)?;
                let a = set(x[0])?;
                for &entry in entries {
                    term(entry)?;
                }
                Line::List { a, entries }
            }
            12 => {
                let x = reader.take(3)?;
                let (a, i, j) = (set(x[0])?, term(x[1])?, term(x[2])?);
                if i >= constants || j >= constants {
                    return Err(9);
                }
                if j < i {
                    Line::List { a, entries: &[] }
                } else {
                    // Constants ascend strictly: none is missing between the
                    // ends if their numbers are as far apart as their values.
                    if (self.constant(j) - self.constant(i)) as usize != j - i {
                        return Err(9);
                    }
                    Line::List { a, entries: &NUMBERS[i..=j] }
                }
            }
            _ => return Err(7),
        })
    }

    pub fn constants(&self) -> usize {
        self.constants.len() / 2
    }

    pub fn constant(&self, t: usize) -> i32 {
        i32::from(value(&self.constants[2 * t..]))
    }
}
