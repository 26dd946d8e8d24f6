//! A solver written separately, from documents 00 and 01 alone, and what is
//! needed to compare the library with it.

pub mod check;
pub mod coverage;
// The library: only where FUSELINDA_LIB names its folder.
#[cfg(library)]
pub mod ffi;
pub mod generate;
pub mod listing;
pub mod papers;
pub mod sheet;
pub mod solver;
pub mod text;

#[cfg(test)]
mod cases;
#[cfg(test)]
mod meaning;
#[cfg(test)]
mod models;
#[cfg(test)]
mod papers_check;

/// The answer word: bits 0-7 verdict, 8-15 refusal number or failing line,
/// 16-31 steps, 32-63 forms.
pub mod answer {
    pub const REFUSED: u64 = 0;
    pub const FORMS: u64 = 1;
    pub const FALSE: u64 = 2;
    pub const SPENT: u64 = 3;
    pub const NO_ROOM: u64 = 4;
    pub const HOLDS: u64 = 5;
    pub const FAILS: u64 = 6;

    pub const NAMES: [&str; 7] = [
        "REFUSED", "FORMS", "FALSE", "SPENT", "NO ROOM", "HOLDS", "FAILS",
    ];

    pub fn refused(number: u8) -> u64 {
        REFUSED | u64::from(number) << 8
    }

    pub fn ended(verdict: u64, steps: u64, forms: u64) -> u64 {
        verdict | steps << 16 | forms << 32
    }

    pub fn fails(line: usize) -> u64 {
        FAILS | (line as u64) << 8
    }

    pub fn verdict(word: u64) -> u64 {
        word & 0xFF
    }

    /// The refusal number, or the failing line.
    pub fn number(word: u64) -> u64 {
        word >> 8 & 0xFF
    }

    pub fn steps(word: u64) -> u64 {
        word >> 16 & 0xFFFF
    }

    pub fn forms(word: u64) -> u64 {
        word >> 32
    }

    pub fn show(word: u64) -> String {
        let name = NAMES.get(verdict(word) as usize).unwrap_or(&"?");
        format!(
            "{word:#018x} ({name} number {} steps {} forms {})",
            number(word),
            steps(word),
            forms(word)
        )
    }
}
