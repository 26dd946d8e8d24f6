//! The library under test. Each buffer is lent between guard bytes, which are
//! looked at afterwards.

extern "C" {
    fn fuselinda_check(problem: *const u8, n: usize, setting: *const u8, m: usize) -> u64;
}

/// The C library's, which the standard library is linked with; x86-64 Linux.
#[repr(C)]
struct Timespec {
    seconds: i64,
    nanoseconds: i64,
}

extern "C" {
    fn clock_gettime(clock: i32, time: *mut Timespec) -> i32;
}

/// Nanoseconds this thread has had a core for: time spent waiting for one
/// while others use it is not in it (for the benchmark).
pub fn thread_time() -> u64 {
    const CLOCK_THREAD_CPUTIME_ID: i32 = 3;
    let mut time = Timespec { seconds: 0, nanoseconds: 0 };
    // SAFETY: `time` is a live timespec of the layout this platform has.
    let failed = unsafe { clock_gettime(CLOCK_THREAD_CPUTIME_ID, &mut time) };
    assert_eq!(failed, 0, "no thread clock");
    time.seconds as u64 * 1_000_000_000 + time.nanoseconds as u64
}

const GUARD: usize = 256;

/// A buffer with guard bytes on both sides. What the guards hold, and how the
/// buffer is aligned, depend on `salt`, so a read outside the buffer changes
/// answers from call to call.
struct Lent {
    bytes: Vec<u8>,
    salt: u64,
    /// Where the buffer starts; there are `GUARD` bytes after it.
    start: usize,
}

fn guard_byte(salt: u64, at: usize) -> u8 {
    let mixed = (salt ^ at as u64).wrapping_mul(0x9E37_79B9_7F4A_7C15);
    (mixed >> 40) as u8
}

impl Lent {
    fn new(content: &[u8], salt: u64) -> Lent {
        let start = GUARD + (salt >> 20) as usize % 16;
        let mut bytes = Vec::with_capacity(start + content.len() + GUARD);
        bytes.extend((0..start).map(|at| guard_byte(salt, at)));
        bytes.extend_from_slice(content);
        bytes.extend((start..start + GUARD).map(|at| guard_byte(salt, at)));
        Lent { bytes, salt, start }
    }

    fn content(&self) -> &[u8] {
        &self.bytes[self.start..self.bytes.len() - GUARD]
    }

    fn content_mut(&mut self) -> &mut [u8] {
        let end = self.bytes.len() - GUARD;
        &mut self.bytes[self.start..end]
    }

    fn guards_whole(&self) -> bool {
        let after = &self.bytes[self.bytes.len() - GUARD..];
        let guards = self.bytes[..self.start].iter().chain(after);
        guards.enumerate().all(|(at, &byte)| byte == guard_byte(self.salt, at))
    }
}

/// A run on the caller's own buffers.
pub type Run = fn(&[u8], u64, &mut [u8], &mut [u8]) -> u64;

/// A library's run, which is linked as `$symbol`, with nothing around it (for
/// the benchmark).
macro_rules! bare {
    ($name:ident, $symbol:ident) => {
        pub fn $name(problem: &[u8], budget: u64, forms: &mut [u8], trace: &mut [u8]) -> u64 {
            extern "C" {
                fn $symbol(
                    problem: *const u8,
                    n: usize,
                    budget: u64,
                    forms: *mut u8,
                    fn_: usize,
                    trace: *mut u8,
                    tn: usize,
                ) -> u64;
            }
            // SAFETY: each pointer is that of a live slice, with its length; the
            // two buffers written to are borrowed mutably, so none overlaps
            // another.
            unsafe {
                $symbol(
                    problem.as_ptr(),
                    problem.len(),
                    budget,
                    forms.as_mut_ptr(),
                    forms.len(),
                    trace.as_mut_ptr(),
                    trace.len(),
                )
            }
        }
    };
}

bare!(run_bare, fuselinda_run);
#[cfg(before)]
bare!(run_before, before_fuselinda_run);

/// The run of the library of another commit, if it is linked (see build.rs).
#[cfg(before)]
pub const BEFORE: Option<Run> = Some(run_before);
#[cfg(not(before))]
pub const BEFORE: Option<Run> = None;

/// The library's run between guards. An error says what it touched that it
/// was not lent, or was only lent to read.
pub fn run(
    problem: &[u8],
    budget: u64,
    forms: &mut [u8],
    trace: &mut [u8],
    salt: u64,
) -> Result<u64, &'static str> {
    let lent_problem = Lent::new(problem, salt);
    let mut lent_forms = Lent::new(forms, salt.rotate_left(17));
    let mut lent_trace = Lent::new(trace, salt.rotate_left(34));
    let word = run_bare(
        lent_problem.content(),
        budget,
        lent_forms.content_mut(),
        lent_trace.content_mut(),
    );
    if !lent_problem.guards_whole() || lent_problem.content() != problem {
        return Err("the problem or its surroundings were written to");
    }
    if !lent_forms.guards_whole() {
        return Err("bytes around the form buffer were written to");
    }
    if !lent_trace.guards_whole() {
        return Err("bytes around the trace buffer were written to");
    }
    forms.copy_from_slice(lent_forms.content());
    trace.copy_from_slice(lent_trace.content());
    Ok(word)
}

/// The library's hand check between guards.
pub fn check(problem: &[u8], setting: &[u8], salt: u64) -> Result<u64, &'static str> {
    let lent_problem = Lent::new(problem, salt);
    let lent_setting = Lent::new(setting, salt.rotate_left(17));
    let (p, s) = (lent_problem.content(), lent_setting.content());
    // SAFETY: each pointer is that of a live slice, with its length; nothing
    // is written to.
    let word = unsafe { fuselinda_check(p.as_ptr(), p.len(), s.as_ptr(), s.len()) };
    if !lent_problem.guards_whole() || lent_problem.content() != problem {
        return Err("the problem or its surroundings were written to");
    }
    if !lent_setting.guards_whole() || lent_setting.content() != setting {
        return Err("the setting or its surroundings were written to");
    }
    Ok(word)
}

#[cfg(test)]
mod tests {
    use super::*;

    #[test]
    fn a_changed_guard_is_seen() {
        for (length, salt) in [(0, 5), (1, 77 << 20), (9, u64::MAX), (192, 3 << 20)] {
            let mut lent = Lent::new(&vec![7; length], salt);
            assert!(lent.guards_whole() && lent.content() == vec![7; length]);
            lent.content_mut().fill(8);
            assert!(lent.guards_whole() && lent.content() == vec![8; length]);
            for at in (0..lent.start).chain(lent.start + length..lent.bytes.len()) {
                lent.bytes[at] ^= 1;
                assert!(!lent.guards_whole());
                lent.bytes[at] ^= 1;
            }
        }
    }
}
