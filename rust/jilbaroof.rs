//! Jilbaroof for Rust: a safe wrapper of the proved library, standard library only. tools/archive builds it, as the library `jilbaroof`;
//! or it is a module of the crate that links the archive (README, "From C and Rust").
//!
//! Which side checks what. The library checks every value (points, tolerances, lengths, point numbers, positions) and answers or refuses by a
//! number (below); that each answer is the one its definition gives is proved. What it takes for granted is memory: that a slice is valid
//! for its length, and that a lent list shares no memory with the other one or with what is read. Rust's types guarantee just that, so
//! nothing is checked here, and every function is safe for every argument. The calls below are the only `unsafe` code.
//!
//! A reading is a pressure from 1 to 255, or 0 where the sensor had lost contact. A window holding a 0 is no place, whatever the tolerances,
//! and 0 is near to no point.
//!
//! Refusals: the first reason that applies, in this order; 0 where none does.
//! - 1: the profile has no points: usually no file was chosen
//! - 7: the profile has more than 64 points, and must be cut
//! - 8: the profile holds a 0, which says that contact was lost: every point must be a pressure, 1 to 255
//! - 2: delta is above 255, or gamma above 16,320
//! - 3: the recording has more than 1,000,000 readings (searchers, `first` and `check`)
//! - 6: there is no point of that number (`mismatch`), or no window at that position (`check`)
//!
//! (4 is no longer given: it was `packed`'s, for counters that do not fit one word. The number is not used again. 5 belongs to the program
//! `places` and is never given here.)

// as a module it may have functions that its crate does not use
#![allow(dead_code)]

/// What a search answers: the number of its refusal and zeros; or 0, the total of places, the count of windows tried and the least sum.
#[repr(C)]
#[derive(Clone, Copy, Debug, PartialEq, Eq)]
pub struct Search {
    pub refusal: u32,
    pub total: usize,
    pub tried: usize,
    /// The least sum of all places, listed or not. It is 0 where there is none, and of a perfect fit: `total` tells which.
    pub least: u32,
}

/// What `first` answers: the number of its refusal, no place and 0; or 0, the first place if there is one, and the count of windows tried.
#[derive(Clone, Copy, Debug, PartialEq, Eq)]
pub struct First {
    pub refusal: u32,
    pub spot: Option<usize>,
    pub tried: usize,
}

/// What a question answers: the number of its refusal and 0; or 0 and the jump.
#[repr(C)]
#[derive(Clone, Copy, Debug, PartialEq, Eq)]
pub struct Jump {
    pub refusal: u32,
    pub jump: usize,
}

/// Why a window is no place, or how closely it is one.
#[derive(Clone, Copy, Debug, PartialEq, Eq)]
pub enum Verdict {
    /// The window is a place, and this is the sum of its differences.
    Fits(u32),
    /// The number, from 1 on, of the first point whose reading is not near.
    Far(usize),
    /// Every reading is near its point, and this is the sum of the differences, which is above gamma.
    Over(u32),
}

/// What `check` answers: the number of its refusal and `Far(0)`, since no point has the number 0; or 0 and the verdict.
#[derive(Clone, Copy, Debug, PartialEq, Eq)]
pub struct Judged {
    pub refusal: u32,
    pub verdict: Verdict,
}

/// The C side: a slice is its pointer, then its length. These lines repeat crates/exports/src/lib.rt, and nothing but the tests holds
/// the two together.
mod boundary {
    use super::{Jump, Search};

    macro_rules! searchers {
        ($($name:ident)*) => {
            unsafe extern "C" {
                $(pub fn $name(
                    points: *const u8,
                    m: usize,
                    delta: u32,
                    gamma: u32,
                    recording: *const u8,
                    n: usize,
                    list: *mut u32,
                    room: usize,
                    sums: *mut u16,
                    sums_room: usize,
                ) -> Search;)*
            }
        };
    }

    searchers! { jilbaroof_plain jilbaroof_packed jilbaroof_last jilbaroof_skip jilbaroof_maximal }

    /// `First` as C has it: `found` is 1 where a place is told; else, and on refusal, it and `place` are 0.
    #[repr(C)]
    pub struct Flat {
        pub refusal: u32,
        pub found: u32,
        pub place: usize,
        pub tried: usize,
    }

    /// `Judged` as C has it: `kind` is 0 where a point is far, 1 where the window fits, 2 where its sum is over; `point` and `sum` are 0 where the
    /// kind has none, and all three on refusal.
    #[repr(C)]
    pub struct FlatVerdict {
        pub refusal: u32,
        pub kind: u32,
        pub point: usize,
        pub sum: u32,
    }

    unsafe extern "C" {
        pub fn jilbaroof_first(points: *const u8, m: usize, delta: u32, gamma: u32, recording: *const u8, n: usize) -> Flat;
        pub fn jilbaroof_last_reading(points: *const u8, m: usize, delta: u32, gamma: u32, a: u8) -> Jump;
        pub fn jilbaroof_next_reading(points: *const u8, m: usize, delta: u32, gamma: u32, a: u8) -> Jump;
        pub fn jilbaroof_seen_reading(points: *const u8, m: usize, delta: u32, gamma: u32, a: u8) -> Jump;
        pub fn jilbaroof_after_check(points: *const u8, m: usize, delta: u32, gamma: u32) -> Jump;
        pub fn jilbaroof_full(points: *const u8, m: usize, delta: u32, gamma: u32) -> Jump;
        pub fn jilbaroof_mismatch(points: *const u8, m: usize, delta: u32, gamma: u32, p: usize) -> Jump;
        pub fn jilbaroof_check(
            points: *const u8,
            m: usize,
            delta: u32,
            gamma: u32,
            recording: *const u8,
            n: usize,
            s: usize,
        ) -> FlatVerdict;
    }
}

/// A searcher: the points, delta, gamma, the recording, the list that receives the first places, as many as fit, in rising order, and the list
/// that receives their sums in the same order, as many as fit there. Entries beyond those stay as they were, all of both lists where the search
/// is refused.
pub type Searcher = fn(&[u8], u32, u32, &[u8], &mut [u32], &mut [u16]) -> Search;

macro_rules! searcher {
    ($(#[$doc:meta])* $name:ident, $there:ident) => {
        $(#[$doc])*
        pub fn $name(points: &[u8], delta: u32, gamma: u32, recording: &[u8], list: &mut [u32], sums: &mut [u16]) -> Search {
            // SAFETY: the slices are valid for their lengths, each list is borrowed alone, and the library keeps none of them
            unsafe {
                boundary::$there(
                    points.as_ptr(),
                    points.len(),
                    delta,
                    gamma,
                    recording.as_ptr(),
                    recording.len(),
                    list.as_mut_ptr(),
                    list.len(),
                    sums.as_mut_ptr(),
                    sums.len(),
                )
            }
        }
    };
}

searcher! {
    /// Tries every window.
    plain, jilbaroof_plain
}
searcher! {
    /// Keeps a counter for each point, side by side in as many 64-bit words as they need, 16 at most, and reads each reading once.
    packed, jilbaroof_packed
}
searcher! {
    /// Looks at a window's last reading, and jumps.
    last, jilbaroof_last
}
searcher! {
    /// Looks at every m-th reading, and tries the windows that put a near point there.
    skip, jilbaroof_skip
}
searcher! {
    /// Takes the larger of the next-reading jump and the mismatch jump.
    maximal, jilbaroof_maximal
}

/// The first place, or none: goes as `last` does, and stops there. The windows tried are those that `last` tries up to and including that
/// place; where there is none, all of them.
pub fn first(points: &[u8], delta: u32, gamma: u32, recording: &[u8]) -> First {
    // SAFETY: the slices are valid for their lengths and only read
    let flat =
        unsafe { boundary::jilbaroof_first(points.as_ptr(), points.len(), delta, gamma, recording.as_ptr(), recording.len()) };
    First { refusal: flat.refusal, spot: (flat.found == 1).then_some(flat.place), tried: flat.tried }
}

/// The last-reading jump: the window's last reading is `a`; a jump of 0 says that the window must be tried. It is m where `a` is 0.
pub fn last_reading(points: &[u8], delta: u32, gamma: u32, a: u8) -> Jump {
    // SAFETY: the slice is valid for its length and only read; so in each question below
    unsafe { boundary::jilbaroof_last_reading(points.as_ptr(), points.len(), delta, gamma, a) }
}

/// The next-reading jump: the reading directly after a tried window is `a`. It is m + 1 where `a` is 0.
pub fn next_reading(points: &[u8], delta: u32, gamma: u32, a: u8) -> Jump {
    unsafe { boundary::jilbaroof_next_reading(points.as_ptr(), points.len(), delta, gamma, a) }
}

/// The seen-reading jump: the last reading of a tried window is `a`. By it `last` and `first` go on from there. It is m where `a` is 0.
pub fn seen_reading(points: &[u8], delta: u32, gamma: u32, a: u8) -> Jump {
    unsafe { boundary::jilbaroof_seen_reading(points.as_ptr(), points.len(), delta, gamma, a) }
}

/// The after-check jump: the last reading of a tried window is near the last point.
pub fn after_check(points: &[u8], delta: u32, gamma: u32) -> Jump {
    unsafe { boundary::jilbaroof_after_check(points.as_ptr(), points.len(), delta, gamma) }
}

/// The full jump: all points of the window were near.
pub fn full(points: &[u8], delta: u32, gamma: u32) -> Jump {
    unsafe { boundary::jilbaroof_full(points.as_ptr(), points.len(), delta, gamma) }
}

/// The mismatch jump at point number `p`, from 1 to m: it was not near, and the points compared before it were.
pub fn mismatch(points: &[u8], delta: u32, gamma: u32, p: usize) -> Jump {
    unsafe { boundary::jilbaroof_mismatch(points.as_ptr(), points.len(), delta, gamma, p) }
}

/// Why the window at `s` is no place: the first point, in point order, that is not near; or, where all are near, the sum that is above gamma.
/// It fits exactly where the searchers list `s`.
pub fn check(points: &[u8], delta: u32, gamma: u32, recording: &[u8], s: usize) -> Judged {
    // SAFETY: the slices are valid for their lengths and only read
    let flat =
        unsafe { boundary::jilbaroof_check(points.as_ptr(), points.len(), delta, gamma, recording.as_ptr(), recording.len(), s) };
    let verdict = match flat.kind {
        1 => Verdict::Fits(flat.sum),
        2 => Verdict::Over(flat.sum),
        _ => Verdict::Far(flat.point),
    };
    Judged { refusal: flat.refusal, verdict }
}
