//! How a case is handed to the program, and what the program must print for it.
//!
//! A frame: delta and gamma in 4 bytes each, m in 2, n in 4, and the lengths of the list and of the sums in 2 each, all high byte first; then
//! m points, then n readings.
//! Frames follow each other to the end of the input. A case has thirteen lines of output, so that line 13k + j belongs to case k.

use crate::reference::{self, First, Judged, Jump, Profile, Search, Verdict, SEARCHERS};
use std::io::{self, Read, Write};

/// The program takes frames up to these sizes.
pub const MOST_POINTS: usize = 300;
pub const MOST_READINGS: usize = 1_000_001;
pub const MOST_ROOM: usize = 200;

/// Before each search, entry k of a lent list is this and k, so that an untouched entry shows: no place and no sum is so great.
pub const UNTOUCHED: u32 = 1_000_000_000;
pub const UNTOUCHED_SUM: u16 = 60_000;

/// A recording of at most twice so many readings is asked about at every s from 0 to one beyond its end; a longer one at so many from 0 on, and
/// at all from so many before its end.
pub const MOST_ASKED: usize = 500;

pub const LINES: usize = 13;

/// A case, with the lengths of the two lent lists: that of the places, and that of their sums.
#[derive(Clone)]
pub struct Case {
    pub profile: Profile,
    pub recording: Vec<u8>,
    pub room: usize,
    pub sums_room: usize,
}

pub fn write_frame(case: &Case, out: &mut impl Write) -> io::Result<()> {
    assert!(case.profile.points.len() <= MOST_POINTS && case.recording.len() <= MOST_READINGS);
    assert!(case.room <= MOST_ROOM && case.sums_room <= MOST_ROOM);
    out.write_all(&case.profile.delta.to_be_bytes())?;
    out.write_all(&case.profile.gamma.to_be_bytes())?;
    out.write_all(&(case.profile.points.len() as u16).to_be_bytes())?;
    out.write_all(&(case.recording.len() as u32).to_be_bytes())?;
    out.write_all(&(case.room as u16).to_be_bytes())?;
    out.write_all(&(case.sums_room as u16).to_be_bytes())?;
    out.write_all(&case.profile.points)?;
    out.write_all(&case.recording)
}

/// All frames of an input; panics where the input is cut short.
pub fn read_frames(input: &mut impl Read) -> io::Result<Vec<Case>> {
    let mut bytes = Vec::new();
    input.read_to_end(&mut bytes)?;
    let mut at = 0;
    let mut take = |count: usize| {
        at += count;
        bytes[at - count..at].to_vec()
    };
    let number = |bytes: Vec<u8>| bytes.iter().fold(0u32, |high, &low| high * 256 + low as u32);
    let mut cases = Vec::new();
    let mut left = bytes.len();
    while left > 0 {
        let (delta, gamma) = (number(take(4)), number(take(4)));
        let (m, n) = (number(take(2)) as usize, number(take(4)) as usize);
        let (room, sums_room) = (number(take(2)) as usize, number(take(2)) as usize);
        let profile = Profile { points: take(m), delta, gamma };
        cases.push(Case { profile, recording: take(n), room, sums_room });
        left -= 18 + m + n;
    }
    Ok(cases)
}

/// The lines that the program must print.
pub fn answers(case: &Case) -> Vec<String> {
    let profile = &case.profile;
    let mut lines = Vec::new();
    for (searcher, name) in SEARCHERS {
        let mut list: Vec<u32> = (UNTOUCHED..).take(case.room).collect();
        let mut sums: Vec<u16> = (UNTOUCHED_SUM..).take(case.sums_room).collect();
        let search = reference::search(searcher, profile, &case.recording, &mut list, &mut sums);
        lines.push(search_line(name, search, &list, &sums));
    }
    lines.push(first_line(reference::first(profile, &case.recording)));
    let greatest_number = profile.m().min(64) + 1;
    lines.push(pairs("last_reading", (0..=255).map(|a| reference::last_reading(profile, a)).collect()));
    lines.push(pairs("next_reading", (0..=255).map(|a| reference::next_reading(profile, a)).collect()));
    lines.push(pairs("seen_reading", (0..=255).map(|a| reference::seen_reading(profile, a)).collect()));
    lines.push(pairs("after_check", vec![reference::after_check(profile)]));
    lines.push(pairs("full", vec![reference::full(profile)]));
    lines.push(pairs("mismatch", reference::mismatches(profile, 0..=greatest_number)));
    let windows = asked_about(case.recording.len());
    lines.push(check_line(windows.map(|s| reference::check(profile, &case.recording, s)).collect()));
    assert_eq!(lines.len(), LINES);
    lines
}

/// The refusal, the total of places, the count of windows tried and the least sum; then both lists.
fn search_line(name: &str, search: Search, list: &[u32], sums: &[u16]) -> String {
    let mut line = format!("{name} {} {} {} {}", search.refusal, search.total, search.tried, search.least);
    for entry in list {
        line += &format!(" {entry}");
    }
    line += " sums";
    for entry in sums {
        line += &format!(" {entry}");
    }
    line
}

/// The refusal, 1 and the place or two zeros, and the count of windows tried.
fn first_line(first: First) -> String {
    let (found, place) = match first.place {
        Some(s) => (1, s),
        None => (0, 0),
    };
    format!("first {} {found} {place} {}", first.refusal, first.tried)
}

/// Each s that the question about one window is asked for, with so many readings: those above, and last the greatest there is.
fn asked_about(n: usize) -> impl Iterator<Item = usize> {
    let is_asked = move |s: &usize| n <= 2 * MOST_ASKED || *s < MOST_ASKED || n - MOST_ASKED <= *s;
    (0..=n + 1).filter(is_asked).chain([usize::MAX])
}

/// For each s the refusal; 0, 1 or 2 as a point is far, the window fits or its sum is over; then the point and the sum, 0 where there is none.
fn check_line(answers: Vec<Judged>) -> String {
    let mut line = "check".to_string();
    for Judged { refusal, verdict } in answers {
        let (kind, point, sum) = match verdict {
            None => (0, 0, 0),
            Some(Verdict::Far(p)) => (0, p, 0),
            Some(Verdict::Fits(sum)) => (1, 0, sum),
            Some(Verdict::Over(sum)) => (2, 0, sum),
        };
        line += &format!(" {refusal} {kind} {point} {sum}");
    }
    line
}

fn pairs(name: &str, jumps: Vec<Jump>) -> String {
    let mut line = name.to_string();
    for jump in jumps {
        line += &format!(" {} {}", jump.refusal, jump.jump);
    }
    line
}

/// A case as a person reads it.
pub fn describe(case: &Case) -> String {
    let shown = &case.recording[..case.recording.len().min(300)];
    let cut = if shown.len() < case.recording.len() { " .." } else { "" };
    format!(
        "  delta {}, gamma {}, a list of {} and sums of {}\n  {} points: {}\n  {} readings: {}{cut}",
        case.profile.delta,
        case.profile.gamma,
        case.room,
        case.sums_room,
        case.profile.points.len(),
        spaced(&case.profile.points),
        case.recording.len(),
        spaced(shown),
    )
}

fn spaced(readings: &[u8]) -> String {
    readings.iter().map(u8::to_string).collect::<Vec<_>>().join(" ")
}
