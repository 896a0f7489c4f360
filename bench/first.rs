//! The second table: `first` beside `last` in the random recording, with the profile at 0, in the middle, or nowhere. Both are of today, with
//! or without an earlier revision.
use crate::rows::{READINGS, Recordings, WIDE};
use jilbaroof::First;
use std::time::Duration;

const DELTA: u32 = 5;

/// What is measured, each with the answer as `first` has it: `last`, `first`, and `first` where the recording is the profile itself. That
/// call only builds the tables and tries one window, and a place at 0 of a long recording should cost no more.
const CALLS: [fn(&[u8], &[u8], &mut [u32], &mut [u16]) -> First; 3] = [
    |points, recording, list, sums| {
        let got = jilbaroof::last(points, DELTA, WIDE, recording, list, sums);
        First { refusal: got.refusal, spot: (got.total > 0).then_some(list[0] as usize), tried: got.tried }
    },
    |points, recording, _, _| jilbaroof::first(points, DELTA, WIDE, recording),
    |points, _, _, _| jilbaroof::first(points, DELTA, WIDE, points),
];

/// What each of them must answer. By definition `first` tries the windows that `last` tries up to and including the place, which are those
/// that it tries in a recording that ends there.
fn answers(points: &[u8], recording: &[u8], place: Option<usize>) -> [First; 3] {
    let tried = |end: usize| jilbaroof::last(points, DELTA, WIDE, &recording[..end], &mut [], &mut []).tried;
    let answer = |spot, tried| First { refusal: 0, spot, tried };
    let end = place.map_or(READINGS, |s| s + points.len());
    [answer(place, tried(READINGS)), answer(place, tried(end)), answer(Some(0), 1)]
}

/// The shortest time of each, in microseconds.
fn measure(points: &[u8], recording: &[u8], right: &[First; 3], rounds: usize) -> [f64; 3] {
    let (mut list, mut sums) = (vec![0; READINGS], vec![0; READINGS]);
    let mut best = [Duration::MAX; 3];
    for _ in 0..rounds {
        for (k, call) in CALLS.iter().enumerate() {
            list.fill(0);
            sums.fill(0);
            let (got, took) = crate::timed(recording, || call(points, recording, &mut list, &mut sums));
            if got != right[k] {
                let name = ["last", "first", "first in the profile"][k];
                eprintln!("bench: WRONG: {name}, m = {}: {got:?}, and {:?} is right", points.len(), right[k]);
                std::process::exit(1);
            }
            best[k] = best[k].min(took);
        }
    }
    best.map(|time| time.as_secs_f64() * 1e6)
}

/// Prints the table; the ratio is that of `first` to `last`.
pub fn table(recordings: &Recordings, rounds: usize) {
    println!("| first place | m | delta | gamma | last tried | first tried | last, µs | first, µs | ratio | tables alone, µs |");
    println!("|{}", "---|".repeat(10));
    for place in [Some(0), Some(READINGS / 2), None] {
        for m in [8, 10, 20] {
            let (points, recording) = recordings.planted(m, place);
            let right = answers(&points, &recording, place);
            let [last, first, tables] = measure(&points, &recording, &right, rounds);
            let at = place.map_or("none".to_string(), |s| s.to_string());
            print!("| {at} | {m} | {DELTA} | {WIDE} | {} | {} |", right[0].tried, right[1].tried);
            println!(" {last:.1} | {first:.2} | {:.4} | {tables:.2} |", first / last);
        }
    }
}
