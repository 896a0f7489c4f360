//! Calls every function of rust/jilbaroof.rs, and holds the answers to the sheet of the specification, to its refusals and to its limits, with
//! readings of 0 among them.
use jilbaroof::Verdict::{Far, Fits, Over};
use jilbaroof::{First, Judged, Jump, Search, Searcher};

const P: [u8; 3] = [40, 42, 44];
const L: [u8; 14] = [40, 42, 44, 41, 43, 45, 39, 42, 43, 70, 41, 41, 43, 40];
/// The profile Q stands in the recording Y at 1, 5 and 9 with a 0, where contact was lost, and at 13 whole.
const Q: [u8; 3] = [12, 10, 8];
const Y: [u8; 17] = [30, 0, 10, 8, 30, 12, 0, 8, 30, 12, 10, 0, 30, 12, 11, 8, 30];
const SOME: [u8; 4] = [0, 1, 0, 255];
const ZERO_1: [u8; 65] = with_zero(1);
const ZERO_64: [u8; 65] = with_zero(64);
const ZERO_65: [u8; 65] = with_zero(65);

/// 65 points of 1, but that point number `p` is 0.
const fn with_zero(p: usize) -> [u8; 65] {
    let mut points = [1; 65];
    points[p - 1] = 0;
    points
}

/// E4, with a perfect fit, E5, and E5 from position 1 on, whose least sum is not the first; with lists of each length from 0 to 5, in all pairs.
fn search(name: &str, ask: Searcher, tried: usize, tried_from_1: usize) {
    for (gamma, from, tried, least, places, its_sums) in [
        (2, 0, tried, 0, &[0, 6][..], &[0, 2][..]),
        (3, 0, tried, 0, &[0, 3, 6, 10], &[0, 3, 2, 3]),
        (3, 1, tried_from_1, 2, &[2, 5, 9], &[3, 2, 3]),
    ] {
        for (room, sums_room) in (0..=5).flat_map(|room| (0..=5).map(move |sums_room| (room, sums_room))) {
            let (mut list, mut sums) = (vec![99; room], vec![99; sums_room]);
            let found = Search { refusal: 0, total: places.len(), tried, least };
            assert_eq!(ask(&P, 1, gamma, &L[from..], &mut list, &mut sums), found, "{name}");
            assert_eq!((list, sums), (laid(places, room), laid(its_sums, sums_room)), "{name}");
        }
    }
}

/// A list of so many entries of 99 with these laid in, as many as fit.
fn laid<T: Copy + From<u8>>(entries: &[T], room: usize) -> Vec<T> {
    entries.iter().copied().chain([T::from(99); 5]).take(room).collect()
}

/// Calls that are refused by 1, 7, 8, 2 or 3, the first that applies in this order, also by numbers that a narrower type would cut to allowed
/// ones or to no points.
fn refusals(many: &[u8]) -> [(u32, &[u8], u32, u32, &[u8]); 21] {
    [
        (1, &P[..0], 1, 2, &L),
        (1, &P[..0], 256, 16_321, many),
        (7, &many[..65], 1, 2, &L),
        (7, &many[..65], 256, 16_321, many),
        (7, &many[..65_536], 1, 2, &L),
        (7, &many[..65_537], 1, 2, &L),
        (7, &ZERO_1, 1, 2, &L),
        (7, &ZERO_65, 256, 16_321, many),
        (8, &ZERO_1[..1], 1, 2, &L),
        (8, &ZERO_1[..64], 1, 2, &L),
        (8, &ZERO_64[..64], 1, 2, &L),
        (8, &ZERO_64[..64], 256, 2, &L),
        (8, &ZERO_64[..64], 1, 16_321, &L),
        (8, &ZERO_64[..64], 1, 2, many),
        (8, &ZERO_1[..64], 256, 16_321, many),
        (2, &P, 256, 2, many),
        (2, &P, 65_537, 2, &L),
        (2, &P, 1, 16_321, &L),
        (2, &P, 1, 65_538, &L),
        (3, &P, 1, 2, many),
        (3, &many[..64], 255, 16_320, many),
    ]
}

/// Each of them, and both lists stay as they were.
fn search_refused(name: &str, ask: Searcher, many: &[u8]) {
    for (number, points, delta, gamma, recording) in refusals(many) {
        let (mut list, mut sums) = ([9; 5], [9; 5]);
        let refused = Search { refusal: number, total: 0, tried: 0, least: 0 };
        assert_eq!(ask(points, delta, gamma, recording, &mut list, &mut sums), refused, "{name}");
        assert_eq!((list, sums), ([9; 5], [9; 5]), "{name}");
    }
}

/// What is just allowed: no reading, fewer than points, as many; 64 points, also with a 0 behind them; the widest tolerances, and the greatest sum
/// that two pressures a point can have; a million readings, none a place, or all, the closest far behind both lists.
fn search_limits(name: &str, ask: Searcher, many: &[u8], late: &[u8]) {
    let found = |total, tried, least| Search { refusal: 0, total, tried, least };
    let (mut list, mut sums) = ([9; 1], [9; 1]);
    assert_eq!(ask(&P, 1, 2, &[], &mut [], &mut []), found(0, 0, 0), "{name}");
    assert_eq!(ask(&P, 1, 2, &L[..2], &mut list, &mut sums), found(0, 0, 0), "{name}");
    assert_eq!((list, sums), ([9], [9]), "{name}");
    assert_eq!(ask(&P, 1, 2, &L[..3], &mut list, &mut sums), found(1, 1, 0), "{name}");
    assert_eq!((list, sums), ([0], [0]), "{name}");
    assert_eq!(ask(&many[..64], 0, 0, &many[..64], &mut [], &mut []), found(1, 1, 0), "{name}");
    assert_eq!(ask(&ZERO_65[..64], 0, 0, &many[..64], &mut [], &mut []), found(1, 1, 0), "{name}");
    assert_eq!(ask(&many[..64], 255, 16_320, &[255; 64], &mut [], &mut sums), found(1, 1, 16_256), "{name}");
    assert_eq!(sums, [16_256], "{name}");
    let all = ask(&P, 255, 16_320, &L, &mut [], &mut []);
    assert_eq!((all.refusal, all.total, all.least), (0, 12, 0), "{name}");
    let none = ask(&P, 1, 2, &many[..1_000_000], &mut list, &mut sums);
    assert_eq!((none.refusal, none.total, none.least), (0, 0, 0), "{name}");
    assert_eq!((list, sums), ([0], [16_256]), "{name}");
    assert_eq!(ask(&[10], 9, 9, late, &mut list, &mut sums), found(1_000_000, 1_000_000, 1), "{name}");
    assert_eq!((list, sums), ([0], [9]), "{name}");
}

/// A window holding a 0 is no place, within the tolerances or at the widest; with 1 in the place of each 0 it is one.
fn search_lost(name: &str, ask: Searcher, tried: usize, tried_widest: usize) {
    let found = |total, tried, least| Search { refusal: 0, total, tried, least };
    let (mut list, mut sums) = ([9; 5], [9; 5]);
    assert_eq!(ask(&Q, 12, 12, &Y, &mut list, &mut sums), found(1, tried, 1), "{name}");
    assert_eq!((list, sums), ([13, 9, 9, 9, 9], [1, 9, 9, 9, 9]), "{name}");
    assert_eq!(ask(&[1], 255, 16_320, &SOME, &mut list, &mut sums), found(2, tried_widest, 0), "{name}");
    assert_eq!((list, sums), ([1, 3, 9, 9, 9], [0, 254, 9, 9, 9]), "{name}");
    let whole = ask(&Q, 12, 12, &Y.map(|y| y.max(1)), &mut list, &mut sums[..4]);
    assert_eq!((whole.total, whole.least), (4, 1), "{name}");
    assert_eq!((list, sums), ([1, 5, 9, 13, 9], [11, 9, 7, 1, 9]), "{name}");
    // long enough for blocks of 64 windows
    let mut gap = [0; 200];
    gap[100..103].fill(1);
    for (delta, gamma) in [(1, 2), (255, 16_320)] {
        (list[0], sums[0]) = (9, 9);
        let one = ask(&[1; 3], delta, gamma, &gap, &mut list, &mut sums);
        assert_eq!((one.total, one.least), (1, 0), "{name}");
        assert_eq!((list, sums), ([100, 5, 9, 13, 9], [0, 9, 7, 1, 9]), "{name}");
    }
}

/// Profiles whose counters packed has in one word of 64 bits, in two (80 bits, as E10's second input) and in 16, which is the most: every
/// searcher accepts them all. All readings are near, so that only the sums decide, which are above gamma, at it and below it, and too great for
/// 8 bits; in the last search one reading is a 0.
fn search_words(name: &str, ask: Searcher, tried_lost: usize) {
    let found = |total, tried, least| Search { refusal: 0, total, tried, least };
    let (mut list, mut sums) = ([9; 8], [9; 9]);
    let pairs = [1, 2].repeat(10);
    assert_eq!(ask(&[1; 16], 1, 7, &pairs, &mut list, &mut sums), found(0, 5, 0), "{name}");
    assert_eq!((list, sums), ([9; 8], [9; 9]), "{name}");
    assert_eq!(ask(&[1; 16], 1, 8, &pairs, &mut list, &mut sums), found(5, 5, 8), "{name}");
    assert_eq!((list, sums), ([0, 1, 2, 3, 4, 9, 9, 9], [8, 8, 8, 8, 8, 9, 9, 9, 9]), "{name}");
    // 64 differences of 128 are 8,192, and counters of 15 bits; one of them is 127 in the windows from 37 to 100
    let mut high = [129; 200];
    high[100] = 128;
    assert_eq!(ask(&[1; 64], 128, 8_191, &high, &mut list, &mut sums), found(64, 137, 8_191), "{name}");
    assert_eq!((list, sums), ([37, 38, 39, 40, 41, 42, 43, 44], [8_191; 9]), "{name}");
    assert_eq!(ask(&[1; 64], 128, 8_192, &high, &mut list, &mut sums), found(137, 137, 8_191), "{name}");
    assert_eq!((list, sums), ([0, 1, 2, 3, 4, 5, 6, 7], [8_192; 9]), "{name}");
    high[70] = 0;
    assert_eq!(ask(&[1; 64], 255, 16_320, &high, &mut list, &mut sums), found(73, tried_lost, 8_191), "{name}");
    assert_eq!(list, [0, 1, 2, 3, 4, 5, 6, 71], "{name}");
    assert_eq!(sums, [8_192, 8_192, 8_192, 8_192, 8_192, 8_192, 8_192, 8_191, 8_191], "{name}");
}

/// E4; E4 from position 1 on and E5 from 2 on, where place and count differ; a place at the last window, and none with one reading less; one
/// before which the after-check jump would have a window more tried; a place and a count that 16 bits do not hold; readings of 0.
fn first(late: &[u8]) {
    for (points, delta, gamma, recording, spot, tried) in [
        (&P, 1, 2, &L[..], Some(0), 1),
        (&P, 1, 2, &L[1..], Some(5), 3),
        (&P, 1, 3, &L[2..], Some(1), 2),
        (&P, 1, 2, &L[1..9], Some(5), 3),
        (&P, 1, 2, &L[1..8], None, 2),
        (&P, 1, 2, &[41, 43, 45, 43, 40, 42, 44], Some(4), 2),
        (&[9, 1, 1], 0, 0, late, Some(999_997), 999_996),
        (&Q, 12, 12, &Y, Some(13), 5),
        (&Q, 12, 12, &Y[..12], None, 3),
    ] {
        assert_eq!(jilbaroof::first(points, delta, gamma, recording), First { refusal: 0, spot, tried });
    }
}

/// As for the searchers: the refusals, and what is just allowed.
fn first_limits(many: &[u8]) {
    for (number, points, delta, gamma, recording) in refusals(many) {
        let refused = First { refusal: number, spot: None, tried: 0 };
        assert_eq!(jilbaroof::first(points, delta, gamma, recording), refused);
    }
    let found = |spot, tried| First { refusal: 0, spot, tried };
    assert_eq!(jilbaroof::first(&P, 1, 2, &[]), found(None, 0));
    assert_eq!(jilbaroof::first(&P, 1, 2, &L[..2]), found(None, 0));
    assert_eq!(jilbaroof::first(&P, 1, 2, &L[..3]), found(Some(0), 1));
    assert_eq!(jilbaroof::first(&many[..64], 0, 0, &many[..64]), found(Some(0), 1));
    assert_eq!(jilbaroof::first(&ZERO_65[..64], 0, 0, &many[..64]), found(Some(0), 1));
    assert_eq!(jilbaroof::first(&P, 255, 16_320, &L[1..]), found(Some(0), 1));
    assert_eq!(jilbaroof::first(&[1], 255, 16_320, &SOME), found(Some(1), 1));
}

/// E4 and E5 at windows of each kind, the last window among them; a point that is far by gamma alone, and one behind a sum above g; readings of
/// 0, each within delta; sums of 64 points that 8 bits do not hold; a position that 16 bits do not hold.
fn check(many: &[u8]) {
    let mut lost = [255; 64];
    lost[63] = 0;
    for (points, delta, gamma, recording, s, verdict) in [
        (&P[..], 1, 2, &L[..], 0, Fits(0)),
        (&P, 1, 2, &L, 1, Far(1)),
        (&P, 1, 2, &L, 3, Over(3)),
        (&P, 1, 2, &L, 6, Fits(2)),
        (&P, 1, 2, &L, 11, Far(3)),
        (&P, 1, 3, &L, 3, Fits(3)),
        (&[10, 10], 5, 2, &[12, 11], 0, Over(3)),
        (&[10, 10], 5, 2, &[12, 13], 0, Far(2)),
        (&[10, 10, 10], 3, 4, &[13, 13, 14], 0, Far(3)),
        (&Q, 12, 12, &Y, 1, Far(1)),
        (&Q, 12, 12, &Y, 5, Far(2)),
        (&Q, 12, 12, &Y, 9, Far(3)),
        (&Q, 12, 12, &Y, 13, Fits(1)),
        (&[1], 255, 16_320, &SOME, 0, Far(1)),
        (&many[..64], 255, 16_320, &[255; 64], 0, Fits(16_256)),
        (&many[..64], 255, 16_255, &[255; 64], 0, Over(16_256)),
        (&many[..64], 255, 16_255, &lost, 0, Far(64)),
        (&[10, 10], 9, 18, &many[..1_000_000], 999_998, Fits(18)),
        (&P, 1, 2, &L[..3], 0, Fits(0)),
        (&ZERO_65[..64], 0, 0, &many[..64], 0, Fits(0)),
    ] {
        assert_eq!(jilbaroof::check(points, delta, gamma, recording, s), Judged { refusal: 0, verdict }, "at {s}");
    }
}

/// The refusals as the searchers have them, whether `s` has a window or not; then 6: directly behind the last window, at the end and beyond it, by
/// numbers that a narrower type would cut to a window's or that wrap with m, and where there is no window at all.
fn check_refused(many: &[u8]) {
    let refused = |refusal| Judged { refusal, verdict: Far(0) };
    for (number, points, delta, gamma, recording) in refusals(many) {
        for s in [0, recording.len(), recording.len() + 1, usize::MAX] {
            assert_eq!(jilbaroof::check(points, delta, gamma, recording, s), refused(number), "at {s}");
        }
    }
    for s in [12, 13, 14, 15, 1 << 32, usize::MAX - 2, usize::MAX] {
        assert_eq!(jilbaroof::check(&P, 1, 2, &L, s), refused(6), "at {s}");
    }
    assert_eq!(jilbaroof::check(&P, 1, 2, &many[..1_000_000], 999_998), refused(6));
    assert_eq!(jilbaroof::check(&P, 1, 2, &[], 0), refused(6));
    assert_eq!(jilbaroof::check(&P, 1, 2, &L[..2], 0), refused(6));
    assert_eq!(jilbaroof::check(&P, 1, 2, &L[..3], 1), refused(6));
}

/// The refusals but 3, since a question has no recording. `last` is the refusal that 64 points, also with a 0 behind them, leave to the
/// question: none, or mismatch's own.
fn question_refused(ask: fn(&[u8], u32, u32) -> Jump, last: u32, many: &[u8]) {
    assert_eq!(ask(&many[..64], 255, 16_320).refusal, last);
    assert_eq!(ask(&ZERO_65[..64], 255, 16_320).refusal, last);
    for (number, points, delta, gamma, _) in refusals(many).into_iter().filter(|call| call.0 != 3) {
        assert_eq!(ask(points, delta, gamma), Jump { refusal: number, jump: 0 });
    }
}

fn main() {
    let many = vec![1; 1_000_001];
    let mut late = vec![1; 1_000_000];
    late[999_997] = 9;
    for (name, ask, tried, tried_from_1, tried_lost, tried_widest, tried_words) in [
        ("plain", jilbaroof::plain as Searcher, 12, 11, 15, 4, 137),
        ("packed", jilbaroof::packed, 12, 11, 15, 4, 137),
        ("last", jilbaroof::last, 4, 4, 5, 2, 73),
        ("skip", jilbaroof::skip, 6, 5, 9, 2, 137),
        ("maximal", jilbaroof::maximal, 5, 5, 5, 3, 73),
    ] {
        search(name, ask, tried, tried_from_1);
        search_lost(name, ask, tried_lost, tried_widest);
        search_words(name, ask, tried_words);
        search_refused(name, ask, &many);
        search_limits(name, ask, &many, &late);
    }

    first(&late);
    first_limits(&many);

    check(&many);
    check_refused(&many);

    question_refused(|x, delta, gamma| jilbaroof::last_reading(x, delta, gamma, 44), 0, &many);
    question_refused(|x, delta, gamma| jilbaroof::next_reading(x, delta, gamma, 44), 0, &many);
    question_refused(|x, delta, gamma| jilbaroof::seen_reading(x, delta, gamma, 44), 0, &many);
    question_refused(jilbaroof::after_check, 0, &many);
    question_refused(jilbaroof::full, 0, &many);
    question_refused(|x, delta, gamma| jilbaroof::mismatch(x, delta, gamma, 0), 6, &many);
    let jump = |jump| Jump { refusal: 0, jump };
    let refused = |refusal| Jump { refusal, jump: 0 };
    for (a, k) in [(44, 0), (41, 1), (40, 2), (70, 3), (0, 3)] {
        assert_eq!(jilbaroof::last_reading(&P, 1, 2, a), jump(k));
        assert_eq!(jilbaroof::next_reading(&P, 1, 2, a), jump(k + 1));
    }
    for (a, k) in [(0, 3), (1, 0)] {
        assert_eq!(jilbaroof::last_reading(&P, 255, 16_320, a), jump(k));
        assert_eq!(jilbaroof::next_reading(&P, 255, 16_320, a), jump(k + 1));
    }
    // 44 and 45 are near the last point alone, 43 and 41 near the one before it, 40 near the first alone
    for (a, k) in [(45, 3), (44, 3), (43, 1), (41, 1), (40, 2), (70, 3), (0, 3)] {
        assert_eq!(jilbaroof::seen_reading(&P, 1, 2, a), jump(k));
    }
    assert_eq!([0, 1].map(|a| jilbaroof::seen_reading(&P, 255, 16_320, a)), [jump(3), jump(1)]);
    assert_eq!(jilbaroof::seen_reading(&P[..1], 1, 2, 40), jump(1));
    assert_eq!([2, 3].map(|a| jilbaroof::seen_reading(&many[..64], 1, 2, a)), [jump(1), jump(64)]);
    assert_eq!(jilbaroof::after_check(&[10, 20, 20], 1, 2), jump(1));
    assert_eq!(jilbaroof::full(&[10, 20, 20], 1, 2), jump(3));
    assert_eq!(jilbaroof::mismatch(&[6, 5], 1, 2, 2), jump(1));
    assert_eq!(jilbaroof::mismatch(&[255, 254], 1, 2, 2), jump(2));
    // only a 0 would be near 1 and not near 2
    assert_eq!(jilbaroof::mismatch(&[1, 2], 1, 2, 2), jump(2));
    assert_eq!(jilbaroof::mismatch(&P, 1, 2, 0), refused(6));
    assert_eq!(jilbaroof::mismatch(&P, 1, 2, 4), refused(6));
    assert_eq!(jilbaroof::mismatch(&P, 1, 2, (1 << 32) + 1), refused(6));
    println!("boundary: Rust: all answers as the sheet has them");
}
