//! Cases from a seed. The kinds take turns, so that even a short run has some of each.

use crate::frames::{Case, MOST_ROOM};
use crate::reference::{self, Profile};

/// Numbers from a seed (splitmix64).
struct Draw(u64);

impl Draw {
    fn next(&mut self) -> u64 {
        self.0 = self.0.wrapping_add(0x9E37_79B9_7F4A_7C15);
        let mut z = self.0;
        z = (z ^ (z >> 30)).wrapping_mul(0xBF58_476D_1CE4_E5B9);
        z = (z ^ (z >> 27)).wrapping_mul(0x94D0_49BB_1331_11EB);
        z ^ (z >> 31)
    }

    /// Numbers of their own, for a case that draws many: how many it draws changes no other case.
    fn apart(&mut self) -> Draw {
        Draw(self.next())
    }

    /// A number from low to high, both included.
    fn from(&mut self, low: u64, high: u64) -> u64 {
        low + self.next() % (high - low + 1)
    }

    fn length(&mut self, low: usize, high: usize) -> usize {
        self.from(low as u64, high as u64) as usize
    }

    fn number(&mut self, low: u32, high: u32) -> u32 {
        self.from(low as u64, high as u64) as u32
    }

    fn one_of<T: Copy>(&mut self, choices: &[T]) -> T {
        choices[self.length(0, choices.len() - 1)]
    }

    fn readings(&mut self, count: usize, alphabet: &[u8]) -> Vec<u8> {
        (0..count).map(|_| self.one_of(alphabet)).collect()
    }

    /// Readings that can be points: a profile holding a 0 is refused, and most cases are to be searched.
    fn points(&mut self, count: usize, alphabet: &[u8]) -> Vec<u8> {
        let pressures: Vec<u8> = alphabet.iter().copied().filter(|&a| a > 0).collect();
        self.readings(count, &pressures)
    }
}

const ANY: [u8; 256] = {
    let mut all = [0; 256];
    let mut a = 0;
    while a < 256 {
        all[a] = a as u8;
        a += 1;
    }
    all
};
/// Both ends of the readings, where differences cannot go either way.
const ENDS: [u8; 8] = [0, 1, 2, 3, 252, 253, 254, 255];

/// A profile and a recording; the lengths of the lent lists are drawn afterwards.
type Made = (Profile, Vec<u8>);

type Kind = fn(&mut Draw) -> Made;

/// Kinds that need no 0 for what they try, and whose profiles are accepted.
const ORDINARY: [Kind; 21] = [
    few_readings,
    ends_of_the_readings,
    sums_about_gamma,
    broken_windows,
    one_point,
    sixty_four_points,
    no_room_for_a_window,
    constant_recording,
    tolerances_of_any_size,
    smooth_recording,
    repeating_profile,
    no_tolerance,
    points_about_the_last,
    windows_at_landings,
    block_borders,
    block_borders_all_near,
    block_borders_all_near,
    probes_by_tables,
    probes_by_tables,
    probes_of_many_places,
    probes_of_many_places,
];
const ZEROS: [Kind; 4] = [zeros_within_tolerance, zeros_within_tolerance, zeros_alone_decide, contact_lost];
/// `zero_in_the_profile` stands here a third time so that there are 31 kinds: a number without a divisor in common with 5, 10 and 200, the steps
/// at which other cases take a kind's turn, so that all kinds give way to them alike.
const REFUSED: [Kind; 6] = [refused, refused, refused, zero_in_the_profile, zero_in_the_profile, zero_in_the_profile];

/// One case in so many is long: refused, for its length or before that, or as long as is accepted. It is not always the same kind that gives way
/// to it, since the number of kinds does not divide this one.
const LONG_EVERY: usize = 200;

/// One case in so many is at an edge of packed's words, one after the other, so that 2,000 cases have them all. None of them is a long one.
const EDGE_EVERY: usize = 5;

/// One case in so many is about sums, one after the other, so that 2,000 cases have each of them with all pairs of lengths. None of them is at an
/// edge or a long one.
const SUMS_EVERY: usize = 10;

pub fn cases(count: usize, seed: u64) -> impl Iterator<Item = Case> {
    let (sheet, edges, sums) = (sheet(), edges(), sums_in_all_lengths());
    let kinds = [&ORDINARY[..], &ZEROS, &REFUSED].concat();
    let mut draw = Draw(seed);
    (0..count).map(move |number| {
        if number >= sheet.len() && number % SUMS_EVERY == 3 {
            return sums[number / SUMS_EVERY % sums.len()].clone();
        }
        let (profile, recording) = if number < sheet.len() {
            sheet[number].clone()
        } else if number % LONG_EVERY == LONG_EVERY - 1 {
            long_recording(&mut draw, number / LONG_EVERY)
        } else if number % EDGE_EVERY == 0 {
            at_edge(&mut draw, edges[number / EDGE_EVERY % edges.len()])
        } else {
            kinds[number % kinds.len()](&mut draw)
        };
        let total = total(&profile, &recording);
        let (room, sums_room) = (room(&mut draw, total), room(&mut draw, total));
        Case { profile, recording, room, sums_room }
    })
}

/// The sheet of examples, E1 to E8, E10, E12 and E13; E9 and E11 ask nothing further of a program. They come first.
fn sheet() -> Vec<Made> {
    let p = || vec![40, 42, 44];
    let l = || vec![40, 42, 44, 41, 43, 45, 39, 42, 43, 70, 41, 41, 43, 40];
    vec![
        (profile(p(), 1, 2), vec![]),
        (profile(vec![1], 254, 254), vec![255]),
        (profile(vec![1], 253, 254), vec![255]),
        (profile(p(), 1, 2), l()),
        (profile(p(), 1, 3), l()),
        (profile(p(), 1, 1), l()),
        (profile(p(), 9, 2), l()),
        (profile(vec![7, 7], 0, 0), vec![7, 7, 7]),
        (profile(vec![9; 16], 1, 7), vec![9; 20]),
        (profile(vec![9; 16], 1, 8), vec![9; 20]),
        (profile(vec![6, 5], 1, 2), vec![6, 7, 5]),
        (profile(vec![255, 254], 1, 2), vec![255, 253, 254]),
    ]
}

/// How many places there are; none where the search is refused.
fn total(profile: &Profile, recording: &[u8]) -> usize {
    match reference::refusal_of_search(profile, recording) {
        0 => reference::places(profile, recording).len(),
        _ => 0,
    }
}

/// A list with no room, too little room, just enough, more than enough; mostly with some where there is no place.
fn room(draw: &mut Draw, total: usize) -> usize {
    let some = draw.length(0, 12);
    let choice = match total {
        0 => draw.one_of(&[0, 1, some, 12]),
        _ => draw.one_of(&[0, total - 1, total / 2, total, total + 1, total + some, some]),
    };
    choice.min(MOST_ROOM)
}

fn profile(points: Vec<u8>, delta: u32, gamma: u32) -> Profile {
    Profile { points, delta, gamma }
}

/// Each case about sums, with a list and sums of no room, too little, just enough and more than enough, in all pairs. Neighbours have another case
/// and another pair, so that even a short run has several of both.
fn sums_in_all_lengths() -> Vec<Case> {
    let all = about_sums();
    let pairs = (0..16).flat_map(|turn| all.iter().enumerate().map(move |(k, made)| (made, (turn + k) % 16)));
    pairs
        .map(|((profile, recording), pair)| {
            let lengths = match total(profile, recording) {
                0 => [0, 1, 2, 5],
                total => [0, total / 2, total, total + 3],
            };
            let (room, sums_room) = (lengths[pair % 4], lengths[pair / 4]);
            Case { profile: profile.clone(), recording: recording.clone(), room, sums_room }
        })
        .collect()
}

/// Several places of different sums, the least of which stands anywhere among them, in blocks of windows and behind them; and what is no place,
/// with sums that are less.
fn about_sums() -> Vec<Made> {
    let falling: Vec<(usize, u32)> = (0..9).map(|s| (s, 9 - s as u32)).collect();
    let scattered = [(0, 40), (5, 33), (63, 50), (67, 21), (90, 45), (127, 30), (131, 12), (149, 13)];
    let twenty: Vec<u8> = (0..20).map(|i| 60 + 7 * (i % 4)).collect();
    let dip = |i: usize| 255 - 40u8.saturating_sub(i.abs_diff(110) as u8);
    vec![
        // E5 from position 1 on: the least is between two that are alike
        (profile(vec![40, 42, 44], 1, 3), vec![42, 44, 41, 43, 45, 39, 42, 43, 70, 41, 41, 43, 40]),
        planted(vec![100], 9, 9, 9, &falling),
        // one block of windows, a perfect fit among the places
        planted(vec![50, 60, 70], 4, 12, 64, &[(0, 12), (5, 3), (10, 0), (20, 3), (31, 0), (63, 1)]),
        // all alike; and perfect fits alone, whose least sum is that of no place
        (profile(vec![9; 4], 2, 8), vec![11; 12]),
        (profile(vec![7, 9], 0, 0), [7, 9].repeat(4)),
        // a sum above gamma, a point that is too far, a 0: no place
        (profile(vec![2, 2], 3, 5), vec![5, 5, 90, 6, 2, 90, 0, 2]),
        // and between places, with sums that are less than theirs
        (profile(vec![2, 2], 3, 6), vec![5, 5, 90, 6, 2, 90, 0, 2, 90, 4, 5, 90, 2, 0, 90, 5, 5]),
        // two blocks and a rest that has the least
        planted(vec![100, 110, 120], 20, 50, 150, &scattered),
        // three words of counters, the least in the block before the rest
        planted(twenty, 5, 100, 90, &[(0, 90), (21, 17), (43, 100), (66, 55), (89, 99)]),
        // 16 words, every window a place, from the greatest sum there is down to the least in the second block
        (profile(vec![1; 64], 255, 16_320), (0..192).map(dip).collect()),
        // refused by 2 and by 8, where every window would be a place
        (profile(vec![7, 7], 9, 16_321), vec![9; 9]),
        (profile(vec![7, 0], 9, 16_320), [9, 1].repeat(5)),
    ]
}

/// So many windows of which just these are places, each with its sum. Every other reading is 255, which suits no point; places of several points lie
/// so far apart that one is between them.
fn planted(points: Vec<u8>, delta: u32, gamma: u32, windows: usize, places: &[(usize, u32)]) -> Made {
    let mut recording = vec![255; windows + points.len() - 1];
    for &(s, sum) in places {
        let mut left = sum;
        for (reading, point) in recording[s..].iter_mut().zip(&points) {
            let difference = left.min(delta);
            *reading = point + difference as u8;
            left -= difference;
        }
    }
    (profile(points, delta, gamma), recording)
}

/// A few different readings close to each other: many places, and many that only just fail.
fn few_readings(draw: &mut Draw) -> Made {
    let (low, many) = (draw.number(0, 240), draw.number(2, 6));
    let step = draw.one_of(&[1, 1, 1, 2, 3]);
    let alphabet: Vec<u8> = (0..many).map(|k| (low + k * step).min(255) as u8).collect();
    let m = draw.length(1, 9);
    let n = draw.length(0, 60);
    let delta = draw.number(0, many);
    let gamma = draw.number(0, delta * m as u32 + 2);
    (profile(draw.points(m, &alphabet), delta, gamma), draw.readings(n, &alphabet))
}

fn ends_of_the_readings(draw: &mut Draw) -> Made {
    let alphabet = draw.one_of(&[&ENDS[..], &ENDS[..4], &ENDS[1..4], &ENDS[4..], &[0, 255], &[1, 255], &[253, 255]]);
    let m = draw.length(1, 8);
    let n = draw.length(0, 50);
    let delta = draw.one_of(&[0, 1, 1, 2, 3, 127, 128, 251, 252, 253, 254, 255]);
    let gamma = draw.one_of(&[0, 1, delta, delta + 1, 2 * delta, m as u32 * delta, 16_320]);
    (profile(draw.points(m, alphabet), delta, gamma), draw.readings(n, alphabet))
}

/// Differences that sum to the number asked for, as far as each can go, spread over the points in no order.
fn differences_of_sum(draw: &mut Draw, most: &[u32], sum: u32) -> Vec<u32> {
    let mut differences = vec![0; most.len()];
    let mut left = sum.min(most.iter().sum());
    while left > 0 {
        let i = draw.length(0, most.len() - 1);
        let more = draw.number(0, left.min(most[i] - differences[i]));
        differences[i] += more;
        left -= more;
    }
    differences
}

/// A window about the points with differences of at most delta, as far as they can go, that sum to the number asked for. Each reading is
/// above or below its point, but that it goes to the farther end where delta goes beyond the other. It holds no 0, which would keep it from
/// being a place for another reason than its sum.
fn window_of_sum(draw: &mut Draw, points: &[u8], delta: u32, sum: u32) -> Vec<u8> {
    let ends = |x: u8| (x as u32 - 1, 255 - x as u32);
    let mut is_up = |x: u8| match ends(x) {
        (below, above) if below.min(above) >= delta => draw.from(0, 1) == 1,
        (below, above) => above > below,
    };
    let up: Vec<bool> = points.iter().map(|&x| is_up(x)).collect();
    let most: Vec<u32> = points.iter().map(|&x| ends(x).0.max(ends(x).1).min(delta)).collect();
    let differences = differences_of_sum(draw, &most, sum);
    (0..points.len()).map(|i| if up[i] { points[i] + differences[i] as u8 } else { points[i] - differences[i] as u8 }).collect()
}

/// Windows whose sums are gamma - 1, gamma and gamma + 1, or that have one difference of delta + 1; often one at the very end.
fn sums_about_gamma(draw: &mut Draw) -> Made {
    let m = draw.length(1, 12);
    let delta = draw.number(1, 9);
    let gamma = draw.number(1, delta * m as u32);
    let (low, high) = draw.one_of(&[(20, 235), (60, 70), (100, 130)]);
    let alphabet: Vec<u8> = (low..=high).collect();
    let points = draw.readings(m, &alphabet);
    let mut recording = Vec::new();
    for _ in 0..draw.from(1, 4) {
        let gap = draw.length(0, m);
        recording.extend(draw.readings(gap, &alphabet));
        let sum = gamma - 1 + draw.number(0, 2);
        let mut window = window_of_sum(draw, &points, delta, sum);
        if draw.from(0, 4) == 0 {
            let i = draw.length(0, m - 1);
            window[i] = if draw.from(0, 1) == 0 { points[i] + delta as u8 + 1 } else { points[i] - delta as u8 - 1 };
        }
        recording.extend(window);
    }
    if draw.from(0, 1) == 0 {
        let gap = draw.length(1, 3);
        recording.extend(draw.readings(gap, &alphabet));
    }
    (profile(points, delta, gamma), recording)
}

/// Windows that are no places for one reason or for several: a sum about g or above it, and readings that are too far, at one point or more,
/// often the last. Gamma is often below delta, so that a reading is too far by gamma alone.
fn broken_windows(draw: &mut Draw) -> Made {
    let m = draw.one_of(&[1, 2, 3, 9, 20, 64, 64]);
    let delta = draw.number(1, 9);
    let (below, any) = (draw.number(0, delta - 1), draw.number(1, delta * m as u32));
    let gamma = draw.one_of(&[below, below, any]);
    let profile = profile(draw.readings(m, &ANY[100..=110]), delta, gamma);
    let (d, g) = (delta.min(gamma), profile.g() as u32);
    let mut recording = Vec::new();
    for _ in 0..draw.from(2, 5) {
        let sum = draw.one_of(&[0, g, g + 1, 2 * g + 2]);
        let mut window = window_of_sum(draw, &profile.points, d, sum);
        let too_far = draw.one_of(&[d + 1, delta.max(d + 1), delta + 1]) as u8;
        for _ in 0..draw.one_of(&[0, 1, 1, 2]) {
            let anywhere = draw.length(0, m - 1);
            let at = draw.one_of(&[anywhere, 0, m - 1, m - 1]);
            window[at] = draw.one_of(&[profile.points[at] - too_far, profile.points[at] + too_far]);
        }
        recording.extend(window);
        let gap = draw.one_of(&[0, 0, 1, 3]);
        recording.extend(draw.readings(gap, &profile.points));
    }
    (profile, recording)
}

fn one_point(draw: &mut Draw) -> Made {
    let alphabet = draw.one_of(&[&ANY[..], &ANY[..4], &ANY[250..], &ENDS[..]]);
    let delta = draw.one_of(&[0, 1, 2, 100, 254, 255]);
    let gamma = draw.one_of(&[0, 1, 2, delta, delta + 1, 254, 255, 16_320]);
    let n = draw.length(0, 40);
    (profile(draw.points(1, alphabet), delta, gamma), draw.readings(n, alphabet))
}

fn sixty_four_points(draw: &mut Draw) -> Made {
    let alphabet = draw.one_of(&[&ANY[..], &ANY[1..3], &ANY[250..], &ANY[40..44], &[7]]);
    let points = draw.points(64, alphabet);
    let delta = draw.one_of(&[0, 0, 1, 3, 60, 255]);
    let gamma = draw.one_of(&[0, 0, 1, 20, 64, 64 * delta, 16_320]);
    let mut recording = Vec::new();
    while recording.len() < 130 {
        if draw.from(0, 1) == 0 {
            let sum = draw.one_of(&[0, gamma, gamma + 1]).min(2_000);
            recording.extend(window_of_sum(draw, &points, delta, sum));
        } else {
            let gap = draw.length(1, 70);
            recording.extend(draw.readings(gap, alphabet));
        }
    }
    (profile(points, delta, gamma), recording)
}

/// An empty recording, one that is too short by one, one that is as long as the profile.
fn no_room_for_a_window(draw: &mut Draw) -> Made {
    let m = draw.one_of(&[1, 2, 3, 5, 16, 63, 64]);
    let n = draw.one_of(&[0, 0, m - 1, m - 1, m, m, m + 1, m / 2]);
    let delta = draw.number(0, 3);
    let gamma = draw.number(0, 2 * m as u32);
    (profile(draw.readings(m, &ANY[30..34]), delta, gamma), draw.readings(n, &ANY[30..34]))
}

fn constant_recording(draw: &mut Draw) -> Made {
    let reading = draw.one_of(&[0, 1, 77, 128, 254, 255]);
    let m = draw.one_of(&[1, 2, 3, 7, 8, 20]);
    let close: Vec<u8> = (reading.max(2) - 2..=reading.min(253) + 2).collect();
    let points = if draw.from(0, 1) == 0 { vec![reading.max(1); m] } else { draw.points(m, &close) };
    let delta = draw.number(0, 3);
    let gamma = draw.number(0, m as u32 * 2);
    let n = draw.length(0, 60);
    (profile(points, delta, gamma), vec![reading; n])
}

/// So many points with counters of so many bits, at an edge: the last word of counters is full, lacks one or has only one, or no tolerances
/// give these points wider counters. (The last is so that every m is there: 2, 3, 38 and 58 have none of the others.)
#[derive(Clone, Copy)]
struct Edge {
    m: usize,
    width: u32,
}

impl Edge {
    fn in_a_word(self) -> usize {
        reference::counters_in_a_word(self.width as i64) as usize
    }

    /// The least g with counters of this width, and the greatest that m points can have; the first is above the second where they have none.
    fn sums(self) -> (u32, u32) {
        let least = if self.width == 1 { 0 } else { 1 << (self.width - 2) };
        (least, ((1 << (self.width - 1)) - 1).min(255 * self.m as u32))
    }

    fn is_possible(self) -> bool {
        let (least, greatest) = self.sums();
        least <= greatest
    }

    fn is_one(self) -> bool {
        let wider = Edge { width: self.width + 1, ..self };
        self.is_possible() && ((self.m + 1) % self.in_a_word() <= 2 || !wider.is_possible())
    }
}

/// All edges of 1 to 16 words, for counters of 1 to 15 bits; the widest first, so that even a short run has some of many words.
fn edges() -> Vec<Edge> {
    let all = (1..=15).rev().flat_map(|width| (1..=64).rev().map(move |m| Edge { m, width }));
    all.filter(|edge| edge.is_one()).collect()
}

fn at_some_edge(draw: &mut Draw) -> Made {
    let edge = draw.one_of(&edges());
    at_edge(draw, edge)
}

/// Windows that are places, and others that are none by their sum or by one reading, mostly at a border of two words. Now and then the
/// recording has room for one window, or for none.
fn at_edge(draw: &mut Draw, edge: Edge) -> Made {
    let sought = profile_at_edge(draw, edge);
    let mut windows = windows_at_edge(draw, edge, &sought);
    let first = draw.length(0, windows.len() - 1);
    windows.rotate_left(first);
    let mut recording = Vec::new();
    for window in windows {
        recording.extend(window);
        let gap = draw.one_of(&[0, 0, 1, 3, 6]);
        recording.extend(draw.readings(gap, &sought.points));
    }
    if draw.from(0, 9) == 0 {
        recording.truncate(draw.one_of(&[edge.m - 1, edge.m]));
    }
    (sought, recording)
}

/// g is at either end of what the counters hold, or between.
fn profile_at_edge(draw: &mut Draw, edge: Edge) -> Profile {
    let (m, (least, greatest)) = (edge.m as u32, edge.sums());
    let between = draw.number(least, greatest);
    let g = draw.one_of(&[least, greatest, between, least.max(greatest / m * m)]);
    let just = g.div_ceil(m);
    // a little more, so that the sum can pass g at the last words
    let more = just + just / 4 + 1;
    let any = draw.number(just, 255);
    let delta = draw.one_of(&[just, more, any, 255]).min(255);
    // where no sum exceeds g, gamma may be anything from there on
    let gamma = if delta * m == g { draw.one_of(&[g, 16_320]) } else { g };
    // points with readings at the distance d + 1, as far as there are such
    let ends = [&ENDS[1..], &ENDS[1..4], &ENDS[4..], &[1, 255]];
    let inside = [&ANY[100..=110], &ANY[61..=195], &ENDS[1..]];
    let alphabet = if delta.min(gamma) < 60 { draw.one_of(&inside) } else { draw.one_of(&ends) };
    profile(draw.readings(edge.m, alphabet), delta, gamma)
}

/// One of each: a sum within g, g, and g + 1; directly behind a border of two words a reading that is too far, and one by which the sum passes
/// g; and so directly before it.
fn windows_at_edge(draw: &mut Draw, edge: Edge, sought: &Profile) -> Vec<Vec<u8>> {
    let (d, g) = (sought.delta.min(sought.gamma), sought.g() as u32);
    let within = draw.number(0, g);
    let mut windows: Vec<Vec<u8>> = [within, g, g + 1].map(|sum| window_of_sum(draw, &sought.points, d, sum)).into();
    let any = border(draw, edge, 0);
    // before this point no sum can pass g
    let late = border(draw, edge, (g / d.max(1)) as usize);
    for (far, over) in [(any, late), (any - 1, late - 1)] {
        windows.push(window_far_at(draw, &sought.points, d, g, far.min(edge.m - 1)));
        windows.push(window_over_at(draw, &sought.points, d, g, over.min(edge.m - 1)));
    }
    windows
}

/// A point, counted from 0, whose counter is the first of a word that is not the first: number `from` or a later one if there is such.
/// Where one word is enough it is the point that would be the next word's.
fn border(draw: &mut Draw, edge: Edge, from: usize) -> usize {
    let last_word = ((edge.m - 1) / edge.in_a_word()).max(1);
    let least = from.div_ceil(edge.in_a_word()).clamp(1, last_word);
    edge.in_a_word() * draw.length(least, last_word)
}

/// A window that would be a place but for the reading at one point, which is one too far, if there is such, or 0.
fn window_far_at(draw: &mut Draw, points: &[u8], d: u32, g: u32, at: usize) -> Vec<u8> {
    let sum = draw.number(0, g);
    let mut window = window_of_sum(draw, points, d, sum);
    let too_far = ANY.into_iter().find(|y| y.abs_diff(points[at]) as u32 == d + 1);
    window[at] = draw.one_of(&[0, too_far.unwrap_or(0)]);
    window
}

/// A window of near readings whose sum is g + 1, as far as they can go, and g at most without the reading at one point. Behind that point it
/// is the profile.
fn window_over_at(draw: &mut Draw, points: &[u8], d: u32, g: u32, at: usize) -> Vec<u8> {
    let last = draw.number(1, d.clamp(1, g + 1));
    let mut window = window_of_sum(draw, &points[..at], d, g + 1 - last);
    window.extend(window_of_sum(draw, &points[at..=at], d, last));
    window.extend(&points[at + 1..]);
    window
}

fn tolerances_of_any_size(draw: &mut Draw) -> Made {
    let m = draw.length(1, 30);
    let delta = draw.number(0, 255);
    let most = draw.one_of(&[delta, m as u32 * delta, 16_320]);
    let gamma = draw.number(0, most);
    let n = draw.length(0, 80);
    (profile(draw.points(m, &ANY), delta, gamma), draw.readings(n, &ANY))
}

/// As a stocking is: each reading close to the one before it; the profile is a part of it, changed a little.
fn smooth_recording(draw: &mut Draw) -> Made {
    let n = draw.length(20, 100);
    let mut reading = draw.number(1, 255) as i64;
    let mut recording = Vec::new();
    for _ in 0..n {
        reading = (reading + draw.from(0, 6) as i64 - 3).clamp(1, 255);
        recording.push(reading as u8);
    }
    let m = draw.length(1, 20);
    let at = draw.one_of(&[0, n - m, (n - m) / 2]);
    let delta = draw.number(0, 8);
    let sum = draw.number(0, m as u32 * 2);
    let points = window_of_sum(draw, &recording[at..at + m], delta, sum);
    let gamma = (sum + draw.number(0, 2)).max(1) - 1;
    (profile(points, delta, gamma), recording)
}

/// A profile that is close to a shift of itself, so that full and mismatch jumps are of every size; the recording repeats too.
fn repeating_profile(draw: &mut Draw) -> Made {
    let low = draw.one_of(&[0, 0, 90, 250]);
    let alphabet: Vec<u8> = (low..=low + 5).collect();
    let period = draw.length(1, 6);
    let unit = draw.points(period, &alphabet);
    let m = draw.length(1, 24);
    let mut points: Vec<u8> = unit.iter().copied().cycle().take(m).collect();
    for _ in 0..draw.from(0, 2) {
        let i = draw.length(0, m - 1);
        points[i] = draw.points(1, &alphabet)[0];
    }
    let n = draw.length(0, 80);
    let mut recording: Vec<u8> = unit.iter().copied().cycle().take(n).collect();
    for _ in 0..n / 10 {
        let s = draw.length(0, n - 1);
        recording[s] = draw.one_of(&alphabet);
    }
    let delta = draw.number(0, 3);
    let some = draw.number(0, 2 * m as u32);
    let gamma = draw.one_of(&[m as u32 * delta, 16_320, some]);
    (profile(points, delta, gamma), recording)
}

/// delta 0, gamma 0, or both; and the two far apart, so that d and g differ from delta and gamma.
fn no_tolerance(draw: &mut Draw) -> Made {
    let (delta, gamma) = draw.one_of(&[(0, 0), (0, 0), (0, 50), (5, 0), (255, 1), (255, 2), (1, 16_320), (0, 16_320), (255, 0)]);
    let alphabet = draw.one_of(&[&ANY[7..9], &ANY[..3], &ANY[1..3], &ANY[254..], &ANY[100..104]]);
    let m = draw.length(1, 7);
    let n = draw.length(0, 60);
    (profile(draw.points(m, alphabet), delta, gamma), draw.readings(n, alphabet))
}

/// The points are just so far from the last one that it depends on the reading how far to go on behind a tried window: near it, near readings
/// that are near it, or not even that. All of them, or one alone, and the others are far. The readings are the same ones, so that many windows
/// are tried, and their last readings are near the last point by d or not by one. Half the time they are all alike.
fn points_about_the_last(draw: &mut Draw) -> Made {
    let m = draw.one_of(&[1, 2, 2, 3, 3, 5, 9, 64]);
    let delta = draw.number(0, 9);
    let (less, some) = (draw.number(0, delta), draw.number(delta, delta * m as u32));
    let gamma = draw.one_of(&[less, some, delta * m as u32, 16_320]);
    let d = delta.min(gamma) as u8;
    let last = draw.one_of(&[d + 1, 100, 100, 255 - d]);
    let apart = [0, d, d, d + 1, d + 1, 2 * d, 2 * d + 1];
    let about: Vec<u8> = apart.iter().flat_map(|k| [last.saturating_add(*k), last.saturating_sub(*k).max(1)]).collect();
    let far = if last < 128 { last + 2 * d + 1 } else { last - 2 * d - 1 };
    let mut points = if draw.from(0, 1) == 0 { vec![far; m] } else { draw.readings(m, &about) };
    let anywhere = draw.length(0, m - 1);
    points[draw.one_of(&[0, anywhere])] = draw.one_of(&about);
    points[m - 1] = last;
    let mut recording = Vec::new();
    for _ in 0..draw.from(1, 5) {
        let sum = draw.one_of(&[0, 1, gamma, gamma + 1]);
        let mut window = window_of_sum(draw, &points, d as u32, sum);
        window[m - 1] = draw.one_of(&about);
        recording.extend(window);
        let gap = draw.one_of(&[0, 0, 1, 3, m.min(9)]);
        recording.extend(draw.readings(gap, &about));
    }
    if draw.from(0, 1) == 0 {
        recording.fill(draw.one_of(&[last - d, last + d]));
    }
    (profile(points, delta, gamma), recording)
}

/// Windows that stand where the jump behind the one before lands, by its last reading: many are places, share readings with the one before or
/// stand directly behind it, and the last is often the recording's last window. The points rise or fall by steps that tolerances allow, or do
/// not, or repeat.
fn windows_at_landings(draw: &mut Draw) -> Made {
    let m = draw.one_of(&[1, 2, 3, 3, 4, 5, 9]);
    let delta = draw.number(1, 6);
    let d = delta as u8;
    let step = draw.one_of(&[0, 1, d / 2, d, d + 1, 2 * d, 2 * d + 1]);
    let period = draw.one_of(&[m, m, 2, 3]);
    let mut points: Vec<u8> = (0..m).map(|i| 60 + step * (i % period) as u8).collect();
    if draw.from(0, 1) == 0 {
        points.reverse();
    }
    let gamma = draw.one_of(&[delta, 2 * delta, delta * m as u32, 16_320]);
    let sought = profile(points, delta, gamma);
    let mut recording = sought.points.clone();
    for _ in 0..draw.from(1, 8) {
        let last = sought.points[m - 1];
        let a = draw.one_of(&[last - d, last - 1, last, last + 1, last + d]);
        recording.pop();
        recording.push(a);
        let jump = reference::seen_reading(&sought, a).jump;
        recording.extend(&sought.points[m - jump..]);
    }
    let behind = draw.one_of(&[0, 0, 1, 2]);
    recording.extend(draw.readings(behind, &sought.points));
    (sought, recording)
}

/// A searcher may take this many windows at a time, and then the rest one by one.
const BLOCK: usize = 64;

/// As many windows as fill a block or two, one fewer and one more; now and then three blocks, one window or none.
fn windows_about_blocks(draw: &mut Draw) -> usize {
    match draw.from(0, 9) {
        0 => draw.one_of(&[191, 192, 193, 0, 1]),
        _ => draw.one_of(&[63, 64, 65, 127, 128, 129]),
    }
}

/// The first and last windows of blocks, and the very last window.
fn borders(windows: usize) -> Vec<usize> {
    (0..windows).filter(|s| s % BLOCK == 0 || s % BLOCK == BLOCK - 1 || s + 1 == windows).collect()
}

/// All of them, some, or just one.
fn some_borders(draw: &mut Draw, windows: usize) -> Vec<usize> {
    let borders = borders(windows);
    match draw.from(0, 3) {
        0 => borders,
        1 => borders.into_iter().filter(|_| draw.from(0, 1) == 0).collect(),
        _ if borders.is_empty() => borders,
        _ => vec![draw.one_of(&borders)],
    }
}

/// Most readings suit no point, so that most blocks have no place. Windows at borders have the sum gamma or less, and those beside them
/// are places as well, or have the sum gamma + 1, or one reading that is one too far.
fn block_borders(draw: &mut Draw) -> Made {
    let windows = windows_about_blocks(draw);
    let m = draw.one_of(&[1, 2, 3, 8, 20, 64]);
    let delta = draw.number(1, 6);
    let gamma = draw.number(1, delta * m as u32);
    // points that are close to each other are near the readings of the window beside theirs
    let spread = draw.one_of(&[0, 0, 1, 9]);
    let alphabet: Vec<u8> = (100..=100 + spread).collect();
    let profile = profile(draw.readings(m, &alphabet), delta, gamma);
    let mut recording = draw.readings(windows + m - 1, &[&ANY[..80], &ANY[130..]].concat());
    for s in some_borders(draw, windows) {
        let sum = draw.one_of(&[gamma, gamma, gamma - 1, 0]);
        let window = window_of_sum(draw, &profile.points, delta, sum);
        recording[s..s + m].copy_from_slice(&window);
        if s > 0 && draw.from(0, 1) == 0 {
            recording[s - 1] = reading_beside(draw, &profile, true, &recording[s..s + m - 1]);
        }
        if s + 1 < windows && draw.from(0, 1) == 0 {
            recording[s + m] = reading_beside(draw, &profile, false, &recording[s + 1..s + m]);
        }
    }
    (profile, recording)
}

/// The first or the last reading of a window of which the rest stands. It makes the sum gamma or gamma + 1, as far as one reading can, or
/// it is one too far.
fn reading_beside(draw: &mut Draw, profile: &Profile, first: bool, rest: &[u8]) -> u8 {
    let points = &profile.points;
    let (point, others) = if first { points.split_first() } else { points.split_last() }.unwrap();
    let sum: u32 = others.iter().zip(rest).map(|(x, y)| x.abs_diff(*y) as u32).sum();
    let left = profile.gamma.saturating_sub(sum);
    let too_far = profile.delta + 1;
    let difference = draw.one_of(&[left, left + 1, too_far]).min(too_far) as u8;
    draw.one_of(&[point - difference, point + difference])
}

/// Every difference is at most delta, and the sums decide: small ones, about 256, or the greatest there are. Only the first and the last
/// reading of windows at borders are closer, so that the sum there is gamma or gamma + 1. Now and then every sum is within gamma, or
/// gamma + 1 but where there is a closer reading.
fn block_borders_all_near(draw: &mut Draw) -> Made {
    let windows = windows_about_blocks(draw);
    let m = draw.one_of(&[1, 2, 3, 8, 20, 64, 64, 64, 64]);
    // two readings that are not 0 differ by 254 at most
    let far = draw.one_of(&[2, 3, 256 / m as u32, 254, 254, 254, 254]).min(254);
    let closer = draw.number(1, (far / 2).min(3));
    // a window of one point has one reading that is closer, any other two
    let less = closer * m.min(2) as u32;
    let gamma = m as u32 * far - draw.one_of(&[0, 1, less, less, less + 1]);
    let delta = draw.one_of(&[far, 255]);
    let upward = draw.from(0, 1) == 0;
    let reading = |difference: u32| if upward { 1 + difference as u8 } else { 255 - difference as u8 };
    let mut recording = vec![reading(far); windows + m - 1];
    for s in some_borders(draw, windows) {
        recording[s] = reading(far - closer);
        recording[s + m - 1] = reading(far - closer);
    }
    (profile(vec![reading(0); m], delta, gamma), recording)
}

/// Skip makes tables of a recording that has so many readings, or more: it passes the probes that have no window which the probe and the readings
/// directly before and behind it suit, and sieves the windows of the others. Without tables it asks point by point.
fn least_for_tables(m: usize) -> usize {
    512 + 8 * m
}

/// As many readings as skip makes tables of, one fewer and one more; or so many that the last probe has one window inside, all of them, all but
/// one, or any number.
fn readings_for_tables(draw: &mut Draw, m: usize) -> usize {
    let least = least_for_tables(m);
    let one = least.next_multiple_of(m);
    let more = least + draw.length(0, 4 * m + 70);
    draw.one_of(&[least - 1, least, least + 1, one, one + m - 1, one + m - 1, one + m - 2, more, more, more])
}

/// Few readings are near a point of it, but where its points are anywhere: then most are near some.
fn profile_for_tables(draw: &mut Draw) -> Profile {
    let any = draw.length(1, 64);
    let m = draw.one_of(&[1, 2, 3, 4, 8, 10, 20, 63, 64, 64, 64, any]);
    let small = draw.number(1, 6);
    let delta = draw.one_of(&[0, 1, small, small, small, 255]);
    let some = draw.number(1, small * m as u32);
    let gamma = match delta {
        0 => draw.one_of(&[0, some, 16_320]),
        // d is gamma
        255 => small,
        _ => draw.one_of(&[delta - 1, some, some, some, delta * m as u32, 16_320]),
    };
    let alphabets = [&ANY[100..=100], &ANY[100..=101], &ANY[100..=109], &ANY[1..=3], &ANY[253..], &ANY[1..], &ANY[1..]];
    let alphabet = draw.one_of(&alphabets);
    profile(draw.readings(m, alphabet), delta, gamma)
}

/// The readings that are near no point, 0 among them; and those of them that are one too far from some point, and 0.
fn readings_near_none(sought: &Profile) -> (Vec<u8>, Vec<u8>) {
    let d = sought.delta.min(sought.gamma);
    let far = |y: &u8| sought.points.iter().all(|x| x.abs_diff(*y) as u32 > d);
    let too_far = |y: &u8| sought.points.iter().any(|x| x.abs_diff(*y) as u32 == d + 1);
    let none: Vec<u8> = ANY.into_iter().filter(|y| *y == 0 || far(y)).collect();
    let just = none.iter().copied().filter(|y| *y == 0 || too_far(y)).collect();
    (none, just)
}

/// Where windows are planted that share no reading. A window at s has the probe of all windows from s / m * m on, m of them: the first of them ends
/// there, the last begins there. Often there is the very first window, the very last, one of the last probe whose windows all lie inside, or one of
/// the probe behind it.
fn windows_at_probes(draw: &mut Draw, m: usize, n: usize) -> Vec<usize> {
    let windows = n - m + 1;
    let whole = windows / m;
    let any = |draw: &mut Draw, probe: usize| {
        let inside = draw.length(0, m - 1);
        probe * m + draw.one_of(&[0, 0, m - 1, m - 1, 1, m.max(2) - 2, inside, inside])
    };
    let mut wished = vec![0, windows - 1, any(draw, whole - 1), whole * m, any(draw, whole)];
    wished.retain(|_| draw.from(0, 1) == 0);
    for _ in 0..draw.one_of(&[1, 4, 8, 16]) {
        let probe = draw.length(0, whole - 1);
        wished.push(any(draw, probe));
    }
    let mut taken: Vec<usize> = Vec::new();
    for s in wished {
        if s < windows && taken.iter().all(|other| s.abs_diff(*other) >= m) {
            taken.push(s);
        }
    }
    taken
}

/// A window that has this point at its probe: a place, or not by its sum; or it would be one but for one reading, directly before the probe or
/// behind it, two away from it, there, or at its first or last point.
fn window_at_probe(draw: &mut Draw, sought: &Profile, at: usize) -> Vec<u8> {
    let (m, d, g) = (sought.points.len(), sought.delta.min(sought.gamma), sought.g() as u32);
    if draw.from(0, 1) == 0 {
        let sum = draw.one_of(&[0, g, g, g + 1, g + 1]);
        return window_of_sum(draw, &sought.points, d, sum);
    }
    let away = [at.wrapping_sub(2), at.wrapping_sub(1), at, at + 1, at + 2, 0, m - 1];
    let away: Vec<usize> = away.into_iter().filter(|i| *i < m).collect();
    let far = draw.one_of(&away);
    // one too far adds d + 1, so that the sum stays within g where g goes beyond d; a 0 may add more
    window_far_at(draw, &sought.points, d, g.saturating_sub(d + 1), far)
}

/// Long enough for skip's tables, or one reading short of it. The readings are near no point, or just not, or are any, or points; at every probe or at some stands a near one,
/// so that probes are passed with windows that count. Windows are planted about probes, but that now and then there is none.
fn probes_by_tables(draw: &mut Draw) -> Made {
    let draw = &mut draw.apart();
    let sought = profile_for_tables(draw);
    let (m, d) = (sought.points.len(), sought.delta.min(sought.gamma));
    let n = readings_for_tables(draw, m);
    let (none, just) = readings_near_none(&sought);
    let alphabet = draw.one_of(&[&none[..], &none[..], &just[..], &ANY[..], &sought.points[..]]);
    let mut recording = draw.readings(n, alphabet);
    let some = draw.one_of(&[1, 2, 5, n]);
    let windows = if draw.from(0, 4) == 0 { Vec::new() } else { windows_at_probes(draw, m, n) };
    let every = if windows.is_empty() { 1 } else { some };
    for probe in (m - 1..n).step_by(m * every) {
        let point = draw.one_of(&sought.points);
        let difference = draw.number(0, d);
        recording[probe] = window_of_sum(draw, &[point], d, difference)[0];
    }
    for s in windows {
        let window = window_at_probe(draw, &sought, m - 1 - s % m);
        recording[s..s + m].copy_from_slice(&window);
    }
    (sought, recording)
}

/// Long enough for skip's tables, or one reading short of it, with stretches in which the profile repeats, so that probes have several places, or all their windows are places
/// or have sums about gamma. Now and then there is one stretch alone, or the tolerances are the greatest.
fn probes_of_many_places(draw: &mut Draw) -> Made {
    let draw = &mut draw.apart();
    let any = draw.length(1, 64);
    let m = draw.one_of(&[1, 2, 3, 8, 10, 20, 63, 64, 64, 64, 64, any]);
    let n = readings_for_tables(draw, m);
    if draw.from(0, 3) == 0 {
        let (points, readings) = draw.one_of(&[(&ANY[1..], &ANY[1..]), (&ENDS[1..], &ENDS[1..]), (&ANY[1..2], &ANY[250..])]);
        return (profile(draw.readings(m, points), 255, 16_320), draw.readings(n, readings));
    }
    let period = draw.one_of(&[1, 1, 2, 3, m]);
    let alphabet = draw.one_of(&[&ANY[100..=109], &ANY[1..=4], &ANY[252..]]);
    let unit = draw.readings(period, alphabet);
    let points: Vec<u8> = unit.iter().copied().cycle().take(m).collect();
    let delta = draw.number(0, 4);
    let all = delta * m as u32;
    let gamma = draw.one_of(&[all, all, all / 2, all / 3, all / 4 + 1, 16_320]);
    let sought = profile(points, delta, gamma);
    let recording = stretches(draw, &sought, &unit, n);
    (sought, recording)
}

/// So many readings about the unit, which repeats, in stretches; between them stand readings that are near no point.
fn stretches(draw: &mut Draw, sought: &Profile, unit: &[u8], n: usize) -> Vec<u8> {
    let (m, d) = (sought.points.len(), sought.delta.min(sought.gamma));
    let (none, _) = readings_near_none(sought);
    let alone = draw.from(0, 4) == 0;
    let mut recording = Vec::new();
    while recording.len() < n {
        let length = if alone { n } else { draw.length(1, 4 * m) };
        let shift = draw.length(0, unit.len() - 1);
        let most = draw.number(0, d);
        for x in unit.iter().cycle().skip(shift).take(length) {
            let difference = draw.number(0, most);
            recording.extend(window_of_sum(draw, &[*x], d, difference));
        }
        let gap = draw.one_of(&[1, 1, 2, m, 3 * m]);
        recording.extend(draw.readings(gap, &none));
    }
    recording.truncate(n);
    recording
}

/// A window about the points that holds a 0 at its first, an inner or its last reading. The 0 adds its difference to the sum, so that the
/// window has the sum asked for as far as differences go.
fn window_with_zero(draw: &mut Draw, points: &[u8], delta: u32, sum: u32) -> Vec<u8> {
    let at = draw.one_of(&[0, points.len() / 2, points.len() - 1]);
    let mut others = points.to_vec();
    let point = others.remove(at);
    let mut window = window_of_sum(draw, &others, delta, sum.saturating_sub(point as u32));
    window.insert(at, 0);
    window
}

/// Most points are so small that 0 differs from them by at most delta. Windows have sums about gamma, with a 0 or without one, and between
/// them stand small readings or zeros.
fn zeros_within_tolerance(draw: &mut Draw) -> Made {
    let m = draw.one_of(&[1, 2, 3, 5, 9, 20]);
    let delta = draw.number(1, 9);
    let some = draw.number(1, delta * m as u32);
    let gamma = draw.one_of(&[some, delta * m as u32]);
    let highest = draw.one_of(&[1, delta, delta + 1, 2 * delta]);
    let small = &ANY[..=highest as usize];
    let points = draw.points(m, small);
    let mut recording = Vec::new();
    for _ in 0..draw.from(1, 5) {
        let sum = gamma - 1 + draw.number(0, 2);
        let window = draw.one_of(&[window_of_sum, window_with_zero, window_with_zero]);
        recording.extend(window(draw, &points, delta, sum));
        let gap = draw.one_of(&[0, 0, 1, 2, m]);
        let between = draw.one_of(&[small, &[0]]);
        recording.extend(draw.readings(gap, between));
    }
    (profile(points, delta, gamma), recording)
}

/// Zeros at either end, anywhere, at the readings of some of these windows or directly after them, one alone or a run; now and then there
/// is no other reading.
fn lose_contact(draw: &mut Draw, m: usize, windows: &[usize], recording: &mut [u8]) {
    let n = recording.len();
    if n == 0 || draw.from(0, 15) == 0 {
        return recording.fill(0);
    }
    for _ in 0..draw.from(1, 3) {
        let anywhere = draw.length(0, n - 1);
        let s = if windows.is_empty() { anywhere } else { draw.one_of(windows) };
        let at = draw.one_of(&[0, n - 1, anywhere, s, s, s + m / 2, s + m - 1, s + m - 1, s + m]).min(n - 1);
        let run = draw.one_of(&[1, 1, 1, 2, m]).min(n - at);
        recording[at..at + run].fill(0);
    }
}

/// Every difference is at most delta and every sum at most gamma, with tolerances that just allow it or the greatest: only a 0 keeps a
/// window from being a place. Zeros stand about the borders of blocks.
fn zeros_alone_decide(draw: &mut Draw) -> Made {
    let windows = windows_about_blocks(draw);
    let m = draw.one_of(&[1, 2, 3, 8, 20, 64]);
    let highest = draw.one_of(&[1, 2, 6, 255, 255]);
    let points = draw.points(m, &ANY[..=highest]);
    let mut recording = draw.readings(windows + m - 1, &ANY[1..=highest]);
    lose_contact(draw, m, &borders(windows), &mut recording);
    let delta = draw.one_of(&[highest as u32, 255]);
    let gamma = draw.one_of(&[(m * highest) as u32, 16_320]);
    (profile(points, delta, gamma), recording)
}

/// A case of an ordinary kind, or at an edge of packed's words, where contact was lost at some readings of its places, directly after them, or
/// elsewhere.
fn contact_lost(draw: &mut Draw) -> Made {
    let ordinary: Kind = draw.one_of(&ORDINARY);
    let kind = draw.one_of(&[ordinary, ordinary, ordinary, at_some_edge]);
    let (profile, mut recording) = kind(draw);
    let places: Vec<usize> = reference::places(&profile, &recording).into_iter().map(|s| s as usize).collect();
    lose_contact(draw, profile.points.len(), &places, &mut recording);
    (profile, recording)
}

const TOO_MANY: [usize; 6] = [65, 65, 65, 66, 128, 300];
const BAD_DELTA: [u32; 6] = [256, 256, 256, 257, 70_000, u32::MAX];
const BAD_GAMMA: [u32; 6] = [16_321, 16_321, 16_321, 16_322, 1 << 31, u32::MAX];

/// These points with tolerances that are refused by 2, for the one or the other or both, and just as often with accepted ones.
fn with_bad_or_good_tolerances(draw: &mut Draw, points: Vec<u8>) -> Made {
    let (delta, gamma) = match draw.from(0, 5) {
        0 => (draw.one_of(&BAD_DELTA), draw.number(0, 16_320)),
        1 => (draw.number(0, 255), draw.one_of(&BAD_GAMMA)),
        2 => (draw.one_of(&BAD_DELTA), draw.one_of(&BAD_GAMMA)),
        3 => (255, 16_320),
        _ => (draw.number(0, 255), draw.number(0, 16_320)),
    };
    let n = draw.length(0, 80);
    (profile(points, delta, gamma), draw.readings(n, &ANY))
}

/// Refusals 1, 7 and 2, alone and together, and the values next to them that are accepted.
fn refused(draw: &mut Draw) -> Made {
    let too_many = draw.one_of(&TOO_MANY);
    let m = draw.one_of(&[0, too_many, too_many, 1, 3, 64]);
    let points = draw.points(m, &ANY);
    with_bad_or_good_tolerances(draw, points)
}

/// Refusal 8, alone and together with 7 and 2.
fn zero_in_the_profile(draw: &mut Draw) -> Made {
    let too_many = draw.one_of(&TOO_MANY);
    let m = draw.one_of(&[too_many, too_many, 1, 2, 3, 64, 64]);
    let mut points = draw.points(m, &ANY);
    put_zeros(draw, &mut points);
    with_bad_or_good_tolerances(draw, points)
}

/// Zeros in a profile: one, at either end, inside or anywhere, or all of its points.
fn put_zeros(draw: &mut Draw, points: &mut [u8]) {
    let m = points.len();
    let anywhere = draw.length(0, m - 1);
    let at = draw.one_of(&[0, m / 2, m - 1, anywhere]);
    let (first, count) = draw.one_of(&[(at, 1), (at, 1), (at, 1), (0, m)]);
    points[first..first + count].fill(0);
}

/// A recording that is too long by one, alone and with each other refusal and two of them, and one that is not. Small readings, so that
/// 0 is among them, and within delta of some points.
fn long_recording(draw: &mut Draw, turn: usize) -> Made {
    // and whether the profile holds a 0
    let turns = [
        (3, 1, 2, 1_000_001, false),
        (9, 3, 10, 1_000_000, false),
        (64, 255, 16_320, 1_000_001, false),
        (0, 1, 2, 1_000_001, false),
        (65, 1, 2, 1_000_001, false),
        (64, 256, 16_321, 1_000_001, false),
        (0, 256, 16_321, 1_000_001, false),
        (65, 256, 16_321, 1_000_001, false),
        (3, 1, 2, 1_000_001, true),
        (64, 256, 16_321, 1_000_001, true),
    ];
    let (m, delta, gamma, n, zero) = turns[turn % turns.len()];
    let small = &ANY[..11];
    let mut points = draw.points(m, small);
    if zero {
        put_zeros(draw, &mut points);
    }
    (profile(points, delta, gamma), draw.readings(n, small))
}

#[cfg(test)]
mod coverage {
    use super::*;
    use crate::frames;
    use crate::reference::{
        after_check, check, counter_width, counters_in_a_word, first, last_reading, places, seen_reading, sum, walk, words,
    };
    use crate::reference::{refusal_of_profile, refusal_of_search, First, Searcher, Verdict};
    use std::cmp::Ordering;

    /// The sum of differences at a window, if they are all at most delta; by difference alone, whether it holds a 0 or not.
    fn sum_within_delta(profile: &Profile, window: &[u8]) -> Option<u32> {
        let differences = window.iter().zip(&profile.points).map(|(y, x)| y.abs_diff(*x) as u32);
        differences.clone().all(|difference| difference <= profile.delta).then(|| differences.sum())
    }

    fn count_of_windows(case: &Case) -> usize {
        (case.recording.len() + 1).saturating_sub(case.profile.points.len())
    }

    /// The windows of an accepted case, each with its readings.
    fn windows(case: &Case) -> impl Iterator<Item = (i64, &[u8])> {
        (0..).zip(case.recording.windows(case.profile.points.len()))
    }

    /// The case's sums of differences at windows without a 0 whose differences are all at most delta, each with its window.
    fn near_sums(case: &Case) -> Vec<(i64, u32)> {
        let pressures = windows(case).filter(|(_, window)| !window.contains(&0));
        pressures.filter_map(|(s, window)| Some((s, sum_within_delta(&case.profile, window)?))).collect()
    }

    /// Whether a window stands in a whole block; what is less than 64 windows is no block.
    fn in_whole_block(case: &Case, s: i64) -> bool {
        s as usize / BLOCK < count_of_windows(case) / BLOCK
    }

    fn first_of_block(case: &Case, s: i64) -> bool {
        in_whole_block(case, s) && s % BLOCK as i64 == 0
    }

    fn last_of_block(case: &Case, s: i64) -> bool {
        in_whole_block(case, s) && s % BLOCK as i64 == BLOCK as i64 - 1
    }

    /// Where places, sums and the end of the list stand among blocks of windows.
    fn block_situations(case: &Case, found: &[i64], near: &[(i64, u32)]) -> Vec<(&'static str, bool)> {
        let block = BLOCK as i64;
        let windows = count_of_windows(case) as i64;
        let whole = |s: i64| in_whole_block(case, s);
        let first = |s: i64| first_of_block(case, s);
        let last = |s: i64| last_of_block(case, s);
        // the last place that the list has, and the one after it
        let ends = case.room.checked_sub(1).and_then(|k| found.get(k..k + 2));
        let gamma = case.profile.gamma;
        let all_near = near.len() as i64 == windows;
        vec![
            ("block: 63 windows", windows == 63),
            ("block: 64 windows", windows == 64),
            ("block: 65 windows", windows == 65),
            ("block: 127 windows", windows == 127),
            ("block: 128 windows", windows == 128),
            ("block: 129 windows", windows == 129),
            ("block: place at its first window", found.iter().any(|&s| first(s))),
            ("block: place at its last window", found.iter().any(|&s| last(s))),
            ("block: the only place, at its first window", found.len() == 1 && first(found[0])),
            ("block: the only place, at its last window", found.len() == 1 && last(found[0])),
            ("block: sum gamma + 1 at its first window", near.iter().any(|&(s, sum)| first(s) && sum == gamma + 1)),
            ("block: sum gamma + 1 at its last window", near.iter().any(|&(s, sum)| last(s) && sum == gamma + 1)),
            ("block: list ends inside", ends.is_some_and(|s| s[0] / block == s[1] / block && whole(s[0]))),
            ("block: all windows are places", windows >= block && found.len() as i64 == windows),
            ("block: all windows near, few places", windows >= block && all_near && (1..9).contains(&found.len())),
            ("block: sums about gamma above 16,000", near.iter().any(|&(s, sum)| whole(s) && sum > gamma && gamma > 16_000)),
            ("block: place behind the last one", windows > block && found.iter().any(|&s| !whole(s))),
        ]
    }

    /// A window that a 0 alone keeps from being a place, as differences go.
    struct Spoilt {
        s: i64,
        sum: u32,
        /// the readings that are 0, from 0 to m - 1
        zeros: Vec<usize>,
    }

    fn spoilt(case: &Case) -> Vec<Spoilt> {
        let with_zeros = windows(case).filter(|(_, window)| window.contains(&0));
        with_zeros
            .filter_map(|(s, window)| {
                let sum = sum_within_delta(&case.profile, window).filter(|&sum| sum <= case.profile.gamma)?;
                Some(Spoilt { s, sum, zeros: zeros_of(window) })
            })
            .collect()
    }

    fn zeros_of(readings: &[u8]) -> Vec<usize> {
        (0..readings.len()).filter(|&i| readings[i] == 0).collect()
    }

    /// Whether the only zero stands inside, at neither end.
    fn one_inside(zeros: &[usize], count: usize) -> bool {
        matches!(zeros, [i] if (1..count - 1).contains(i))
    }

    /// Which 0 keeps a window from being a place, and by how little it would be one.
    fn spoilt_situations(case: &Case, found: &[i64]) -> Vec<(&'static str, bool)> {
        let (points, delta, gamma) = (&case.profile.points, case.profile.delta, case.profile.gamma);
        let m = points.len();
        let spoilt = spoilt(case);
        let any = |test: &dyn Fn(&Spoilt) -> bool| spoilt.iter().any(test);
        vec![
            ("zero: spoils a window, the only reading", any(&|_| m == 1)),
            ("zero: spoils a window, the first reading", any(&|w| m > 1 && w.zeros == [0])),
            ("zero: spoils a window, an inner reading", any(&|w| one_inside(&w.zeros, m))),
            ("zero: spoils a window, the last reading", any(&|w| m > 1 && w.zeros == [m - 1])),
            ("zero: spoils a window, all readings", any(&|w| m > 1 && w.zeros.len() == m)),
            ("zero: spoils a window of sum gamma", any(&|w| w.sum == gamma)),
            ("zero: spoils a window, delta from its point", any(&|w| w.zeros.iter().any(|&i| points[i] as u32 == delta))),
            ("zero: spoils a window, 64 points", any(&|_| m == 64)),
            ("zero: spoils a window, greatest tolerances", any(&|_| delta == 255 && gamma == 16_320)),
            ("zero: spoils a window, one word of counters", any(&|_| words(&case.profile) == 1)),
            ("zero: spoils a window, several words of counters", any(&|_| words(&case.profile) > 1)),
            ("zero: spoils a window before the first place", any(&|w| found.first() > Some(&w.s))),
            ("zero: spoils a window, and there is no place", any(&|_| found.is_empty())),
            ("zero: spoils the first window of a block", any(&|w| first_of_block(case, w.s))),
            (
                "zero: spoils the first window of a block, not the next",
                any(&|w| first_of_block(case, w.s) && found.contains(&(w.s + 1))),
            ),
            ("zero: spoils the last window of a block", any(&|w| last_of_block(case, w.s))),
            (
                "zero: spoils the last window of a block, not the one before",
                any(&|w| last_of_block(case, w.s) && found.contains(&(w.s - 1))),
            ),
            ("zero: spoils a window behind the last block", any(&|w| w.s >= BLOCK as i64 && !in_whole_block(case, w.s))),
        ]
    }

    /// Where zeros stand in the recording.
    fn zero_situations(case: &Case, found: &[i64]) -> Vec<(&'static str, bool)> {
        let (recording, m) = (&case.recording, case.profile.points.len());
        let is_zero = |at: Option<usize>| at.and_then(|at| recording.get(at)) == Some(&0);
        let run = |length: usize| recording.windows(length).position(|readings| readings.iter().all(|&y| y == 0));
        let between = |at: usize| found[0] < at as i64 && found.last() > Some(&(at as i64));
        vec![
            ("zero: the recording begins with it", is_zero(Some(0)) && !found.is_empty()),
            ("zero: the recording ends with it", is_zero(recording.len().checked_sub(1)) && !found.is_empty()),
            ("zero: directly before a place", found.iter().any(|&s| is_zero((s as usize).checked_sub(1)))),
            ("zero: directly after a place", found.iter().any(|&s| is_zero(Some(s as usize + m)))),
            ("zero: two in a row", run(2).is_some() && !found.is_empty()),
            ("zero: m or more in a row between places", m > 1 && !found.is_empty() && run(m).is_some_and(between)),
            ("zero: no other reading", m <= recording.len() && recording.iter().all(|&y| y == 0)),
        ]
    }

    /// The windows that last looks at, whether it tries them or not, if this is its jump after a tried window, by the last reading.
    fn looked_at(case: &Case, after: &dyn Fn(u8) -> usize) -> Vec<usize> {
        let (m, n) = (case.profile.points.len(), case.recording.len());
        let mut looked_at = Vec::new();
        let mut s = 0;
        while s + m <= n {
            looked_at.push(s);
            let a = case.recording[s + m - 1];
            s += match last_reading(&case.profile, a).jump {
                0 => after(a),
                jump => jump,
            };
        }
        looked_at
    }

    fn looked_at_by_last(case: &Case) -> Vec<usize> {
        looked_at(case, &|a| seen_reading(&case.profile, a).jump)
    }

    /// Where a walk meets a 0 and would go on otherwise if 0 were near the points from which it differs by at most d.
    fn walk_situations(case: &Case) -> Vec<(&'static str, bool)> {
        let (points, recording) = (&case.profile.points, &case.recording);
        let (m, n) = (points.len(), recording.len());
        let d = case.profile.delta.min(case.profile.gamma);
        let within = |i: usize| points[i] as u32 <= d;
        let some_within = (0..m).any(within);
        let ends_with_zero = looked_at_by_last(case).iter().any(|s| recording[s + m - 1] == 0);
        let tried = walk(Searcher::Maximal, &case.profile, recording);
        let followed = || tried.iter().map(|&s| s as usize).filter(|s| s + m < n);
        let at_zero_alone =
            |s: usize| (0..m).all(|i| points[i].abs_diff(recording[s + i]) as u32 <= d) && recording[s..s + m].contains(&0);
        let probed = |i: usize, probe: usize| recording[probe] == 0 && within(i) && i <= probe && probe - i + m <= n;
        vec![
            ("zero: last looks at it, within d of the last point", ends_with_zero && within(m - 1)),
            ("zero: last looks at it, within d of an earlier point", ends_with_zero && some_within && !within(m - 1)),
            ("zero: skip probes it, within d of a point", (m - 1..n).step_by(m).any(|probe| (0..m).any(|i| probed(i, probe)))),
            ("zero: maximal reads it next, within d of a point", some_within && followed().any(|s| recording[s + m] == 0)),
            ("zero: maximal mismatches at it alone, within d", followed().any(at_zero_alone)),
            ("zero: maximal mismatches at it alone, all else is near", d == 255 && followed().any(at_zero_alone)),
            // 0 differs from the point before by at most d and from this one by more, which no other reading does
            ("zero: c from 0 would make a lone jump shorter", (1..m).any(|i| points[i] as u32 == d + 1 && within(i - 1))),
        ]
    }

    /// Which readings the jump after a tried window is asked for, by an accepted profile; all 256 are asked, tried or not.
    fn seen_situations(case: &Case) -> Vec<(&'static str, bool)> {
        let points = &case.profile.points;
        let (m, delta) = (points.len(), case.profile.delta);
        let d = delta.min(case.profile.gamma);
        let (old, last) = (after_check(&case.profile).jump, points[m - 1]);
        let jumps: Vec<usize> = (0..=255).map(|a| seen_reading(&case.profile, a).jump).collect();
        let jump = |a: u8| jumps[a as usize];
        let apart = |x: u8, a: u8| x.abs_diff(a) as u32;
        let near = |x: u8, a: u8| a != 0 && apart(x, a) <= d;
        let before = &points[..m - 1];
        let near_before = |a: u8| before.iter().filter(|x| near(**x, a)).count();
        let tried = |test: &dyn Fn(u8) -> bool| m > 1 && (1..=255).any(|a| near(last, a) && test(a));
        let other = |test: &dyn Fn(u8) -> bool| m > 1 && (1..=255).any(|a| !near(last, a) && test(a));
        let by_delta = |a: u8| (1..m).find(|k| apart(points[m - 1 - k], a) <= delta).unwrap_or(m);
        vec![
            ("seen: 1 point", m == 1),
            ("seen: 2 points, and a jump of each length", m == 2 && tried(&|a| jump(a) == 1) && tried(&|a| jump(a) == 2)),
            ("seen: 64 points, longer than the after-check jump", m == 64 && tried(&|a| jump(a) > old)),
            ("seen: all points alike", m > 1 && points.iter().all(|x| *x == last)),
            ("seen: near the last point alone, the after-check jump is shorter", tried(&|a| near_before(a) == 0 && old < m)),
            ("seen: near the last point alone, the after-check jump is 1", m > 2 && tried(&|a| near_before(a) == 0 && old == 1)),
            ("seen: longer than the after-check jump, and not m", tried(&|a| old < jump(a) && jump(a) < m)),
            ("seen: just the after-check jump, above 1 and not m", tried(&|a| old == jump(a) && 1 < old && old < m)),
            ("seen: d from the last point, near an earlier one", d > 0 && tried(&|a| apart(last, a) == d && jump(a) < m)),
            ("seen: d from the last point, near no other", d > 0 && tried(&|a| apart(last, a) == d && jump(a) == m)),
            ("seen: d + 1 from the last point, near an earlier one", other(&|a| apart(last, a) == d + 1 && jump(a) < m)),
            ("seen: d + 1 from the last point, near no other", other(&|a| apart(last, a) == d + 1 && jump(a) == m)),
            ("seen: not near the last point, shorter than the after-check jump", other(&|a| jump(a) < old)),
            ("seen: d from the point before", d > 0 && tried(&|a| apart(points[m - 2], a) == d)),
            ("seen: d + 1 from the point before", tried(&|a| apart(points[m - 2], a) == d + 1)),
            ("seen: near the first and the last point alone", m > 2 && tried(&|a| near_before(a) == 1 && near(points[0], a))),
            ("seen: near the first point alone", m > 2 && other(&|a| near_before(a) == 1 && near(points[0], a))),
            ("seen: near several earlier points, not the one before", tried(&|a| near_before(a) > 1 && jump(a) > 1)),
            ("seen: delta above gamma would make it shorter", tried(&|a| by_delta(a) < jump(a))),
            ("seen: 0 within d of an earlier point", before.iter().any(|x| apart(*x, 0) <= d)),
        ]
    }

    /// Where last goes on from the windows that it tries, in an accepted case, and where the after-check jump would go.
    fn landing_situations(case: &Case, found: &[i64]) -> Vec<(&'static str, bool)> {
        let (m, n) = (case.profile.points.len(), case.recording.len());
        let old = after_check(&case.profile).jump;
        let tries = |s: usize| s + m <= n && last_reading(&case.profile, case.recording[s + m - 1]).jump == 0;
        let is_place = |s: usize| found.contains(&(s as i64));
        let tried: Vec<usize> = walk(Searcher::Last, &case.profile, &case.recording).iter().map(|s| *s as usize).collect();
        let by_old: Vec<usize> = looked_at(case, &|_| old).into_iter().filter(|s| tries(*s)).collect();
        let up_to = |walk: &[usize]| walk.iter().take_while(|s| !is_place(**s)).count();
        let jump = |s: usize| seen_reading(&case.profile, case.recording[s + m - 1]).jump;
        let any = |test: &dyn Fn(usize) -> bool| tried.iter().any(|s| test(*s));
        let longer = |test: &dyn Fn(usize) -> bool| tried.iter().any(|s| jump(*s) > old && test(*s));
        let constant = n > 0 && case.recording.iter().all(|y| *y == case.recording[0]);
        vec![
            ("landing: behind a place, longer than the after-check jump", longer(&|s| is_place(s))),
            ("landing: behind what is no place, longer than the after-check jump", longer(&|s| !is_place(s))),
            ("landing: passes a window that the after-check jump has tried", longer(&|s| tries(s + old))),
            ("landing: fewer windows tried than by the after-check jump", tried.len() < by_old.len()),
            ("landing: fewer tried up to the first place", !found.is_empty() && up_to(&tried) < up_to(&by_old)),
            ("landing: fewer tried, and no place", found.is_empty() && tried.len() < by_old.len()),
            ("landing: at a place, longer than the after-check jump", longer(&|s| is_place(s + jump(s)))),
            ("landing: from place to place, which share readings", any(&|s| is_place(s) && jump(s) < m && is_place(s + jump(s)))),
            (
                "landing: from place to place, which share readings, longer than the after-check jump",
                longer(&|s| is_place(s) && jump(s) < m && is_place(s + jump(s))),
            ),
            ("landing: from place to place directly behind, longer", longer(&|s| is_place(s) && jump(s) == m && is_place(s + m))),
            ("landing: at the last window, a place", longer(&|s| s + jump(s) + m == n && is_place(s + jump(s)))),
            ("landing: behind the last window, the after-check jump not", longer(&|s| s + jump(s) + m > n && s + old + m <= n)),
            ("landing: constant, and a jump of 1", constant && m > 1 && any(&|s| jump(s) == 1)),
            ("landing: constant, longer than the after-check jump", constant && longer(&|_| true)),
            ("landing: constant, every window a place", constant && m > 1 && found.len() > 1 && any(&|_| true)),
        ]
    }

    /// A probe of skip's, in a case that has readings enough for tables: the probe, and points counted from 0 whose windows put them there and lie
    /// inside the recording.
    struct Probe {
        q: usize,
        /// all m windows that hold it lie inside
        whole: bool,
        /// the points that are near the probe, so that their windows are tried
        near: Vec<usize>,
        /// those of them whose windows have near points directly before and behind the probe, as far as they have such
        worth: Vec<usize>,
        /// those whose windows have near points alone
        suited: Vec<usize>,
    }

    fn is_near(profile: &Profile, i: usize, reading: u8) -> bool {
        reading != 0 && profile.points[i].abs_diff(reading) as u32 <= profile.delta.min(profile.gamma)
    }

    fn has_tables(case: &Case) -> bool {
        case.recording.len() >= least_for_tables(case.profile.points.len())
    }

    /// "skip probes y[m-1], y[2m-1], and so on below n"; none where there are no tables.
    fn probes(case: &Case) -> Vec<Probe> {
        let (m, n) = (case.profile.points.len(), case.recording.len());
        let near = |q: usize, i: usize, k: usize| is_near(&case.profile, k, case.recording[q - i + k]);
        let probe = |q: usize| {
            let windows: Vec<usize> = (0..m).filter(|i| q - i + m <= n && near(q, *i, *i)).collect();
            let beside = |i: usize| (i.max(1) - 1..=(i + 1).min(m - 1)).all(|k| near(q, i, k));
            let worth: Vec<usize> = windows.iter().copied().filter(|i| beside(*i)).collect();
            let suited = worth.iter().copied().filter(|i| (0..m).all(|k| near(q, *i, k))).collect();
            Probe { q, whole: q + m <= n, near: windows, worth, suited }
        };
        if !has_tables(case) {
            return Vec::new();
        }
        (m - 1..n).step_by(m).map(probe).collect()
    }

    /// How many readings and points there are, and how many windows of the last probe lie inside.
    fn table_situations(case: &Case, found: &[i64]) -> Vec<(&'static str, bool)> {
        let (m, n) = (case.profile.points.len(), case.recording.len());
        let tables = has_tables(case);
        let inside = count_of_windows(case) % m;
        let (delta, gamma) = (case.profile.delta, case.profile.gamma);
        let place = tables && !found.is_empty();
        vec![
            ("probes: n is 511 + 8m, and a place", n == 511 + 8 * m && !found.is_empty()),
            ("probes: n is 512 + 8m, and a place", n == 512 + 8 * m && !found.is_empty()),
            ("probes: n is 513 + 8m, and a place", n == 513 + 8 * m && !found.is_empty()),
            ("probes: all windows of the last inside", tables && m > 1 && inside == 0),
            ("probes: all windows of the last inside but one", tables && m > 2 && inside == m - 1),
            ("probes: one window of the last inside", tables && m > 2 && inside == 1),
            ("probes: some windows of the last inside", tables && 1 < inside && inside < m - 1),
            ("probes: 1 point, and a place", place && m == 1),
            ("probes: 2 points, and a place", place && m == 2),
            ("probes: 3 points, and a place", place && m == 3),
            ("probes: 63 points, and a place", place && m == 63),
            ("probes: 64 points, and a place", place && m == 64),
            ("probes: delta 0, and a place", place && delta == 0),
            ("probes: delta 255, and a place", place && delta == 255),
            ("probes: delta above gamma, and a place", place && delta > gamma),
            ("probes: greatest tolerances, and a place", place && delta == 255 && gamma == 16_320),
            ("probes: no place", tables && found.is_empty()),
            ("probes: all windows are places", tables && found.len() == count_of_windows(case)),
        ]
    }

    /// Where places stand about probes, in a case with tables. Window s has the probe number s / m, counted from 0, and is its window s % m.
    fn place_situations(case: &Case, found: &[i64], probes: &[Probe]) -> Vec<(&'static str, bool)> {
        let m = case.profile.points.len();
        let last = count_of_windows(case).wrapping_sub(1);
        let whole = probes.iter().filter(|probe| probe.whole).count();
        let none = |at: Option<&u8>| at.is_some_and(|y| (0..m).all(|i| !is_near(&case.profile, i, *y)));
        let reading = |at: Option<usize>| case.recording.get(at?);
        let places: Vec<usize> = found.iter().map(|s| *s as usize).collect();
        let any = |test: &dyn Fn(usize) -> bool| !probes.is_empty() && places.iter().any(|s| test(*s));
        let inside = |test: &dyn Fn(usize) -> bool| any(&|s| s / m < whole && m > 1 && test(s));
        let sum_at = |s: usize| sum(&case.profile, &case.recording, s as i64);
        // two places that follow each other: whether one probe has both
        let of_one = |two: &[usize]| two[0] / m == two[1] / m && two[0] / m < whole;
        // the last place that the list has, and the one after it
        let ends = case.room.checked_sub(1).and_then(|k| places.get(k..k + 2));
        vec![
            ("probes: a place begins there", inside(&|s| s % m == m - 1)),
            (
                "probes: a place begins there, the reading before near no point",
                inside(&|s| s % m == m - 1 && none(reading(s.checked_sub(1)))),
            ),
            ("probes: a place ends there", inside(&|s| s % m == 0)),
            (
                "probes: a place ends there, the reading behind near no point",
                inside(&|s| s % m == 0 && none(reading(Some(s + m)))),
            ),
            ("probes: a place has its second point there", inside(&|s| m > 3 && s % m == m - 2)),
            ("probes: a place has its last point but one there", inside(&|s| m > 3 && s % m == 1)),
            ("probes: a place has an inner point there", inside(&|s| s % m > 1 && s % m + 2 < m)),
            ("probes: a place begins there, 64 points", inside(&|s| m == 64 && s % m == 63)),
            ("probes: a place ends there, 64 points", inside(&|s| m == 64 && s % m == 0)),
            ("probes: a place at the first window", any(&|s| s == 0)),
            ("probes: a place at the last window, of the last whole one", inside(&|s| s == last)),
            ("probes: a place at the last window, behind the last whole one", any(&|s| s == last && s / m == whole)),
            ("probes: a place at the first window behind the last whole one", any(&|s| s == whole * m)),
            ("probes: a place of the last whole one", inside(&|s| s / m + 1 == whole)),
            ("probes: a place in the midst, the only one", places.len() == 1 && inside(&|s| s >= m && s / m + 2 < whole)),
            ("probes: a place of sum gamma above 0", inside(&|s| sum_at(s) > 0 && sum_at(s) == case.profile.gamma as i64)),
            ("probes: a place of a sum above 255", inside(&|s| sum_at(s) > 255)),
            ("probes: a place of a sum above 8,191", inside(&|s| sum_at(s) > 8_191)),
            ("probes: several places of one", places.windows(2).any(of_one)),
            ("probes: list ends among the places of one", ends.is_some_and(of_one)),
        ]
    }

    /// The windows that would be places but for the reading at one point, by any probe whose windows all lie inside: the point at the probe, and that
    /// one. Even so the sum is at most gamma.
    fn spoilt_at_one(case: &Case, probes: &[Probe]) -> Vec<(usize, usize)> {
        let (points, m) = (&case.profile.points, case.profile.points.len());
        let whole = probes.iter().filter(|probe| probe.whole).count();
        let far = |window: &[u8]| -> Vec<usize> { (0..m).filter(|i| !is_near(&case.profile, *i, window[*i])).collect() };
        let total = |window: &[u8]| window.iter().zip(points).map(|(y, x)| y.abs_diff(*x) as u32).sum::<u32>();
        let within = windows(case).take(whole * m).filter(|(_, window)| total(window) <= case.profile.gamma);
        within
            .filter_map(|(s, window)| match far(window)[..] {
                [i] => Some((m - 1 - s as usize % m, i)),
                _ => None,
            })
            .collect()
    }

    /// How little keeps windows about probes from being places, in a case with tables.
    fn spoilt_probe_situations(case: &Case, probes: &[Probe], near: &[(i64, u32)]) -> Vec<(&'static str, bool)> {
        let (m, gamma) = (case.profile.points.len(), case.profile.gamma);
        let whole = probes.iter().filter(|probe| probe.whole).count();
        let at_one = spoilt_at_one(case, probes);
        let any = |test: &dyn Fn(usize, usize) -> bool| at_one.iter().any(|(at, i)| test(*at, *i));
        let over = |test: &dyn Fn(usize) -> bool| {
            near.iter().any(|(s, sum)| (*s as usize) < whole * m && *sum == gamma + 1 && test(*s as usize % m))
        };
        vec![
            ("probes: a place but for the reading there", any(&|at, i| m > 1 && i == at)),
            ("probes: a place but for the reading before", any(&|at, i| i + 1 == at)),
            ("probes: a place but for the reading behind", any(&|at, i| i == at + 1)),
            ("probes: a place but for the reading two before", any(&|at, i| i + 2 == at)),
            ("probes: a place but for the reading two behind", any(&|at, i| i == at + 2)),
            ("probes: a place but for its first reading, farther away", any(&|at, i| i == 0 && at > 2)),
            ("probes: a place but for its last reading, farther away", any(&|at, i| i == m - 1 && at + 3 < m)),
            ("probes: a place but for the first reading, and it ends there", any(&|at, i| i == 0 && at == m - 1 && m > 1)),
            ("probes: a place but for the last reading, and it begins there", any(&|at, i| i == m - 1 && at == 0 && m > 1)),
            ("probes: a place but for a reading, 64 points", any(&|_, _| m == 64)),
            ("probes: a place but for readings of 0", spoilt(case).iter().any(|w| m > 1 && (w.s as usize) < whole * m)),
            ("probes: sum gamma + 1", over(&|_| m > 1)),
            ("probes: sum gamma + 1, and it begins there", over(&|k| m > 1 && k == m - 1)),
            ("probes: sum gamma + 1, and it ends there", over(&|k| m > 1 && k == 0)),
            ("probes: sum gamma + 1, 64 points", over(&|_| m == 64)),
        ]
    }

    /// Which probes are passed, in a case with tables, and what the others have.
    fn passed_situations(case: &Case, found: &[i64], probes: &[Probe]) -> Vec<(&'static str, bool)> {
        let (recording, points) = (&case.recording, &case.profile.points);
        let (m, d) = (points.len(), case.profile.delta.min(case.profile.gamma));
        let whole: Vec<&Probe> = probes.iter().filter(|probe| probe.whole).collect();
        let behind = probes.iter().find(|probe| !probe.whole);
        let passed = |probe: &Probe| m > 1 && probe.worth.is_empty();
        let counts = |probe: &Probe| passed(probe) && !probe.near.is_empty();
        let count = |y: u8| (0..m).filter(|i| is_near(&case.profile, *i, y)).count();
        let beside = |probe: &Probe| [recording[probe.q - 1], recording[probe.q + 1]].map(count);
        let any = |test: &dyn Fn(&Probe) -> bool| whole.iter().any(|probe| test(probe));
        let with_places: std::collections::BTreeSet<usize> = found.iter().map(|s| *s as usize / m).collect();
        let place = |probe: &Probe| with_places.contains(&(probe.q / m));
        let row = |test: &dyn Fn(&Probe, &Probe) -> bool| whole.windows(2).any(|two| test(two[0], two[1]));
        vec![
            ("probes: passed, with near points", any(&|probe| counts(probe) && beside(probe) == [0, 0])),
            (
                "probes: passed, with more near points than the readings beside",
                any(&|probe| counts(probe) && beside(probe).iter().all(|k| *k > 0 && *k < probe.near.len())),
            ),
            (
                "probes: passed, with no near point, and the readings beside have some",
                any(&|probe| passed(probe) && probe.near.is_empty() && beside(probe).iter().all(|k| *k > 0)),
            ),
            ("probes: the first passed, with near points", whole.first().is_some_and(|probe| counts(probe))),
            ("probes: the last whole one passed, with near points", whole.last().is_some_and(|probe| counts(probe))),
            ("probes: all passed, with near points", !whole.is_empty() && whole.iter().all(|probe| counts(probe))),
            ("probes: none passed", m > 1 && !whole.is_empty() && whole.iter().all(|probe| !passed(probe))),
            ("probes: ten passed in a row, with near points", whole.windows(10).any(|ten| ten.iter().all(|probe| counts(probe)))),
            ("probes: passed before one with a place", row(&|one, two| counts(one) && place(two))),
            ("probes: passed behind one with a place", row(&|one, two| place(one) && counts(two))),
            ("probes: places of two in a row", row(&|one, two| m > 1 && place(one) && place(two))),
            (
                "probes: worth a look, and no window suits",
                any(&|probe| m > 1 && !probe.worth.is_empty() && probe.suited.is_empty()),
            ),
            (
                "probes: some windows worth a look suit, others not",
                any(&|probe| !probe.suited.is_empty() && probe.suited.len() < probe.worth.len()),
            ),
            ("probes: several windows of one suit, not all", any(&|probe| probe.suited.len() > 1 && probe.suited.len() < m)),
            ("probes: all windows of one suit", any(&|probe| m > 1 && probe.suited.len() == m)),
            ("probes: all windows of one suit, 64 points", any(&|probe| m == 64 && probe.suited.len() == m)),
            (
                "probes: near points of the last, and a window would run past the end",
                behind.is_some_and(|last| !last.near.is_empty() && last.near.len() < count(recording[last.q])),
            ),
            (
                "probes: reading 0, within d of a point",
                any(&|probe| recording[probe.q] == 0 && points.iter().any(|x| *x as u32 <= d)),
            ),
            (
                "probes: reading 255, and its point reaches beyond",
                any(&|probe| recording[probe.q] == 255 && probe.near.iter().any(|i| points[*i] as u32 + d > 255)),
            ),
            (
                "probes: reading 1, and its point reaches below",
                any(&|probe| recording[probe.q] == 1 && probe.near.iter().any(|i| points[*i] as u32 <= d)),
            ),
        ]
    }

    /// All that is so about probes. The windows of their near points are those that skip tries.
    fn probe_situations(case: &Case, found: &[i64], near: &[(i64, u32)]) -> Vec<(&'static str, bool)> {
        let probes = probes(case);
        if has_tables(case) {
            let tried: usize = probes.iter().map(|probe| probe.near.len()).sum();
            assert_eq!(tried, walk(Searcher::Skip, &case.profile, &case.recording).len(), "{}", frames::describe(case));
        }
        let places = place_situations(case, found, &probes);
        let spoilt = spoilt_probe_situations(case, &probes, near);
        [table_situations(case, found), places, spoilt, passed_situations(case, found, &probes)].concat()
    }

    /// Which of 2 and 3 apply, whatever comes before them: neither, 2, 3, or both.
    fn later_refusals(case: &Case) -> [bool; 4] {
        let bad = case.profile.delta > 255 || case.profile.gamma > 16_320;
        let long = case.recording.len() > 1_000_000;
        [!bad && !long, bad && !long, !bad && long, bad && long]
    }

    /// Which refusal a search has, and which later ones stand behind it.
    fn refusal_situations(case: &Case) -> Vec<(&'static str, bool)> {
        let (m, zero) = (case.profile.points.len(), case.profile.points.contains(&0));
        let (delta, gamma) = (case.profile.delta, case.profile.gamma);
        let [alone, or_2, or_3, or_both] = later_refusals(case);
        let refusal = refusal_of_search(&case.profile, &case.recording);
        let expected = [m == 0, m > 64, (1..=64).contains(&m) && zero];
        assert_eq!([1, 7, 8].map(|number| refusal == number), expected, "{}", frames::describe(case));
        let seven = refusal == 7 && !zero;
        vec![
            ("refusal 1", refusal == 1 && alone),
            ("refusal 1 before 2", refusal == 1 && or_2),
            ("refusal 7, 65 points", seven && m == 65 && alone),
            ("refusal 7, more points", seven && m > 65 && alone),
            ("refusal 7 before 2, 65 points", seven && m == 65 && or_2),
            ("refusal 7 before 2, more points", seven && m > 65 && or_2),
            ("refusal 2, fewer points", refusal == 2 && m < 64 && or_2),
            ("refusal 2, 64 points", refusal == 2 && m == 64 && or_2),
            ("refusal 2, delta 256 alone", refusal == 2 && delta == 256 && gamma <= 16_320),
            ("refusal 2, gamma 16,321 alone", refusal == 2 && delta <= 255 && gamma == 16_321),
            ("no refusal, 64 points", refusal == 0 && m == 64),
            ("long: refusal 1 before 3", refusal == 1 && or_3),
            ("long: refusal 1 before 2 and 3", refusal == 1 && or_both),
            ("long: refusal 7 before 3, 65 points", seven && m == 65 && or_3),
            ("long: refusal 7 before 2 and 3, 65 points", seven && m == 65 && or_both),
            ("long: refusal 2 before 3, 64 points", refusal == 2 && m == 64 && or_both),
            ("long: refusal 3, fewer points", refusal == 3 && m < 64),
            ("long: refusal 3, 64 points", refusal == 3 && m == 64),
        ]
    }

    /// Which points of a profile are 0, and which refusals stand before and behind 8.
    fn refusal_8_situations(case: &Case) -> Vec<(&'static str, bool)> {
        let m = case.profile.points.len();
        let zeros = zeros_of(&case.profile.points);
        let [alone, or_2, or_3, or_both] = later_refusals(case);
        let refusal = refusal_of_profile(&case.profile);
        let (seven, eight) = (refusal == 7 && !zeros.is_empty(), refusal == 8);
        vec![
            ("refusal 8, first point", eight && m > 1 && zeros == [0] && alone),
            ("refusal 8, inner point", eight && one_inside(&zeros, m) && alone),
            ("refusal 8, last point", eight && m > 1 && zeros == [m - 1] && alone),
            ("refusal 8, all points", eight && m > 1 && zeros.len() == m && alone),
            ("refusal 8, 1 point", eight && m == 1 && alone),
            ("refusal 8, 64 points", eight && m == 64 && alone),
            ("refusal 8 before 2", eight && or_2),
            ("refusal 8 before 2, 64 points", eight && m == 64 && or_2),
            ("refusal 7 before 8, 65 points", seven && m == 65 && alone),
            ("refusal 7 before 8, more points", seven && m > 65 && alone),
            ("refusal 7 before 8 and 2", seven && or_2),
            ("long: refusal 8 before 3", eight && or_3),
            ("long: refusal 8 before 2 and 3, 64 points", eight && m == 64 && or_both),
        ]
    }

    /// Where the first place stands, what is tried before it or without it, and why there is no answer.
    fn first_situations(case: &Case) -> Vec<(&'static str, bool)> {
        let (m, n) = (case.profile.points.len() as i64, case.recording.len() as i64);
        let First { refusal, place, tried } = first(&case.profile, &case.recording);
        let found = places(&case.profile, &case.recording);
        let only_the_last = n > m && found == [n - m];
        let none = refusal == 0 && place.is_none();
        vec![
            ("first: refused 1", refusal == 1),
            ("first: refused 7", refusal == 7),
            ("first: refused 8", refusal == 8),
            ("first: refused 2", refusal == 2),
            ("first: refused 3", refusal == 3),
            ("first: at 0", place == Some(0)),
            ("first: at 0, the first of many", place == Some(0) && found.len() > 20),
            ("first: behind windows that are not tried", place > Some(0) && tried == 1),
            ("first: behind windows tried in vain", place.is_some() && tried > 1),
            ("first: behind windows tried in vain, the first of many", found.len() > 20 && tried > 1),
            ("first: the only place is the last window", only_the_last && tried == 1),
            ("first: the only place is the last window, others tried in vain", only_the_last && tried > 1),
            ("first: none, with windows tried", none && tried > 0),
            ("first: none, with windows and none of them tried", none && m <= n && tried == 0),
            ("first: none, with no window (n < m)", none && 0 < n && n < m),
            ("first: none, with no reading", none && n == 0),
        ]
    }

    /// What the question about one window answers in an accepted case: by how little windows are places or not, why, and at the end.
    fn check_situations(case: &Case) -> Vec<(&'static str, bool)> {
        let judged = |s: i64| check(&case.profile, &case.recording, s as usize).verdict.unwrap();
        let verdicts: Vec<(&[u8], Verdict)> = windows(case).map(|(s, window)| (window, judged(s))).collect();
        [sum_situations(case, &verdicts), far_situations(case, &verdicts), lost_situations(case, &verdicts)].concat()
    }

    fn sum_situations(case: &Case, verdicts: &[(&[u8], Verdict)]) -> Vec<(&'static str, bool)> {
        let g = case.profile.g();
        let any = |sought: Verdict| verdicts.iter().any(|&(_, verdict)| verdict == sought);
        let last = |test: fn(Verdict) -> bool| verdicts.len() > 1 && verdicts.last().is_some_and(|&(_, verdict)| test(verdict));
        vec![
            ("check: sum g", any(Verdict::Fits(g))),
            ("check: sum g, and g is 0", g == 0 && any(Verdict::Fits(0))),
            ("check: sum g, and gamma is above it", g < case.profile.gamma as i64 && any(Verdict::Fits(g))),
            ("check: sum g + 1", any(Verdict::Over(g + 1))),
            ("check: sum above g + 1", verdicts.iter().any(|(_, verdict)| matches!(verdict, Verdict::Over(sum) if *sum > g + 1))),
            ("check: the last window fits", last(|verdict| matches!(verdict, Verdict::Fits(_)))),
            ("check: the last window is far", last(|verdict| matches!(verdict, Verdict::Far(_)))),
            ("check: the last window is over", last(|verdict| matches!(verdict, Verdict::Over(_)))),
        ]
    }

    /// A window with a far point: where the first one stands, counted from 0, and what is so of it and of the others.
    struct Broken {
        at: usize,
        difference: u32,
        /// the sum up to that point
        before: i64,
        /// it is a 0 that differs by at most d
        lost: bool,
        /// how many points are far, and how many of them have a reading that is no 0
        far: usize,
        far_and_read: usize,
        /// no reading is 0, and every difference is at most delta
        within_delta: bool,
    }

    fn broken(case: &Case, verdicts: &[(&[u8], Verdict)]) -> Vec<Broken> {
        let (points, delta) = (&case.profile.points, case.profile.delta);
        let d = delta.min(case.profile.gamma);
        let broken = |&(window, verdict): &(&[u8], Verdict)| {
            let Verdict::Far(p) = verdict else { return None };
            let at = p as usize - 1;
            let differences: Vec<u32> = window.iter().zip(points).map(|(a, x)| a.abs_diff(*x) as u32).collect();
            let far = |i: &usize| window[*i] == 0 || differences[*i] > d;
            Some(Broken {
                at,
                difference: differences[at],
                before: differences[..at].iter().sum::<u32>() as i64,
                lost: window[at] == 0 && differences[at] <= d,
                far: (0..points.len()).filter(far).count(),
                far_and_read: (0..points.len()).filter(far).filter(|i| window[*i] != 0).count(),
                within_delta: !window.contains(&0) && differences.iter().all(|difference| *difference <= delta),
            })
        };
        verdicts.iter().filter_map(broken).collect()
    }

    /// Far points: which of the profile's, by how much, and behind which sum.
    fn far_situations(case: &Case, verdicts: &[(&[u8], Verdict)]) -> Vec<(&'static str, bool)> {
        let (m, g) = (case.profile.points.len(), case.profile.g());
        let (delta, gamma) = (case.profile.delta, case.profile.gamma);
        let windows = broken(case, verdicts);
        let any = |test: &dyn Fn(&Broken) -> bool| windows.iter().any(test);
        let by_gamma = |test: &dyn Fn(&Broken) -> bool| windows.iter().any(|w| w.within_delta && test(w));
        vec![
            ("check: far by one", any(&|w| w.difference == delta.min(gamma) + 1)),
            ("check: far at the only point", any(&|_| m == 1)),
            ("check: far at the first of all points", any(&|w| m > 1 && w.far == m)),
            ("check: far at the first point alone", any(&|w| m > 1 && w.at == 0 && w.far == 1)),
            ("check: far at an inner point, and at a later one", any(&|w| w.at > 0 && w.far > 1)),
            ("check: far at the last point alone", any(&|w| m > 1 && w.at == m - 1)),
            ("check: far at the last of 64 points", any(&|w| w.at == 63)),
            ("check: far at the last of 64 points, behind a sum above g", any(&|w| w.at == 63 && w.before > g)),
            ("check: far behind a sum above g", any(&|w| w.before > g)),
            ("check: far at the last point, behind a sum of g + 1", any(&|w| w.at == m - 1 && w.before == g + 1)),
            ("check: far by gamma alone, and every difference within delta", by_gamma(&|_| true)),
            ("check: far by gamma alone, by one", by_gamma(&|w| w.difference == gamma + 1)),
            ("check: far by gamma alone, at delta", by_gamma(&|w| w.difference == delta)),
            ("check: far by gamma alone, behind a sum above g", by_gamma(&|w| w.before > g)),
            ("check: far by gamma alone, 64 points", by_gamma(&|_| m == 64)),
            ("check: far by gamma alone, at the last of 64 points", by_gamma(&|w| w.at == 63)),
            ("check: far by gamma alone, at several points", by_gamma(&|w| w.far > 1)),
        ]
    }

    /// Points that are far because contact was lost there.
    fn lost_situations(case: &Case, verdicts: &[(&[u8], Verdict)]) -> Vec<(&'static str, bool)> {
        let g = case.profile.g();
        let windows = broken(case, verdicts);
        let any = |test: &dyn Fn(&Broken) -> bool| windows.iter().any(|w| w.lost && test(w));
        vec![
            ("check: far at a 0 within d", any(&|_| true)),
            ("check: far at a 0 within d, behind a sum above g", any(&|w| w.before > g)),
            ("check: far at a 0 within d, and at a later point", any(&|w| w.far_and_read > 0)),
        ]
    }

    /// By which number an s without a window is refused, and the first such s.
    fn no_window_situations(case: &Case) -> Vec<(&'static str, bool)> {
        let (m, n) = (case.profile.points.len(), case.recording.len());
        let refusal = |s: usize| check(&case.profile, &case.recording, s).refusal;
        // one above the last position: no window stands there, whatever m is
        let beyond = refusal(n + 1);
        assert_eq!(beyond, refusal(usize::MAX), "{}", frames::describe(case));
        let behind_the_last = m <= n && refusal(n - m) == 0 && refusal(n - m + 1) == 6;
        vec![
            ("check: no window, refused 1", beyond == 1),
            ("check: no window, refused 7", beyond == 7),
            ("check: no window, refused 8", beyond == 8),
            ("check: no window, refused 2", beyond == 2),
            ("check: no window, refused 3", beyond == 3),
            ("check: refused 6 at 0, with no reading", n == 0 && refusal(0) == 6),
            ("check: refused 6 at 0, with a reading too few", n > 0 && n + 1 == m && refusal(0) == 6),
            ("check: refused 6 directly behind the only window", n == m && behind_the_last),
            ("check: refused 6 directly behind the last window", n > m && behind_the_last),
            ("check: refused 6 directly behind the last window, 1 point", m == 1 && behind_the_last),
            ("check: refused 6 directly behind the last window, 64 points", m == 64 && behind_the_last),
        ]
    }

    /// By which number a search is refused that was lent two lists with room.
    fn refused_with_lists(case: &Case) -> Vec<(&'static str, bool)> {
        let room = case.room > 0 && case.sums_room > 0;
        let refused = |number: u32| room && refusal_of_search(&case.profile, &case.recording) == number;
        vec![
            ("sums: refused 1, both lists have room", refused(1)),
            ("sums: refused 7, both lists have room", refused(7)),
            ("sums: refused 8, both lists have room", refused(8)),
            ("sums: refused 2, both lists have room", refused(2)),
            ("long: refused 3, both lists have room", refused(3)),
        ]
    }

    /// Which place has the least sum, and whether the lists go so far; the sums of an accepted case, and what else has a sum.
    fn least_situations(case: &Case, found: &[i64]) -> Vec<(&'static str, bool)> {
        let sums: Vec<i64> = found.iter().map(|&s| sum(&case.profile, &case.recording, s)).collect();
        let least = sums.iter().copied().min();
        let count = |sought: Option<i64>| sums.iter().filter(|sum| Some(**sum) == sought).count();
        let at = sums.iter().position(|sum| Some(*sum) == least);
        let stands = |test: &dyn Fn(usize) -> bool| at.is_some_and(test);
        let (listed, told) = (|k: usize| k < case.room, |k: usize| k < case.sums_room);
        let room = case.room > 0 && case.sums_room > 0;
        let less = |s: i64| !found.contains(&s) && Some(sum(&case.profile, &case.recording, s)) < least;
        let lesser: Vec<&[u8]> = windows(case).filter(|(s, _)| less(*s)).map(|(_, window)| window).collect();
        let several = sums.len() > 1;
        vec![
            ("sums: none, both lists have room", sums.is_empty() && room),
            ("sums: none, a window is over, and both lists have room", sums.is_empty() && room && !near_sums(case).is_empty()),
            ("sums: the least is the first alone", several && at == Some(0) && count(least) == 1),
            ("sums: the least is neither the first nor the last", stands(&|k| k > 0 && sums.last() != sums.get(k))),
            ("sums: the least is the last alone", several && at == Some(sums.len() - 1)),
            ("sums: the least in both lists", stands(&|k| several && listed(k) && told(k))),
            ("sums: the least in the list alone", stands(&|k| listed(k) && !told(k) && room)),
            ("sums: the least in the sums alone", stands(&|k| !listed(k) && told(k) && room)),
            ("sums: the least in neither list", stands(&|k| !listed(k) && !told(k) && room)),
            ("sums: the least in neither list, none lent", stands(&|_| case.room == 0 && case.sums_room == 0)),
            ("sums: the least twice, and a greater one", count(least) > 1 && count(least) < sums.len()),
            ("sums: all alike and not 0", several && count(least) == sums.len() && least > Some(0)),
            ("sums: a perfect fit behind others", least == Some(0) && at > Some(0)),
            ("sums: perfect fits alone", several && sums.iter().all(|sum| *sum == 0)),
            ("sums: less where a point is too far", lesser.iter().any(|window| !window.contains(&0))),
            ("sums: less where contact was lost", lesser.iter().any(|window| window.contains(&0))),
        ]
    }

    /// How great sums are, with one word of counters and with several; and where the least stands among blocks of windows.
    fn great_situations(case: &Case, found: &[i64]) -> Vec<(&'static str, bool)> {
        let sums: Vec<i64> = found.iter().map(|&s| sum(&case.profile, &case.recording, s)).collect();
        let least = sums.iter().min();
        let (whole, rest): (Vec<i64>, Vec<i64>) = found.iter().partition(|s| in_whole_block(case, **s));
        let stands = |places: &[i64]| found.iter().zip(&sums).any(|(s, sum)| places.contains(s) && Some(sum) == least);
        let both = !whole.is_empty() && !rest.is_empty();
        let above = |bound: i64| sums.iter().any(|sum| *sum > bound);
        vec![
            ("sums: above 255, one word", above(255) && words(&case.profile) == 1),
            ("sums: above 255, several words", above(255) && words(&case.profile) > 1),
            ("sums: above 255, the least not", above(255) && least < Some(&256)),
            ("sums: above 8,191", above(8_191)),
            ("sums: the greatest there is", above(16_255)),
            ("sums: the greatest there is, and a lesser one", above(16_255) && least < Some(&16_256)),
            ("sums: in blocks and behind, the least in a block alone", both && stands(&whole) && !stands(&rest)),
            ("sums: in blocks and behind, the least behind alone", both && stands(&rest) && !stands(&whole)),
        ]
    }

    /// Why a window is no place, if it is by one point alone.
    #[derive(PartialEq)]
    enum Fall {
        /// its reading is too far, and the others sum to g at most
        Far,
        /// so, and the reading is 0
        Lost,
        /// all are near, and there the sum passes g
        Over,
    }

    /// The point, counted from 0, by which a window is no place.
    fn fall(profile: &Profile, window: &[u8]) -> Option<(Fall, usize)> {
        let (d, g) = (profile.delta.min(profile.gamma), profile.g() as u32);
        let difference = |i: usize| window[i].abs_diff(profile.points[i]) as u32;
        let is_near = |i: usize| window[i] != 0 && difference(i) <= d;
        let sum_to = |i: usize| (0..=i).filter(|&i| is_near(i)).map(difference).sum::<u32>();
        let last = window.len() - 1;
        let mut far = (0..=last).filter(|&i| !is_near(i));
        match (far.next(), far.next()) {
            (None, _) => (0..=last).find(|&i| sum_to(i) > g).map(|i| (Fall::Over, i)),
            (Some(i), None) if sum_to(last) <= g => Some((if window[i] == 0 { Fall::Lost } else { Fall::Far }, i)),
            _ => None,
        }
    }

    /// Points are asked eight at a time, and those behind the last eight one by one: a window that falls at one point alone, each of an eight, and places
    /// of about as many points as eights have. The last point is near, so that last tries the window.
    fn eight_situations(case: &Case, found: &[i64]) -> Vec<(&'static str, bool)> {
        const ONLY: [&str; 8] = [
            "eight: only its first point is far",
            "eight: only its second point is far",
            "eight: only its third point is far",
            "eight: only its fourth point is far",
            "eight: only its fifth point is far",
            "eight: only its sixth point is far",
            "eight: only its seventh point is far",
            "eight: only its last point is far",
        ];
        let m = case.profile.points.len();
        let (eights, place) = (m / 8 * 8, !found.is_empty());
        let far: Vec<usize> = windows(case)
            .filter_map(|(_, window)| fall(&case.profile, window))
            .filter_map(|(how, i)| (!matches!(how, Fall::Over) && i + 1 < m).then_some(i))
            .collect();
        let mut met: Vec<(&'static str, bool)> =
            (0..8).map(|k| (ONLY[k], far.iter().any(|&i| i < eights && i % 8 == k))).collect();
        met.extend([
            ("eight: only a point behind the last eight is far", far.iter().any(|&i| i >= eights)),
            ("eight: 7 points, a place", m == 7 && place),
            ("eight: 8 points, a place", m == 8 && place),
            ("eight: 9 points, a place", m == 9 && place),
            ("eight: 16 points, a place", m == 16 && place),
            ("eight: 17 points, a place", m == 17 && place),
            ("eight: 63 points, a place", m == 63 && place),
            ("eight: 64 points, a place", m == 64 && place),
        ]);
        met
    }

    /// What is tried with so many words of counters as an accepted case has. k counters go into a word, so that the counter of point i, counted
    /// from 0, is number i % k of word i / k.
    fn word_situations(case: &Case) -> Vec<(&'static str, bool)> {
        let (m, g) = (case.profile.points.len(), case.profile.g());
        let k = counters_in_a_word(counter_width(g)) as usize;
        let sums: Vec<i64> = near_sums(case).into_iter().map(|(_, sum)| sum as i64).collect();
        let falls: Vec<(Fall, usize)> = windows(case).filter_map(|(_, window)| fall(&case.profile, window)).collect();
        let begins = |i: usize| i > 0 && i % k == 0;
        let first = |why: Fall| falls.iter().any(|(fall, i)| *fall == why && begins(*i));
        let last = |why: Fall| falls.iter().any(|(fall, i)| *fall == why && i + 1 < m && begins(i + 1));
        vec![
            ("a place", sums.iter().any(|&sum| sum <= g)),
            ("sum g", sums.contains(&g)),
            ("sum g + 1", sums.contains(&(g + 1))),
            ("the last word is full", m % k == 0),
            ("the last word lacks a counter", (m + 1) % k == 0),
            ("the last word has one counter", m % k == 1),
            ("too far at a later word's first counter", first(Fall::Far)),
            ("lost contact at a later word's first counter", first(Fall::Lost)),
            ("the sum passes g at a later word's first counter", first(Fall::Over)),
            ("too far at the last counter before another word", last(Fall::Far)),
            ("lost contact at the last counter before another word", last(Fall::Lost)),
            ("the sum passes g at the last counter before another word", last(Fall::Over)),
        ]
    }

    /// What the default run must contain: each line is a situation, and at least so many cases must be in it.
    #[test]
    fn the_default_run_has_every_situation() {
        let mut met = std::collections::BTreeMap::new();
        for case in cases(2_000, 1) {
            let (m, n) = (case.profile.points.len(), case.recording.len());
            let (delta, gamma) = (case.profile.delta, case.profile.gamma);
            let accepted = refusal_of_profile(&case.profile) == 0;
            let mut meets = |situation: &'static str, yes: bool| *met.entry(situation).or_insert(0) += yes as usize;
            let refusals = [refusal_situations(&case), refusal_8_situations(&case), no_window_situations(&case)].concat();
            let untouched = refused_with_lists(&case);
            for (situation, yes) in refusals.into_iter().chain(untouched).chain(first_situations(&case)) {
                meets(situation, yes);
            }
            meets("delta greatest", delta == u32::MAX);
            meets("gamma just too great", gamma == 16_321);
            meets("long: n is the greatest", n == 1_000_000);
            if !accepted || n > 1_000_000 {
                continue;
            }
            let found = places(&case.profile, &case.recording);
            let near = near_sums(&case);
            let sums: Vec<u32> = near.iter().map(|&(_, sum)| sum).collect();
            let bits = m as i64 * counter_width(case.profile.g());
            meets("m is 1", m == 1);
            meets("m is 64", m == 64);
            meets("n is 0", n == 0);
            meets("n is m - 1", n + 1 == m);
            meets("n is m", n == m);
            meets("n is m - 1, several words of counters", n + 1 == m && words(&case.profile) > 1);
            meets("n is m, several words of counters", n == m && words(&case.profile) > 1);
            meets("no list", case.room == 0 && !found.is_empty());
            meets("list too short", case.room > 0 && case.room < found.len());
            meets("list just long enough", case.room > 0 && case.room == found.len());
            meets("list longer", !found.is_empty() && case.room > found.len());
            meets("list longer, no place", found.is_empty() && case.room > 0);
            meets("place at the end", n > m && found.last() == Some(&((n - m) as i64)));
            meets("sum gamma - 1", sums.contains(&gamma.wrapping_sub(1)));
            meets("sum gamma", gamma > 0 && sums.contains(&gamma));
            meets("sum gamma + 1", sums.contains(&(gamma + 1)));
            meets("delta 0", delta == 0);
            meets("gamma 0", gamma == 0);
            meets("delta above gamma", delta > gamma);
            meets("gamma above m times delta", gamma as u64 > m as u64 * delta as u64);
            meets("64 bits", bits == 64);
            meets("65 to 72 bits", bits > 64 && bits <= 72);
            meets("64 counters of one bit", m == 64 && bits == 64);
            meets("constant", n > 0 && case.recording.iter().all(|&y| y == case.recording[0]));
            meets("reading 0", case.recording.contains(&0));
            meets("reading 255", case.recording.contains(&255));
            let zeros = [spoilt_situations(&case, &found), zero_situations(&case, &found), walk_situations(&case)].concat();
            let sums = [least_situations(&case, &found), great_situations(&case, &found)].concat();
            let seen = [seen_situations(&case), landing_situations(&case, &found)].concat();
            let (blocks, probes) = (block_situations(&case, &found, &near), probe_situations(&case, &found, &near));
            let eights = eight_situations(&case, &found);
            for (situation, yes) in [blocks, probes, zeros, check_situations(&case), sums, seen, eights].concat() {
                meets(situation, yes);
            }
        }
        for (situation, count) in met {
            println!("{count:5} {situation}");
            // long recordings are few, since they take most of the time
            let least = match situation {
                "first: refused 3" | "check: no window, refused 3" => 1,
                _ if situation.starts_with("long") => 1,
                _ if situation.starts_with("block") || situation.starts_with("zero") => 8,
                _ => 3,
            };
            assert!(count >= least, "{situation}: {count}");
        }
    }

    /// The default run must have each number of words, and all that is tried with it in three cases or more. One word has no border.
    #[test]
    fn the_default_run_has_every_number_of_words() {
        let mut met = std::collections::BTreeMap::new();
        let mut shapes = std::collections::BTreeSet::new();
        for case in cases(2_000, 1).filter(|case| refusal_of_search(&case.profile, &case.recording) == 0) {
            shapes.insert((case.profile.points.len(), counter_width(case.profile.g())));
            for (situation, yes) in word_situations(&case) {
                *met.entry((words(&case.profile), situation)).or_insert(0) += yes as usize;
            }
        }
        for ((words, situation), count) in &met {
            println!("{count:5} {words:2} words: {situation}");
            let least = if *words == 1 && situation.contains("word") { 0 } else { 3 };
            assert!(*count >= least, "{words} words, {situation}: {count}");
        }
        let numbers = met.into_keys().map(|(words, _)| words);
        assert_eq!(numbers.collect::<std::collections::BTreeSet<_>>(), (1..=16).collect());
        assert!(edges().iter().all(|edge| shapes.contains(&(edge.m, edge.width as i64))));
        // 5 points have counters of 12 bits at most, since they sum to 1,275 at most, and five of these fit a word; 6 need not fit
        let several = shapes.into_iter().filter(|&(m, width)| m as i64 > counters_in_a_word(width)).map(|(m, _)| m);
        assert_eq!(several.collect::<std::collections::BTreeSet<_>>(), (6..=64).collect());
    }

    /// The default run must have every pair of lengths of the two lists, each of no room, too little, just enough and more than enough, in ten cases
    /// or more with several places; and so in each case about sums.
    #[test]
    fn the_default_run_has_every_pair_of_lengths() {
        let reach = |room: usize, total: usize| match room.cmp(&total) {
            _ if room == 0 => "none",
            Ordering::Less => "too short",
            Ordering::Equal => "just enough",
            Ordering::Greater => "longer",
        };
        let mut met = std::collections::BTreeMap::new();
        let mut lent = std::collections::BTreeSet::new();
        for case in cases(2_000, 1) {
            let total = total(&case.profile, &case.recording);
            lent.insert(frames::describe(&case));
            if total > 1 {
                *met.entry((reach(case.room, total), reach(case.sums_room, total))).or_insert(0) += 1;
            }
        }
        for ((list, sums), count) in &met {
            println!("{count:5} list {list}, sums {sums}");
            assert!(*count >= 10, "list {list}, sums {sums}: {count}");
        }
        assert_eq!(met.len(), 16);
        assert!(sums_in_all_lengths().iter().all(|case| lent.contains(&frames::describe(case))));
    }

    /// The number of kinds has no divisor in common with the steps at which other cases take a kind's turn.
    #[test]
    fn all_kinds_give_way_alike() {
        let kinds = ORDINARY.len() + ZEROS.len() + REFUSED.len();
        for step in [LONG_EVERY, EDGE_EVERY, SUMS_EVERY] {
            assert!((2..=step).all(|k| (kinds % k, step % k) != (0, 0)), "{kinds} kinds, one in {step}");
        }
    }

    /// What is planted is found, and nothing else.
    #[test]
    fn planted_places_are_the_only_ones() {
        let sums = [(0, 12), (4, 3), (8, 0), (61, 7)];
        let (sought, recording) = planted(vec![50, 60, 70], 4, 12, 62, &sums);
        let found = places(&sought, &recording);
        assert_eq!(found.iter().map(|&s| (s as usize, sum(&sought, &recording, s) as u32)).collect::<Vec<_>>(), sums);
    }

    #[test]
    fn frames_are_read_back() {
        let mut bytes = Vec::new();
        let made: Vec<Case> = cases(100, 5).collect();
        made.iter().for_each(|case| frames::write_frame(case, &mut bytes).unwrap());
        let read = frames::read_frames(&mut &bytes[..]).unwrap();
        assert_eq!(made.iter().map(frames::describe).collect::<Vec<_>>(), read.iter().map(frames::describe).collect::<Vec<_>>());
    }
}
