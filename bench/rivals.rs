//! The two Rust programs that the searchers are measured against. They take what a searcher takes, and answer the total of places and the least
//! sum. They turn nothing away: the bench passes accepted inputs only, with 1 point or more and none of them 0.

/// The places so far, and the lists that receive the first of them and their sums.
struct Found<'a> {
    list: &'a mut [u32],
    sums: &'a mut [u16],
    total: usize,
    least: u32,
}

impl Found<'_> {
    fn none<'a>(list: &'a mut [u32], sums: &'a mut [u16]) -> Found<'a> {
        Found { list, sums, total: 0, least: u32::MAX }
    }

    fn note(&mut self, s: usize, sum: u32) {
        if let Some(entry) = self.list.get_mut(self.total) {
            *entry = s as u32;
        }
        if let Some(entry) = self.sums.get_mut(self.total) {
            *entry = sum as u16;
        }
        self.total += 1;
        self.least = self.least.min(sum);
    }

    /// The total, and the least sum, which is 0 where there is none.
    fn told(&self) -> (usize, u32) {
        (self.total, if self.total == 0 { 0 } else { self.least })
    }
}

/// Tries every window, and leaves it at the first point that is not near, in the fastest form known: near is one subtraction and one
/// comparison, the first point's numbers stay in registers, four windows a turn, and the sum is taken only where all points are near.
pub fn early_exit(points: &[u8], delta: u32, gamma: u32, recording: &[u8], list: &mut [u32], sums: &mut [u16]) -> (usize, u32) {
    let (m, n) = (points.len(), recording.len());
    let mut found = Found::none(list, sums);
    if n < m {
        return found.told();
    }
    let d = delta.min(gamma).min(255) as u8;
    // for each point the least near reading, which is never 0, and how many more are near
    let spans: Vec<(u8, u8)> = points
        .iter()
        .map(|x| (x.saturating_sub(d).max(1), x.saturating_add(d)))
        .map(|(low, high)| (low, high - low))
        .collect();
    let (low, span) = spans[0];
    let rest = &spans[1..];
    let mut try_rest = |s: usize| {
        let window = &recording[s..s + m];
        for (y, (low, span)) in window[1..].iter().zip(rest) {
            if y.wrapping_sub(*low) > *span {
                return;
            }
        }
        let sum: u32 = points.iter().zip(window).map(|(x, y)| u32::from(x.abs_diff(*y))).sum();
        if sum <= gamma {
            found.note(s, sum);
        }
    };
    let starts = &recording[..n - m + 1];
    let (fours, left) = starts.as_chunks::<4>();
    for (k, four) in fours.iter().enumerate() {
        if four[0].wrapping_sub(low) <= span {
            try_rest(4 * k);
        }
        if four[1].wrapping_sub(low) <= span {
            try_rest(4 * k + 1);
        }
        if four[2].wrapping_sub(low) <= span {
            try_rest(4 * k + 2);
        }
        if four[3].wrapping_sub(low) <= span {
            try_rest(4 * k + 3);
        }
    }
    for (k, y) in left.iter().enumerate() {
        if y.wrapping_sub(low) <= span {
            try_rest(4 * fours.len() + k);
        }
    }
    found.told()
}

/// The same job as one would write it first: the definition of a place, window by window.
pub fn straightforward(points: &[u8], delta: u32, gamma: u32, recording: &[u8], list: &mut [u32], sums: &mut [u16]) -> (usize, u32) {
    let mut found = Found::none(list, sums);
    for (s, window) in recording.windows(points.len()).enumerate() {
        if let Some(sum) = sum_of_place(points, delta, gamma, window) {
            found.note(s, sum);
        }
    }
    found.told()
}

/// The sum of a window that is a place.
fn sum_of_place(points: &[u8], delta: u32, gamma: u32, window: &[u8]) -> Option<u32> {
    let mut sum = 0;
    for (x, y) in points.iter().zip(window) {
        let difference = u32::from(x.abs_diff(*y));
        if difference > delta || *y == 0 {
            return None;
        }
        sum += difference;
    }
    (sum <= gamma).then_some(sum)
}
