//! The rows of the table: which profile is searched for in which recording. They are the same in every run.

pub const READINGS: usize = 1_000_000;
pub const WIDE: u32 = 16_320;

/// One line of the table.
pub struct Row<'a> {
    pub name: &'a str,
    pub points: Vec<u8>,
    pub delta: u32,
    pub gamma: u32,
    pub recording: &'a [u8],
}

impl Row<'_> {
    /// How many words packed's counters need: each has 1 + b bits, b the least with 2^b > g, and none is split over two words.
    pub fn words(&self) -> u32 {
        let m = self.points.len() as u32;
        let g = self.gamma.min(m * self.delta.min(self.gamma));
        let b = (0..).find(|b| 1 << b > g).unwrap();
        m.div_ceil(64 / (1 + b))
    }
}

pub struct Recordings {
    random: Vec<u8>,
    smooth: Vec<u8>,
    constant: Vec<u8>,
}

impl Recordings {
    pub fn new() -> Recordings {
        Recordings { random: random_recording(), smooth: smooth_recording(), constant: vec![100; READINGS] }
    }

    pub fn rows(&self) -> Vec<Row<'_>> {
        let mut rows = Vec::new();
        for (name, recording) in [("random", &self.random), ("smooth", &self.smooth)] {
            // the profile is a window of the recording, so there is a place; neither recording has a 0 there, which would be refused
            let row = |m: usize, delta, gamma| {
                let points = recording[READINGS / 2..READINGS / 2 + m].to_vec();
                Row { name, points, delta, gamma, recording }
            };
            for (delta, small) in [(5, false), (5, true), (20, false), (20, true)] {
                rows.extend([8, 10, 20, 64].map(|m| row(m, delta, if small { 2 * m as u32 } else { WIDE })));
            }
            // two words of counters, which they fill; and 16, the most there are, where readings are far, and where sums alone decide
            rows.extend([row(20, 5, 20), row(64, 160, 8_192), row(64, 255, 4_096)]);
        }
        for m in [8, 20, 64] {
            rows.extend(self.worst_cases(m));
        }
        rows
    }

    /// Short recordings, where the tables take a greater part of a search's time: the middle of the random one, so that the profile is that of its rows.
    pub fn short_rows(&self) -> Vec<Row<'_>> {
        let mut rows = Vec::new();
        for (name, n) in [("random, 1,000 readings", 1_000), ("random, 12,000 readings", 12_000)] {
            let recording = &self.random[(READINGS - n) / 2..(READINGS + n) / 2];
            rows.extend([(8, 5), (10, 5), (20, 5), (64, 5), (8, 20), (64, 20)].map(|(m, delta)| {
                let points = recording[n / 2..n / 2 + m].to_vec();
                Row { name, points, delta, gamma: WIDE, recording }
            }));
        }
        rows
    }

    /// The profile of the random rows, and the random recording with the profile at `place` alone, or nowhere.
    pub fn planted(&self, m: usize, place: Option<usize>) -> (Vec<u8>, Vec<u8>) {
        let mut recording = self.random.clone();
        let middle = &mut recording[READINGS / 2..READINGS / 2 + m];
        let points = middle.to_vec();
        // each reading half the range away from its point
        middle.iter_mut().for_each(|y| *y ^= 128);
        if let Some(s) = place {
            recording[s..s + m].copy_from_slice(&points);
        }
        (points, recording)
    }

    /// Every window a place, with wide tolerances and with none; the last point, then the first, never near; all near with a sum of 2.
    fn worst_cases(&self, m: usize) -> [Row<'_>; 5] {
        let all = vec![100; m];
        let with = |changed: &[usize], reading: u8| {
            let mut points = all.clone();
            changed.iter().for_each(|at| points[*at] = reading);
            points
        };
        [
            ("constant, all places", all.clone(), 5, WIDE),
            ("constant, all places", all.clone(), 0, 0),
            ("constant, last point far", with(&[m - 1], 200), 5, WIDE),
            ("constant, first point far", with(&[0], 200), 5, WIDE),
            ("constant, sum one too large", with(&[m / 2, m - 1], 101), 1, 1),
        ]
        .map(|(name, points, delta, gamma)| Row { name, points, delta, gamma, recording: &self.constant })
    }
}

/// xorshift64*: the same recordings in every run.
struct Random(u64);

impl Random {
    fn next(&mut self) -> u32 {
        self.0 ^= self.0 >> 12;
        self.0 ^= self.0 << 25;
        self.0 ^= self.0 >> 27;
        (self.0.wrapping_mul(0x2545_f491_4f6c_dd1d) >> 32) as u32
    }
}

fn random_recording() -> Vec<u8> {
    let mut random = Random(1);
    (0..READINGS).map(|_| random.next() as u8).collect()
}

/// Steps of -4 to 4, held at 0 and 255; the zeros are readings without contact, as in the random recording.
fn smooth_recording() -> Vec<u8> {
    let mut random = Random(2);
    let mut level = 128;
    (0..READINGS)
        .map(|_| {
            level = (level + (random.next() % 9) as i32 - 4).clamp(0, 255);
            level as u8
        })
        .collect()
}
