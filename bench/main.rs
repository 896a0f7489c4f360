//! Measures the five searchers, through the C boundary, against the two programs of rivals.rs and, where there is one, a Python with
//! NumPy; built with `--cfg earlier`, also against the searchers of an earlier revision. It prints a table. Every answer, total, least sum and
//! both whole lists, is held to the straightforward program's; a difference ends the bench with status 1. NumPy tells no sums, and neither do
//! the searchers before request #107, for which `--cfg earlier_without_sums` is given. Times are the minimum over interleaved rounds: each
//! round runs every program once, after clearing the lists and reading the recording once for each. A second table has short recordings,
//! without NumPy, and a third, of first.rs, `first` beside `last`.
//! The arguments are the number of rounds and, for NumPy, the command that starts bench/whole_arrays.py; or `first` and the number of rounds,
//! for the third table alone.
mod first;
mod numpy;
mod rivals;
mod rows;

use numpy::Numpy;
use rows::{Recordings, Row};
use std::hint::black_box;
use std::time::{Duration, Instant};

/// The total of places and the least sum, 0 from a program that tells no sums; or the number of a refusal.
type Answer = Result<(usize, u32), u32>;

/// How a program is run.
enum Program {
    Here(fn(&[u8], u32, u32, &[u8], &mut [u32], &mut [u16]) -> Answer),
    Python(Numpy),
}

/// What is measured. A searcher of the earlier revision stands directly before the searcher of today, and they share a column.
struct Contender {
    name: &'static str,
    earlier: bool,
    tells_sums: bool,
    program: Program,
}

/// The straightforward program comes first, because the others are held to its answers; ratios are to the second.
const STRAIGHTFORWARD: usize = 0;
const EARLY_EXIT: usize = 1;

/// A searcher of today and, where it is linked, the earlier one. The two libraries have types of their own, so this is no function.
macro_rules! searcher {
    ($contenders:ident, $name:ident) => {
        #[cfg(all(earlier, earlier_without_sums))]
        $contenders.push(Contender {
            name: stringify!($name),
            earlier: true,
            tells_sums: false,
            program: Program::Here(|points, delta, gamma, recording, list, _| {
                let got = earlier::$name(points, delta, gamma, recording, list);
                if got.refusal == 0 { Ok((got.total, 0)) } else { Err(got.refusal) }
            }),
        });
        #[cfg(all(earlier, not(earlier_without_sums)))]
        $contenders.push(searcher!(earlier, $name, true));
        $contenders.push(searcher!(jilbaroof, $name, false));
    };
    ($library:ident, $name:ident, $earlier:literal) => {
        Contender {
            name: stringify!($name),
            earlier: $earlier,
            tells_sums: true,
            program: Program::Here(|points, delta, gamma, recording, list, sums| {
                let got = $library::$name(points, delta, gamma, recording, list, sums);
                if got.refusal == 0 { Ok((got.total, got.least)) } else { Err(got.refusal) }
            }),
        }
    };
}

fn contenders(numpy: Option<Numpy>) -> Vec<Contender> {
    let rival = |name, tells_sums, program| Contender { name, earlier: false, tells_sums, program };
    let mut all = vec![
        rival("straightforward", true, Program::Here(|x, d, g, y, list, sums| Ok(rivals::straightforward(x, d, g, y, list, sums)))),
        rival("early exit", true, Program::Here(|x, d, g, y, list, sums| Ok(rivals::early_exit(x, d, g, y, list, sums)))),
    ];
    all.extend(numpy.map(|numpy| rival("NumPy", false, Program::Python(numpy))));
    searcher!(all, plain);
    searcher!(all, packed);
    searcher!(all, last);
    searcher!(all, skip);
    searcher!(all, maximal);
    all
}

/// One call and the time that it took, after the recording was read once.
fn timed<T>(recording: &[u8], call: impl FnOnce() -> T) -> (T, Duration) {
    black_box(recording.iter().map(|y| u64::from(*y)).sum::<u64>());
    let start = Instant::now();
    let got = call();
    (got, start.elapsed())
}

impl Program {
    /// Tells a program in another process of a row, once.
    fn meet(&mut self, row: &Row) {
        if let Program::Python(numpy) = self {
            numpy.meet(row).expect("NumPy takes the row");
        }
    }

    /// One search, and the time that it took.
    fn search(&mut self, row: &Row, list: &mut [u32], sums: &mut [u16]) -> (Answer, Duration) {
        match self {
            Program::Here(program) => {
                let (points, recording) = (black_box(&row.points[..]), black_box(row.recording));
                timed(recording, || program(points, row.delta, row.gamma, recording, black_box(list), black_box(sums)))
            }
            Program::Python(numpy) => {
                let (total, took) = numpy.search(list).expect("NumPy answers");
                (Ok((total, 0)), took)
            }
        }
    }
}

/// Ends the bench: a program answered something else.
fn fail(row: &Row, contender: &Contender, what: &str) -> ! {
    let which = if contender.earlier { "the earlier " } else { "" };
    let (name, m) = (contender.name, row.points.len());
    eprintln!("bench: WRONG: {which}{name}, {} readings, m = {m}, delta {}, gamma {}: {what}", row.name, row.delta, row.gamma);
    std::process::exit(1);
}

/// What the straightforward program answered, with its lists.
#[derive(Default)]
struct Right {
    total: usize,
    least: u32,
    list: Vec<u32>,
    sums: Vec<u16>,
}

impl Right {
    /// Ends the bench where another program answered something else.
    fn hold(&self, row: &Row, contender: &Contender, got: Answer, list: &[u32], sums: &[u16]) {
        let answer = Ok((self.total, if contender.tells_sums { self.least } else { 0 }));
        if got != answer {
            fail(row, contender, &format!("{got:?}, and {answer:?} is right"));
        }
        if list != self.list {
            fail(row, contender, "another list");
        }
        if contender.tells_sums && sums != self.sums {
            fail(row, contender, "other sums");
        }
    }
}

/// The total of places, and the shortest time of each program; none for an earlier packed that is refused.
fn measure(row: &Row, rounds: usize, contenders: &mut [Contender]) -> (usize, Vec<Option<Duration>>) {
    let n = row.recording.len();
    let (mut list, mut sums) = (vec![0; n], vec![0; n]);
    let mut right = Right::default();
    let mut best = vec![None; contenders.len()];
    contenders.iter_mut().for_each(|contender| contender.program.meet(row));
    for round in 0..rounds {
        for (k, contender) in contenders.iter_mut().enumerate() {
            list.fill(0);
            sums.fill(0);
            let (got, took) = contender.program.search(row, &mut list, &mut sums);
            if k == STRAIGHTFORWARD && round == 0 {
                let (total, least) = got.unwrap();
                right = Right { total, least, list: list.clone(), sums: sums.clone() };
            }
            // until request #104 packed had one word, and refused by 4 what does not fit it; the list stays as it was
            if contender.earlier && contender.name == "packed" && got == Err(4) && row.words() > 1 && list.iter().all(|entry| *entry == 0) {
                continue;
            }
            right.hold(row, contender, got, &list, &sums);
            best[k] = Some(best[k].map_or(took, |least: Duration| least.min(took)));
        }
    }
    (right.total, best)
}

/// How the early-exit program's time is told: a unit's name, and how many of it are a second.
struct Unit(&'static str, f64);

/// A line of the table: the early-exit program's own time, every other as its ratio to that, the earlier searcher's first.
fn print(row: &Row, total: usize, contenders: &[Contender], best: &[Option<Duration>], unit: &Unit) {
    let base = best[EARLY_EXIT].unwrap().as_secs_f64();
    print!("| {} | {} | {} | {} | {} |", row.name, row.points.len(), row.delta, row.gamma, row.words());
    print!(" {total} | {:.3} |", base * unit.1);
    for (k, (contender, time)) in contenders.iter().zip(best).enumerate() {
        let ratio = time.map(|time| time.as_secs_f64() / base);
        match ratio {
            _ if k == EARLY_EXIT => {}
            Some(ratio) if contender.earlier => print!(" {ratio:.2} →"),
            Some(ratio) => print!(" {ratio:.2} |"),
            // only an earlier packed is refused
            None => print!(" refused 4 →"),
        }
    }
    println!();
}

/// Prints the table's head.
fn head(contenders: &[Contender], unit: &Unit) {
    let exit = format!("early exit, {}", unit.0);
    let mut columns = vec!["recording", "m", "delta", "gamma", "words", "places", &exit];
    for (k, contender) in contenders.iter().enumerate() {
        if k != EARLY_EXIT && !contender.earlier {
            columns.push(contender.name);
        }
    }
    println!("| {} |", columns.join(" | "));
    println!("|{}", "---|".repeat(columns.len()));
}

/// Prints a table of all searchers.
fn table(rows: &[Row], rounds: usize, contenders: &mut [Contender], unit: Unit) {
    head(contenders, &unit);
    for row in rows {
        let (total, best) = measure(row, rounds, contenders);
        print(row, total, contenders, &best, &unit);
    }
    println!();
}

fn main() {
    let arguments: Vec<String> = std::env::args().skip(1).collect();
    let alone = arguments.first().is_some_and(|word| word == "first");
    let (rounds, command) = arguments[usize::from(alone)..].split_first().expect("a number of rounds");
    let rounds = rounds.parse().expect("a number of rounds");
    let recordings = Recordings::new();
    if !alone {
        let numpy = (!command.is_empty()).then(|| Numpy::start(command).expect("Python starts"));
        table(&recordings.rows(), rounds, &mut contenders(numpy), Unit("ms", 1e3));
        // a call of microseconds needs more of them
        table(&recordings.short_rows(), rounds * 50, &mut contenders(None), Unit("µs", 1e6));
    }
    first::table(&recordings, rounds);
}
