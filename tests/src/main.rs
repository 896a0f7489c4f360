//! The independent reference: it makes cases, says what the program `trial` must print for them, and shows a difference.

#![forbid(unsafe_code)]

mod cases;
mod frames;
mod reference;

use std::fs;
use std::io::{self, BufWriter, Write};
use std::process::ExitCode;

const USAGE: &str = "usage: trial-reference cases COUNT SEED > FRAMES
       trial-reference answers < FRAMES
       trial-reference differences FRAMES OUTPUT";

fn main() -> ExitCode {
    let arguments: Vec<String> = std::env::args().skip(1).collect();
    let words: Vec<&str> = arguments.iter().map(String::as_str).collect();
    let done = match words[..] {
        ["cases", count, seed] => match (count.parse(), seed.parse()) {
            (Ok(count), Ok(seed)) => write_cases(count, seed).map(|()| true),
            _ => usage(),
        },
        ["answers"] => write_answers().map(|()| true),
        ["differences", frames, output] => count_differences(frames, output),
        _ => usage(),
    };
    match done {
        Ok(true) => ExitCode::SUCCESS,
        Ok(false) => ExitCode::from(1),
        Err(error) => {
            eprintln!("trial-reference: {error}");
            ExitCode::from(2)
        }
    }
}

fn usage() -> io::Result<bool> {
    Err(io::Error::other(USAGE))
}

fn write_cases(count: usize, seed: u64) -> io::Result<()> {
    let mut out = BufWriter::new(io::stdout().lock());
    for case in cases::cases(count, seed) {
        frames::write_frame(&case, &mut out)?;
    }
    out.flush()
}

fn write_answers() -> io::Result<()> {
    let mut out = BufWriter::new(io::stdout().lock());
    for case in frames::read_frames(&mut io::stdin().lock())? {
        for line in frames::answers(&case) {
            writeln!(out, "{line}")?;
        }
    }
    out.flush()
}

/// Shows the first case and line that differ, and counts the cases that do; the last line is the count. True if there is none.
fn count_differences(frames_path: &str, output_path: &str) -> io::Result<bool> {
    let cases = frames::read_frames(&mut fs::File::open(frames_path)?)?;
    let bytes = fs::read(output_path)?;
    let output = String::from_utf8_lossy(&bytes);
    // what stands behind the last line end is a line of its own, which must be empty
    let lines: Vec<&str> = output.split('\n').collect();
    let mut differences = 0;
    for (number, case) in cases.iter().enumerate() {
        let expected = frames::answers(case);
        let line = |k: usize| lines.get(number * frames::LINES + k).copied().unwrap_or("(no line)");
        if let Some(k) = (0..frames::LINES).find(|&k| line(k) != expected[k]) {
            if differences == 0 {
                println!("case {number} (counted from 0), line {k} of its {}:\n{}", frames::LINES, frames::describe(case));
                show("expected", &expected[k], line(k));
                show("printed", line(k), &expected[k]);
            }
            differences += 1;
        }
    }
    if lines.len() > cases.len() * frames::LINES + 1 {
        println!("the output goes on behind the last case");
        differences += 1;
    } else if differences == 0 && lines.last() != Some(&"") {
        println!("the last line does not end");
        differences += 1;
    }
    println!("{} cases, {differences} differences", cases.len());
    Ok(differences == 0)
}

/// A line from the first word in which it differs from another, with that word's number.
fn show(title: &str, line: &str, other: &str) {
    let words: Vec<&str> = line.split(' ').collect();
    let same = words.iter().zip(other.split(' ')).take_while(|(one, two)| *one == two).count();
    let rest = &words[same.min(words.len())..];
    let some = rest[..rest.len().min(12)].join(" ");
    println!("  {title}: {} .. from word {same} (counted from 0): {some}", words[0]);
}
