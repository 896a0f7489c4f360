//! Talks to bench/whole_arrays.py, which searches with NumPy in a process of its own and takes the time of each search there, so that
//! neither the pipe nor the copies are in it. Numbers go over the pipe low byte first.
use crate::rows::Row;
use std::io::{self, BufReader, Read, Write};
use std::process::{ChildStdin, ChildStdout, Command, Stdio};
use std::time::Duration;

/// The process ends by itself when its input does, which is when this is dropped.
pub struct Numpy {
    to: ChildStdin,
    from: BufReader<ChildStdout>,
}

impl Numpy {
    /// Starts a command: the Python that has NumPy, and the script.
    pub fn start(command: &[String]) -> io::Result<Numpy> {
        let mut process = Command::new(&command[0]).args(&command[1..]).stdin(Stdio::piped()).stdout(Stdio::piped()).spawn()?;
        let (to, from) = (process.stdin.take().unwrap(), process.stdout.take().unwrap());
        Ok(Numpy { to, from: BufReader::new(from) })
    }

    /// Sends a row's points and recording, which the searches after this are for.
    pub fn meet(&mut self, row: &Row) -> io::Result<()> {
        self.to.write_all(b"r")?;
        for number in [row.delta, row.gamma, row.points.len() as u32, row.recording.len() as u32] {
            self.to.write_all(&number.to_le_bytes())?;
        }
        self.to.write_all(&row.points)?;
        self.to.write_all(row.recording)
    }

    /// One search of the row: the total of places, and the time that Python measured.
    pub fn search(&mut self, list: &mut [u32]) -> io::Result<(usize, Duration)> {
        self.to.write_all(b"s")?;
        let mut nanoseconds = [0; 8];
        self.from.read_exact(&mut nanoseconds)?;
        let total = self.number()? as usize;
        for k in 0..total {
            let place = self.number()?;
            if let Some(entry) = list.get_mut(k) {
                *entry = place;
            }
        }
        Ok((total, Duration::from_nanos(u64::from_le_bytes(nanoseconds))))
    }

    fn number(&mut self) -> io::Result<u32> {
        let mut bytes = [0; 4];
        self.from.read_exact(&mut bytes)?;
        Ok(u32::from_le_bytes(bytes))
    }
}
