//! Replays a log: reads `system.tss` in the current folder and lines from standard input, and prints boot's answer and an
//! answer for each line. README.md says what it is for.

mod answer;
mod bytes;
mod calls;
mod cell_record;
mod limits;
mod lines;
mod machine;
mod regions;
mod system_record;
mod waiting;

use answer::{LONGEST, Text};
use limits::LINE;
use lines::Record;
use machine::Machine;
use std::fs::File;
use std::io::{self, Read, StdoutLock, Write};
use std::process::ExitCode;
use system_record::System;

/// The log is read, and the answers are written, in pieces of this size.
const PIECE: usize = 64 * 1024;

fn main() -> ExitCode {
    let mut replay = Replay::new();
    let booted = System::read(&read_system());
    replay.text.put_number(b"boot ", booted.as_ref().err().copied().unwrap_or(0));
    let read = booted.map_or(Ok(()), |system| replay.all(&mut Machine::new(system)));
    match replay.write().and(read) {
        Ok(()) => ExitCode::SUCCESS,
        Err(error) => {
            eprintln!("yardstick: {error}");
            ExitCode::FAILURE
        }
    }
}

/// The system record; a file that is missing or cannot be read is an empty one.
fn read_system() -> Vec<u8> {
    let mut bytes = Vec::new();
    let read = File::open("system.tss").and_then(|file| file.take(PIECE as u64).read_to_end(&mut bytes));
    if let Err(error) = read {
        eprintln!("yardstick: system.tss: {error}");
        bytes.clear();
    }
    bytes
}

struct Replay {
    out: StdoutLock<'static>,
    text: Text,
    record: Box<Record>,
}

impl Replay {
    fn new() -> Replay {
        Replay { out: io::stdout().lock(), text: Text::with_room(PIECE), record: Box::new([0; _]) }
    }

    /// Every line of standard input. Of a line that a piece cuts, the bytes so far are kept, at most one more than a line may
    /// have: it is malformed then, whatever follows.
    fn all(&mut self, machine: &mut Machine) -> io::Result<()> {
        let mut input = io::stdin().lock();
        let mut piece = vec![0; LINE + 1 + PIECE];
        let mut kept = 0;
        loop {
            let got = input.read(&mut piece[kept..kept + PIECE])?;
            if got == 0 {
                break;
            }
            let end = kept + got;
            let whole = piece[kept..end].iter().rposition(|&b| b == b'\n').map_or(0, |at| kept + at + 1);
            self.lines(machine, &piece[..whole])?;
            kept = (end - whole).min(LINE + 1);
            piece.copy_within(whole..whole + kept, 0);
        }
        if kept > 0 {
            piece[kept] = b'\n';
            self.lines(machine, &piece[..=kept])?;
        }
        Ok(())
    }

    /// Lines that all have their line feed.
    fn lines(&mut self, machine: &mut Machine, mut log: &[u8]) -> io::Result<()> {
        while !log.is_empty() {
            let (event, rest) = lines::next(log, &mut self.record);
            let answer = machine.step(event, &self.record[..]);
            self.text.put_answer(answer);
            if self.text.room() < LONGEST {
                self.write()?;
            }
            log = rest;
        }
        Ok(())
    }

    fn write(&mut self) -> io::Result<()> {
        self.out.write_all(self.text.take())?;
        self.out.flush()
    }
}
