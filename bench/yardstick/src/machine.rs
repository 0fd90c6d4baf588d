//! The machine, and what each event makes of it in place.

use crate::answer::Answer;
use crate::cell_record::CellRecord;
use crate::limits::{CELLS, CPUS};
use crate::lines::Event;
use crate::system_record::System;
use crate::waiting::Waiting;

pub const ROOT: usize = 0;

/// The communication words of a cell, by number.
pub const TO: usize = 0;
pub const FROM: usize = 1;
pub const STATE: usize = 2;

/// Values of the state word; the other ones are not named.
pub const RUNNING: u32 = 0;
pub const LOCKED: u32 = 1;
pub const SHUT_DOWN: u32 = 2;
pub const FAILED: u32 = 3;

/// Counters of a CPU: the total, one for each kind of exit, and calls.
const KINDS: usize = 4;
const CALLS: usize = KINDS + 1;
pub type Counters = [u32; CALLS + 1];

/// No answer of a replay shows it.
#[derive(Clone, Copy)]
pub enum Phase {
    Suspended,
    Loading,
    Started,
}

#[derive(Clone)]
pub struct Cell {
    pub words: [u32; 3],
    #[allow(dead_code)]
    pub phase: Phase,
    pub record: CellRecord,
}

impl Cell {
    const NONE: Cell = Cell { words: [0; 3], phase: Phase::Suspended, record: CellRecord::NONE };

    pub fn is_final(&self) -> bool {
        matches!(self.words[STATE], SHUT_DOWN | FAILED)
    }
}

pub struct Machine {
    pub on: bool,
    pub system: System,
    pub pool_used: u32,
    /// A bit for each live cell, root's bit 0 among them.
    pub live: u16,
    /// A bit for each CPU that is stopped, and for each that has failed.
    pub stopped: u64,
    pub failed: u64,
    pub owners: [u8; CPUS],
    pub counters: [Counters; CPUS],
    pub waiting: Option<Waiting>,
    pub cells: [Cell; CELLS],
    /// The record that a Create reads.
    pub draft: CellRecord,
}

impl Machine {
    /// An accepted start.
    pub fn new(system: System) -> Box<Machine> {
        Box::new(Machine {
            on: true,
            pool_used: system.pool_used,
            system,
            live: 1,
            stopped: 0,
            failed: 0,
            owners: [ROOT as u8; CPUS],
            counters: [[0; CALLS + 1]; CPUS],
            waiting: None,
            cells: [const { Cell::NONE }; CELLS],
            draft: CellRecord::NONE,
        })
    }

    /// One event; `record` has the bytes that a Create was given.
    pub fn step(&mut self, event: Event, record: &[u8]) -> Answer {
        if !self.on {
            return Answer::Off;
        }
        let answer = match event {
            Event::Call { cpu, code, a1, a2 } => self.call(cpu, code, a1, a2, &[]),
            Event::Create { cpu, len } => self.call(cpu, 1, 0, 0, &record[..len]),
            Event::Store { cpu, word, value } => self.store(cpu, word, value),
            Event::Fault { cpu } => self.fault(cpu),
            Event::Exit { cpu, kind } => self.exit(cpu, kind),
            Event::Poll => return self.poll(),
            Event::Malformed => return Answer::Bad,
        };
        answer.unwrap_or_else(|word| word)
    }

    /// The CPU of an event and its owner, unless the event is bad, stopped or held, in this order.
    pub fn obeyed(&self, cpu: u64) -> Result<(usize, usize), Answer> {
        if !self.has_cpu(cpu) {
            return Err(Answer::Bad);
        }
        if (self.stopped | self.failed) >> cpu & 1 != 0 {
            return Err(Answer::Stopped);
        }
        let cpu = cpu as usize;
        let owner = self.owners[cpu] as usize;
        if owner == ROOT && self.waiting.is_some() {
            return Err(Answer::Held);
        }
        Ok((cpu, owner))
    }

    pub fn has_cpu(&self, cpu: u64) -> bool {
        cpu < CPUS as u64 && self.system.cpus >> cpu & 1 != 0
    }

    fn count(&mut self, cpu: usize, counter: usize) {
        let counters = &mut self.counters[cpu];
        counters[counter] = counters[counter].wrapping_add(1);
        counters[0] = counters[0].wrapping_add(1);
    }

    fn call(&mut self, cpu: u64, code: u32, a1: u64, a2: u64, record: &[u8]) -> Result<Answer, Answer> {
        let (cpu, owner) = self.obeyed(cpu)?;
        self.count(cpu, CALLS);
        Ok(self.by_code(cpu, owner, code, a1, a2, record))
    }

    pub fn exit(&mut self, cpu: u64, kind: u64) -> Result<Answer, Answer> {
        if kind >= KINDS as u64 {
            return Err(Answer::Bad);
        }
        let (cpu, _) = self.obeyed(cpu)?;
        self.count(cpu, 1 + kind as usize);
        Ok(Answer::Done)
    }

    fn store(&mut self, cpu: u64, word: u64, value: u32) -> Result<Answer, Answer> {
        let (_, owner) = self.obeyed(cpu)?;
        let cell = &mut self.cells[owner];
        if !cell.record.has_comm || word > STATE as u64 || (word == STATE as u64 && cell.is_final()) {
            return Err(Answer::Denied);
        }
        cell.words[word as usize] = value;
        Ok(Answer::Done)
    }

    fn fault(&mut self, cpu: u64) -> Result<Answer, Answer> {
        let (cpu, owner) = self.obeyed(cpu)?;
        self.failed |= 1 << cpu;
        let cell = &mut self.cells[owner];
        if owner != ROOT && cell.record.cpus & !self.failed == 0 && !cell.is_final() {
            cell.words[STATE] = FAILED;
        }
        Ok(Answer::Done)
    }

    /// Whether a live non-root cell other than `beside` has state 1.
    pub fn is_locked(&self, beside: usize) -> bool {
        ids(self.live).any(|id| id != ROOT && id != beside && self.cells[id].words[STATE] == LOCKED)
    }

    pub fn is_live(&self, id: u64) -> bool {
        id < CELLS as u64 && self.live >> id & 1 != 0
    }
}

/// The numbers in a set, rising.
pub fn ids(set: u16) -> impl Iterator<Item = usize> {
    members(set as u64)
}

/// The numbers in a set, rising.
pub fn members(mut set: u64) -> impl Iterator<Item = usize> {
    std::iter::from_fn(move || {
        let first = set.trailing_zeros() as usize;
        set &= set.checked_sub(1)?;
        Some(first)
    })
}
