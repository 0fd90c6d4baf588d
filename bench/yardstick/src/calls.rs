//! Calls: queries, Create's table, and what each effect does.

use crate::answer::Answer;
use crate::limits::{CELL_RECORD, CELLS};
use crate::machine::{FAILED, LOCKED, Machine, Phase, ROOT, RUNNING, SHUT_DOWN, STATE, ids, members};
use crate::regions::SHARED;
use crate::waiting::Kind;

/// Queries give the low 31 bits.
const LOW: u32 = i32::MAX as u32;

impl Machine {
    pub fn by_code(&mut self, cpu: usize, owner: usize, code: u32, a1: u64, a2: u64, record: &[u8]) -> Answer {
        let result = match code {
            8.. => Err(-38),
            5 => self.get_info(a1),
            7 => self.cpu_get_info(owner, a1, a2),
            _ if owner != ROOT => Err(-1),
            6 => self.get_state(a1),
            1 => match self.create(cpu, record) {
                Ok(id) => return self.tell(Kind::Create, id),
                Err(code) => Err(code),
            },
            0 => return self.ask(Kind::Disable, ROOT),
            2 => return self.ask_cell(Kind::Start, a1),
            3 => return self.ask_cell(Kind::SetLoadable, a1),
            4 => return self.ask_cell(Kind::Destroy, a1),
        };
        Answer::Code(result.unwrap_or_else(|refusal| refusal))
    }

    fn get_info(&self, kind: u64) -> Result<i32, i32> {
        match kind {
            0 => Ok(low(self.system.pool)),
            1 => Ok(low(self.pool_used)),
            2 => Ok(low(self.system.remap)),
            3 => Ok(low(self.system.remap_used)),
            4 => Ok(self.live.count_ones() as i32),
            _ => Err(-22),
        }
    }

    fn get_state(&self, id: u64) -> Result<i32, i32> {
        if !self.is_live(id) {
            return Err(-2);
        }
        if id == ROOT as u64 {
            return Ok(0);
        }
        match self.cells[id as usize].words[STATE] {
            RUNNING | LOCKED => Ok(0),
            SHUT_DOWN => Ok(1),
            FAILED => Ok(2),
            _ => Err(-22),
        }
    }

    fn cpu_get_info(&self, owner: usize, cpu: u64, kind: u64) -> Result<i32, i32> {
        if !self.has_cpu(cpu) {
            return Err(-22);
        }
        if owner != ROOT && self.owners[cpu as usize] as usize != owner {
            return Err(-1);
        }
        match kind {
            0 => Ok(if self.failed >> cpu & 1 != 0 { 2 } else { 0 }),
            1000..=1005 => Ok(low(self.counters[cpu as usize][kind as usize - 1000])),
            _ => Err(-22),
        }
    }

    /// Start, Set Loadable and Destroy up to the asking.
    fn ask_cell(&mut self, kind: Kind, id: u64) -> Answer {
        if id == ROOT as u64 {
            return Answer::Code(-22);
        }
        if !self.is_live(id) {
            return Answer::Code(-2);
        }
        let target = id as usize;
        if kind == Kind::Destroy && self.is_locked(target) {
            return Answer::Code(-1);
        }
        self.ask(kind, target)
    }

    /// Create's refusals in their order, then its effect.
    fn create(&mut self, cpu: usize, record: &[u8]) -> Result<usize, i32> {
        if self.is_locked(ROOT) {
            return Err(-1);
        }
        if record.len() > CELL_RECORD {
            return Err(-7);
        }
        self.draft.read(record, &self.system).ok_or(-22)?;
        if self.draft.cpus & !self.system.cpus != 0 {
            return Err(-22);
        }
        if self.has_name() {
            return Err(-17);
        }
        if self.draft.cpus >> cpu & 1 != 0 || self.wants_cpu() || self.meets_cell() {
            return Err(-16);
        }
        let id = (!self.live).trailing_zeros() as usize;
        let used = self.pool_used + cost(self.draft.regions().len());
        if id == CELLS || used > self.system.pool {
            return Err(-12);
        }
        self.pool_used = used;
        self.add(id);
        Ok(id)
    }

    /// Whether the draft's name is in use, root's included.
    fn has_name(&self) -> bool {
        let name = &self.draft.name;
        *name == self.system.name || ids(self.live).any(|id| id != ROOT && self.cells[id].record.name == *name)
    }

    /// Whether the draft wants a CPU that is not root's.
    fn wants_cpu(&self) -> bool {
        members(self.draft.cpus).any(|cpu| self.owners[cpu] as usize != ROOT)
    }

    /// Whether a region of the draft physically meets one of a live cell, unless both are shared.
    fn meets_cell(&self) -> bool {
        let draft = self.draft.regions();
        let cells = ids(self.live).filter(|&id| id != ROOT);
        cells.map(|id| self.cells[id].record.regions()).any(|regions| {
            draft.iter().any(|a| regions.iter().any(|b| a.physical.overlaps(&b.physical) && a.flags & b.flags & SHARED == 0))
        })
    }

    /// "CPUs leave root, stopped, unfailed, counters zero; phase suspended; state 2, messages 0."
    fn add(&mut self, id: usize) {
        let cell = &mut self.cells[id];
        cell.record.copy_from(&self.draft);
        cell.words = [0, 0, SHUT_DOWN];
        cell.phase = Phase::Suspended;
        self.live |= 1 << id;
        self.stopped |= self.draft.cpus;
        self.give(self.draft.cpus, id);
    }

    /// CPUs change their owner: unfailed, counters zero.
    fn give(&mut self, cpus: u64, owner: usize) {
        self.failed &= !cpus;
        for cpu in members(cpus) {
            self.owners[cpu] = owner as u8;
            self.counters[cpu] = Default::default();
        }
    }

    /// "all three words 0, CPUs running and unfailed, phase started"
    pub fn start(&mut self, id: usize) {
        let cell = &mut self.cells[id];
        cell.words = [0; 3];
        cell.phase = Phase::Started;
        self.stopped &= !cell.record.cpus;
        self.failed &= !cell.record.cpus;
    }

    /// "CPUs stopped (failed marks stay), state 2, phase loading"
    pub fn set_loadable(&mut self, id: usize) {
        let cell = &mut self.cells[id];
        cell.words[STATE] = SHUT_DOWN;
        cell.phase = Phase::Loading;
        self.stopped |= cell.record.cpus;
    }

    /// "pool given back, CPUs to root, running, unfailed, counters zero; the ID and its room are free again"
    pub fn destroy(&mut self, id: usize) {
        let record = &self.cells[id].record;
        let cpus = record.cpus;
        self.pool_used -= cost(record.regions().len());
        self.live &= !(1 << id);
        self.stopped &= !cpus;
        self.give(cpus, ROOT);
    }

    /// "all cells destroyed, then off"
    pub fn disable(&mut self) {
        for id in ids(self.live).filter(|&id| id != ROOT) {
            self.destroy(id);
        }
        self.on = false;
    }
}

/// What a cell takes of the pool.
fn cost(regions: usize) -> u32 {
    2 + regions as u32
}

fn low(number: u32) -> i32 {
    (number & LOW) as i32
}

#[cfg(test)]
mod tests {
    use super::*;
    use crate::limits::CPUS;
    use crate::system_record::System;

    /// A machine of 64 CPUs, with a raw value in the counter of CPU 1's MMIO exits and in its total.
    fn with_counter(value: u32) -> Box<Machine> {
        let mut record = [0; 128];
        record[..8].copy_from_slice(b"TSS\0\x01\0\x01\0");
        record[8] = b'a';
        record[40..48].fill(255);
        record[48] = CPUS as u8;
        record[57] = 0x10;
        record[65] = 0x10;
        record[113] = 0x10;
        record[120] = 1;
        let Ok(system) = System::read(&record) else { panic!("the record is refused") };
        let mut machine = Machine::new(system);
        machine.counters[1][0] = value;
        machine.counters[1][1] = value;
        machine
    }

    /// The total of CPU 1 before and after one MMIO exit.
    fn before_and_after(value: u32) -> [i32; 2] {
        let mut machine = with_counter(value);
        let before = machine.cpu_get_info(ROOT, 1, 1000).unwrap();
        assert!(machine.exit(1, 0).is_ok());
        assert_eq!(machine.cpu_get_info(ROOT, 1, 1000), machine.cpu_get_info(ROOT, 1, 1001));
        [before, machine.cpu_get_info(ROOT, 1, 1000).unwrap()]
    }

    #[test]
    fn queries_give_the_low_31_bits() {
        assert_eq!(before_and_after(0x7fff_ffff), [0x7fff_ffff, 0]);
        assert_eq!(before_and_after(0x8000_0000), [0, 1]);
    }

    #[test]
    fn counters_go_round_to_zero() {
        assert_eq!(before_and_after(0xffff_ffff), [0x7fff_ffff, 0]);
    }
}
