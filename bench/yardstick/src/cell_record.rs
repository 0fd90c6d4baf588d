//! The cell record.

use crate::bytes::{part, u16_at, u64_at};
use crate::limits::CELL_REGIONS;
use crate::regions::{self, COMM, EXECUTE, LOADABLE, READ, Region, SHARED, WRITE};
use crate::system_record::System;

const HEAD: usize = 56;
const PASSIVE: u16 = 1;

#[derive(Clone)]
pub struct CellRecord {
    pub name: [u8; 32],
    pub cpus: u64,
    pub passive: bool,
    pub has_comm: bool,
    /// After how many polls without a reply the cell is taken for failed; 0 for never. Version 1 has none.
    pub limit: u16,
    regions: [Region; CELL_REGIONS],
    count: usize,
}

impl CellRecord {
    pub const NONE: CellRecord = CellRecord {
        name: [0; 32],
        cpus: 0,
        passive: false,
        has_comm: false,
        limit: 0,
        regions: [Region::NONE; CELL_REGIONS],
        count: 0,
    };

    pub fn regions(&self) -> &[Region] {
        &self.regions[..self.count]
    }

    /// Takes over another record's values, of its regions only those that it has.
    pub fn copy_from(&mut self, other: &CellRecord) {
        self.name = other.name;
        self.cpus = other.cpus;
        self.passive = other.passive;
        self.has_comm = other.has_comm;
        self.limit = other.limit;
        self.count = other.count;
        self.regions[..other.count].copy_from_slice(other.regions());
    }

    /// Reads a record into `self`; `None` where a rule is broken, and then `self` is left half read.
    pub fn read(&mut self, record: &[u8], system: &System) -> Option<()> {
        let (head, tail) = record.split_first_chunk::<HEAD>()?;
        self.read_head(head)?;
        let (bytes, odd) = tail.as_chunks::<32>();
        if self.count > CELL_REGIONS || bytes.len() != self.count || !odd.is_empty() {
            return None;
        }
        for (region, bytes) in self.regions.iter_mut().zip(bytes) {
            *region = Region::read(bytes, is_cell_flags)?;
            if !may_be_in(region, system) {
                return None;
            }
        }
        let comms = self.regions().iter().filter(|r| r.is(COMM)).count();
        self.has_comm = comms == 1;
        (comms <= 1 && (self.has_comm || self.passive) && regions::apart(self.regions())).then_some(())
    }

    fn read_head(&mut self, head: &[u8; HEAD]) -> Option<()> {
        let version = u16_at(head, 4);
        let flags = u16_at(head, 6);
        self.limit = if version == 2 { u16_at(head, 50) } else { 0 };
        let unnamed = head[3] as u64 | (u64_at(head, 48) >> 16) ^ self.limit as u64;
        self.name = part(head, 8);
        self.cpus = u64_at(head, 40);
        self.passive = flags == PASSIVE;
        self.count = u16_at(head, 48) as usize;
        let ok = head.starts_with(b"TSC")
            && (1..=2).contains(&version)
            && flags & !PASSIVE == 0
            && unnamed == 0
            && self.cpus != 0
            && regions::is_name(&self.name);
        ok.then_some(())
    }
}

/// "read is always set, loadable and shared never together", nor shared and executable; comm is exactly 11.
fn is_cell_flags(flags: u64) -> bool {
    let has = |both: u64| flags & both == both;
    if flags & COMM != 0 {
        return flags == READ | WRITE | COMM;
    }
    flags & READ != 0
        && flags & !(READ | WRITE | EXECUTE | LOADABLE | SHARED) == 0
        && !has(LOADABLE | SHARED)
        && !has(SHARED | EXECUTE)
}

/// Outside hypervisor memory, and inside a single boot region where it is loadable or shared.
fn may_be_in(region: &Region, system: &System) -> bool {
    let inside = || system.regions().iter().any(|boot| region.physical.lies_in(&boot.physical));
    !region.physical.overlaps(&system.hypervisor) && (!region.is(LOADABLE | SHARED) || inside())
}
