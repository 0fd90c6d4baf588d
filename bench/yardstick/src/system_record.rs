//! The system record and boot's answers.

use crate::bytes::{part, u16_at, u32_at, u64_at};
use crate::limits::{BOOT_REGIONS, CPUS};
use crate::regions::{self, EXECUTE, READ, Range, Region, WRITE};

const HEAD: usize = 96;
const NUMBER: u32 = i32::MAX as u32;

#[derive(Clone)]
pub struct System {
    pub name: [u8; 32],
    pub cpus: u64,
    pub hypervisor: Range,
    pub pool: u32,
    pub pool_used: u32,
    pub remap: u32,
    pub remap_used: u32,
    regions: [Region; BOOT_REGIONS],
    count: usize,
}

impl System {
    /// The record's values, or boot's refusal.
    pub fn read(record: &[u8]) -> Result<System, i32> {
        let (head, tail) = record.split_first_chunk::<HEAD>().ok_or(-22)?;
        let system = System::of_parts(head, tail).ok_or(-22)?;
        let possible = u16_at(head, 48);
        let numbers = [system.pool, system.pool_used, system.remap, system.remap_used];
        if !has_cpus(possible, system.cpus) || numbers.iter().any(|&n| n > NUMBER) {
            return Err(-34);
        }
        if system.pool_used > system.pool || system.remap_used > system.remap {
            return Err(-12);
        }
        Ok(system)
    }

    /// Every rule that gives -22.
    fn of_parts(head: &[u8; HEAD], tail: &[u8]) -> Option<System> {
        let (bytes, odd) = tail.as_chunks::<32>();
        let count = u16_at(head, 6) as usize;
        let unnamed = head[3] as u64 | u64_at(head, 48) >> 16 | u64_at(head, 88) >> 16;
        let name = part(head, 8);
        let head_ok = head.starts_with(b"TSS") && u16_at(head, 4) == 1 && unnamed == 0 && regions::is_name(&name);
        if !head_ok || !(1..=BOOT_REGIONS).contains(&count) || bytes.len() != count || !odd.is_empty() {
            return None;
        }
        let hypervisor = Range::of_pages(u64_at(head, 56), u64_at(head, 64))?;
        let mut regions = [Region::NONE; BOOT_REGIONS];
        for (region, bytes) in regions.iter_mut().zip(bytes) {
            *region = Region::read(bytes, is_boot_flags)?;
            if region.physical.overlaps(&hypervisor) {
                return None;
            }
        }
        regions::apart(&regions[..count]).then_some(System {
            name,
            cpus: u64_at(head, 40),
            hypervisor,
            pool: u32_at(head, 72),
            pool_used: u32_at(head, 76),
            remap: u32_at(head, 80),
            remap_used: u32_at(head, 84),
            regions,
            count,
        })
    }

    pub fn regions(&self) -> &[Region] {
        &self.regions[..self.count]
    }
}

/// "Boot regions use flags 1, 2, 4 only", and read is always set.
fn is_boot_flags(flags: u64) -> bool {
    flags & READ != 0 && flags & !(READ | WRITE | EXECUTE) == 0
}

/// 1..64 possible CPUs, some boot CPU, and none at or beyond the count.
fn has_cpus(possible: u16, cpus: u64) -> bool {
    let count = possible as usize;
    (1..=CPUS).contains(&count) && cpus != 0 && (count == CPUS || cpus >> count == 0)
}
