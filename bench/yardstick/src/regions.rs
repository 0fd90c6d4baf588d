//! Regions, and the rules that system and cell records have in common.

const PAGE: u64 = 4096;
/// Every end is at most 2^48.
const END: u64 = 1 << 48;

pub const READ: u64 = 1;
pub const WRITE: u64 = 2;
pub const EXECUTE: u64 = 4;
pub const COMM: u64 = 8;
pub const LOADABLE: u64 = 16;
pub const SHARED: u64 = 32;

/// Addresses from `start` up to `end`, which is not among them.
#[derive(Clone, Copy)]
pub struct Range {
    pub start: u64,
    pub end: u64,
}

impl Range {
    /// No address, and nothing overlaps it.
    pub const NONE: Range = Range { start: END, end: END };

    /// Whole pages, at least one, that end by 2^48.
    pub fn of_pages(start: u64, size: u64) -> Option<Range> {
        let fits = (start | size).is_multiple_of(PAGE) && (PAGE..=END).contains(&size) && start <= END - size;
        fits.then(|| Range { start, end: start + size })
    }

    pub fn overlaps(&self, other: &Range) -> bool {
        (self.start < other.end) & (other.start < self.end)
    }

    pub fn lies_in(&self, other: &Range) -> bool {
        other.start <= self.start && self.end <= other.end
    }
}

/// A region as it is compared with others. A communication region has no physical pages.
#[derive(Clone, Copy)]
pub struct Region {
    pub physical: Range,
    pub address: Range,
    pub flags: u64,
}

impl Region {
    pub const NONE: Region = Region { physical: Range::NONE, address: Range::NONE, flags: 0 };

    /// Reads the 32 bytes of a region; `None` where a rule that concerns it alone is broken.
    pub fn read(bytes: &[u8; 32], allowed: impl Fn(u64) -> bool) -> Option<Region> {
        let [start, address, size, flags] = words(bytes);
        let physical = Range::of_pages(start, size)?;
        let address = Range::of_pages(address, size)?;
        if !allowed(flags) {
            return None;
        }
        if flags & COMM == 0 {
            return Some(Region { physical, address, flags });
        }
        (start == 0 && size == PAGE).then_some(Region { physical: Range::NONE, address, flags })
    }

    pub fn is(&self, flag: u64) -> bool {
        self.flags & flag != 0
    }

    /// Whether two regions of one record overlap, in cell addresses or in physical ones.
    fn meets(&self, other: &Region) -> bool {
        self.address.overlaps(&other.address) | self.physical.overlaps(&other.physical)
    }
}

fn words(bytes: &[u8; 32]) -> [u64; 4] {
    let (words, _) = bytes.as_chunks::<8>();
    [0, 1, 2, 3].map(|i| u64::from_le_bytes(words[i]))
}

/// Whether no two regions of a record overlap.
pub fn apart(regions: &[Region]) -> bool {
    regions.iter().enumerate().all(|(i, a)| !regions[..i].iter().any(|b| a.meets(b)))
}

/// 1 to 31 bytes 0x21..0x7e, then zeros.
pub fn is_name(name: &[u8; 32]) -> bool {
    let len = name.iter().position(|&b| b == 0).unwrap_or(name.len());
    let (text, rest) = name.split_at(len);
    len > 0 && len < name.len() && text.iter().all(|b| (0x21..=0x7e).contains(b)) && rest.iter().all(|&b| b == 0)
}
