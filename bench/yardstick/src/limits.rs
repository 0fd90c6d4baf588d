//! The limits of document 01, each in one place.

/// How many regions a cell may have.
pub const CELL_REGIONS: usize = 64;

/// The longest cell record.
pub const CELL_RECORD: usize = 56 + 32 * CELL_REGIONS;

/// How many regions a system record may have.
pub const BOOT_REGIONS: usize = 16;

/// How many cells there may be, root among them.
pub const CELLS: usize = 16;

/// How many CPUs there may be.
pub const CPUS: usize = 64;

/// The longest line without its line feed.
pub const LINE: usize = 4400;
