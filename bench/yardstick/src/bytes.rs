//! Little-endian numbers and fixed parts of a record's header.

/// The `N` bytes at an offset. Offsets are constants, so that no check is left in the program.
pub fn part<const N: usize>(head: &[u8], at: usize) -> [u8; N] {
    let mut out = [0; N];
    out.copy_from_slice(&head[at..at + N]);
    out
}

pub fn u16_at(head: &[u8], at: usize) -> u16 {
    u16::from_le_bytes(part(head, at))
}

pub fn u32_at(head: &[u8], at: usize) -> u32 {
    u32::from_le_bytes(part(head, at))
}

pub fn u64_at(head: &[u8], at: usize) -> u64 {
    u64::from_le_bytes(part(head, at))
}
