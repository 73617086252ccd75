//! Register files.

pub const ALL_KNOWN: u32 = 0x1_FFFF;
pub const NONE_KNOWN: u32 = 0;
/// rax, rdx, rsp, .. but not rcx, rbx, rbp ..
pub const EVERY_SECOND: u32 = 0x1_5555;

pub type File = [u8; 141];

pub fn file(known: u32, values: &[u64; 17]) -> File {
    let mut bytes = [0; 141];
    bytes[0] = 0x20;
    bytes[1..5].copy_from_slice(&known.to_le_bytes());
    for (place, value) in bytes[5..].chunks_mut(8).zip(values) {
        place.copy_from_slice(&value.to_le_bytes());
    }
    bytes
}

/// Values in which all bytes differ, within a register and from one register to the next, the
/// unknown ones too.
pub fn knowing(known: u32) -> File {
    let byte = |index: usize| (index as u8).wrapping_mul(29).wrapping_add(0x81);
    let value = |register: usize| u64::from_le_bytes(std::array::from_fn(|i| byte(8 * register + i)));
    file(known, &std::array::from_fn(value))
}

/// All known; the values are zero but for those named.
pub fn holding(named: &[(usize, u64)]) -> File {
    let mut values = [0; 17];
    for &(register, value) in named {
        values[register] = value;
    }
    file(ALL_KNOWN, &values)
}
