//! The calls on a record.
use crate::ffi;
use crate::refusal::Refusal;

fn answered(answer: u64) -> Result<u64, Refusal> {
    Refusal::of(answer).map_or(Ok(answer), Err)
}

/// Writes the log of a record under a register file into `log[start..]` and answers how many bytes it took.
///
/// ```
/// let mut log = [0u8; 4];
/// assert_eq!(machhurel::visit(b"no record", &[], &mut log, 0), Err(machhurel::Refusal::Form));
/// ```
///
/// Refused for too little room, it says how much the same call needs:
///
/// ```
/// use machhurel::{visit, Refusal};
/// let mut record = [0u8; machhurel::RECORD_BYTES];
/// record[..5].copy_from_slice(&[0x10, 40, 0, 1, 1]); // one operand, RegRRR
/// record[37] = 1; // which is read
/// let mut file = [0u8; machhurel::FILE_BYTES];
/// file[0] = 0x20;
/// let refused = visit(&record, &file, &mut [], 0);
/// assert_eq!(refused, Err(Refusal::Room { needed: 3 }));
/// assert_eq!(visit(&record, &file, &mut [0; 3], 0), Ok(3));
/// ```
pub fn visit(record: &[u8], file: &[u8], log: &mut [u8], start: usize) -> Result<usize, Refusal> {
    // SAFETY: each pointer and length are those of a slice, and `log` is borrowed for writing alone.
    let answer = unsafe {
        ffi::machhurel_visit(
            record.as_ptr(),
            record.len(),
            file.as_ptr(),
            file.len(),
            log.as_mut_ptr(),
            log.len(),
            start,
        )
    };
    answered(answer).map(|bits| (bits >> 32) as usize)
}

/// Writes the listing of a record's operands into `out[start..]` and answers how many bytes it took.
///
/// ```
/// let mut record = [0u8; machhurel::RECORD_BYTES];
/// record[0] = 0x10;
/// record[36] = 0x08; // flags are written
/// let mut out = [0u8; machhurel::LISTING_BYTES];
/// let n = machhurel::listing(&record, &mut out, 0)?;
/// assert_eq!(out[..n], [0x41, 2]);
/// # Ok::<(), machhurel::Refusal>(())
/// ```
pub fn listing(record: &[u8], out: &mut [u8], start: usize) -> Result<usize, Refusal> {
    // SAFETY: as for `visit`.
    let answer = unsafe {
        ffi::machhurel_listing(
            record.as_ptr(),
            record.len(),
            out.as_mut_ptr(),
            out.len(),
            start,
        )
    };
    answered(answer).map(|bits| (bits >> 32) as usize)
}

/// A behavior digest after fix-ups.
#[derive(Clone, Copy, Debug, PartialEq, Eq, Hash)]
pub struct Digest {
    /// Bits 0-1 privilege, 2-3 flags access, 4 nontrivial, 5 complex.
    pub behavior: u8,
    /// Two bits of access for each operand, lowest first.
    pub operand_access: u8,
    /// The number of the implicit list.
    pub list: u16,
}

/// The record's digest after fix-ups.
///
/// ```
/// let mut record = [0u8; machhurel::RECORD_BYTES];
/// record[..2].copy_from_slice(&[0x10, 1]); // MUL
/// record[36] = 0x10; // nontrivial
/// assert_eq!(machhurel::digest(&record)?.list, 4);
/// # Ok::<(), machhurel::Refusal>(())
/// ```
pub fn digest(record: &[u8]) -> Result<Digest, Refusal> {
    // SAFETY: the pointer and the length are those of a slice.
    let bits = answered(unsafe { ffi::machhurel_digest(record.as_ptr(), record.len()) })?;
    Ok(Digest {
        behavior: (bits >> 8) as u8,
        operand_access: (bits >> 16) as u8,
        list: (bits >> 32) as u16,
    })
}

/// The privilege level that an instruction needs.
#[derive(Clone, Copy, Debug, PartialEq, Eq, Hash)]
pub enum PrivilegeLevel {
    /// It runs at any level.
    Any,
    /// It runs at CPL 0 alone.
    PL0,
    /// Its rule depends on more than the level.
    Special,
    /// The two bits that stand for nothing.
    Reserved,
}

/// The privilege level that the instruction needs.
///
/// ```
/// let mut record = [0u8; machhurel::RECORD_BYTES];
/// record[0] = 0x10;
/// record[36] = 1;
/// assert_eq!(machhurel::privilege(&record), Ok(machhurel::PrivilegeLevel::PL0));
/// ```
pub fn privilege(record: &[u8]) -> Result<PrivilegeLevel, Refusal> {
    // SAFETY: the pointer and the length are those of a slice.
    let bits = answered(unsafe { ffi::machhurel_privilege(record.as_ptr(), record.len()) })?;
    Ok(match (bits >> 8) & 0xFF {
        0 => PrivilegeLevel::Any,
        1 => PrivilegeLevel::PL0,
        2 => PrivilegeLevel::Special,
        _ => PrivilegeLevel::Reserved,
    })
}

/// A set of exception vectors.
#[derive(Clone, Copy, Debug, PartialEq, Eq, Hash)]
pub struct Exceptions(u32);

impl Exceptions {
    /// General protection.
    pub const GP: u8 = 13;
    /// Page fault.
    pub const PF: u8 = 14;

    /// Bit k for vector k.
    pub fn bits(self) -> u32 {
        self.0
    }

    /// Whether the vector may be raised; no vector above 31 may.
    pub fn may(self, vector: u8) -> bool {
        matches!(self.0.checked_shr(u32::from(vector)), Some(bits) if bits & 1 == 1)
    }
}

/// The exceptions that the instruction may raise.
///
/// ```
/// use machhurel::Exceptions;
/// let mut record = [0u8; machhurel::RECORD_BYTES];
/// record[0] = 0x10;
/// record[3] = 1;
/// record[4] = 18; // a memory operand, whatever its access
/// let exceptions = machhurel::exceptions(&record)?;
/// assert!(exceptions.may(Exceptions::PF) && !exceptions.may(Exceptions::GP));
/// # Ok::<(), machhurel::Refusal>(())
/// ```
pub fn exceptions(record: &[u8]) -> Result<Exceptions, Refusal> {
    // SAFETY: the pointer and the length are those of a slice.
    let bits = answered(unsafe { ffi::machhurel_exceptions(record.as_ptr(), record.len()) })?;
    Ok(Exceptions((bits >> 32) as u32))
}
