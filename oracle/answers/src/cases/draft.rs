//! Records by their fields.

/// A record in the making. Where nothing is said, fields are those of document 01's bench records:
/// opcode 40, count the specs named, access 0x01, size 8, all else 0.
#[derive(Copy, Clone)]
pub struct Draft(pub [u8; 40]);

// Specs by name.
pub const NOTHING: u8 = 0;
pub const REG_RRR: u8 = 1;
pub const REG_MMM: u8 = 2;
pub const REG_VEX: u8 = 3;
pub const REG4: u8 = 4;
pub const REG_RRR_MASKMERGE: u8 = 5;
pub const DEREF: u8 = 18;
pub const DEREF_RDI: u8 = 20;
pub const DEREF_ESI: u8 = 23;
pub const DISP: u8 = 24;
pub const MEM_INDEX_SCALE: u8 = 26;
pub const MEM_BASE_INDEX_SCALE_DISP: u8 = 32;
pub const MEM_BASE_INDEX_SCALE_DISP_MASK: u8 = 33;
pub const DISP_U64: u8 = 34;
pub const DISP_U32: u8 = 35;
pub const SPECS: u8 = 36;

// Banks by name.
pub const Q: u8 = 0;
pub const D: u8 = 1;
pub const W: u8 = 2;
pub const LOW_BYTE: u8 = 3;
pub const B: u8 = 4;
pub const X: u8 = 5;
pub const RIP: u8 = 9;
pub const EIP: u8 = 10;
pub const BANKS: u8 = 13;

// Opcodes by name.
pub const MUL: u16 = 1;
pub const BT: u16 = 24;
pub const LEA: u16 = 28;
/// Every opcode with a rule lies below.
pub const PLAIN: u16 = 40;

// Bits of `behavior`.
pub const NONTRIVIAL: u8 = 0x10;
pub const COMPLEX: u8 = 0x20;

pub const LISTS: u16 = 29;

impl Draft {
    pub fn of(specs: &[u8]) -> Draft {
        let mut bytes = [0; 40];
        bytes[0] = 0x10;
        bytes[3] = specs.len() as u8;
        bytes[4..4 + specs.len()].copy_from_slice(specs);
        Draft(bytes).opcode(PLAIN).access(0x01).size(8)
    }

    fn with(mut self, at: usize, bytes: &[u8]) -> Draft {
        self.0[at..at + bytes.len()].copy_from_slice(bytes);
        self
    }

    pub fn opcode(self, opcode: u16) -> Draft {
        self.with(1, &opcode.to_le_bytes())
    }

    pub fn count(self, count: u8) -> Draft {
        self.with(3, &[count])
    }

    pub fn spec(self, slot: usize, spec: u8) -> Draft {
        self.with(4 + slot, &[spec])
    }

    pub fn reg(self, slot: usize, bank: u8, number: u8) -> Draft {
        self.with(8 + 2 * slot, &[bank, number])
    }

    pub fn size(self, size: u8) -> Draft {
        self.with(16, &[size])
    }

    pub fn scale(self, scale: u8) -> Draft {
        self.with(17, &[scale])
    }

    pub fn disp(self, disp: u64) -> Draft {
        self.with(18, &disp.to_le_bytes())
    }

    pub fn imm(self, imm: u64) -> Draft {
        self.with(26, &imm.to_le_bytes())
    }

    pub fn prefixes(self, bits: u8) -> Draft {
        self.with(34, &[bits])
    }

    pub fn mask(self, mask: u8) -> Draft {
        self.with(35, &[mask])
    }

    pub fn behavior(self, behavior: u8) -> Draft {
        self.with(36, &[behavior])
    }

    pub fn access(self, access: u8) -> Draft {
        self.with(37, &[access])
    }

    pub fn list(self, list: u16) -> Draft {
        self.with(38, &list.to_le_bytes())
    }
}
