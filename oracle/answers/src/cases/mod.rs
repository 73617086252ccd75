//! The inputs to try: systematic families, and random ones from a seed.

pub mod addresses;
pub mod bases;
pub mod damage;
pub mod digests;
pub mod draft;
pub mod edges;
pub mod files;
pub mod kinds;
pub mod logs;
pub mod operands;
pub mod random;
pub mod rooms;

/// Takes a record and a register file.
pub type Take<'a> = dyn FnMut(&[u8], &[u8]) + 'a;

pub struct Family {
    pub name: &'static str,
    pub each: fn(&mut Take),
}

/// Every family of records and files.
pub const FAMILIES: [Family; 16] = [
    Family { name: "edges", each: edges::every_edge },
    Family { name: "every spec, slot, access and mask", each: operands::every_spec },
    Family { name: "every list with every pair of slot specs", each: operands::every_list },
    Family { name: "every bank and number in every regs slot", each: operands::every_register },
    Family { name: "every Reg4 number in every bank", each: operands::every_reg4 },
    Family { name: "every size", each: operands::every_size },
    Family { name: "every opcode, complex or not, nontrivial or not", each: digests::every_opcode },
    Family { name: "every fix-up", each: digests::every_fixup },
    Family { name: "every behavior byte", each: digests::every_behavior },
    Family { name: "address arithmetic", each: addresses::every_sum },
    Family { name: "known bits", each: addresses::every_known_bit },
    Family { name: "every value of every record byte", each: damage::every_byte },
    Family { name: "record lengths", each: damage::every_record_length },
    Family { name: "damaged files", each: damage::every_damaged_file },
    Family { name: "every value of every file byte", each: damage::every_file_byte },
    Family { name: "order of refusals", each: damage::every_refusal_order },
];
