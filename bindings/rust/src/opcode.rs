//! The opcodes that have a rule of their own or a base digest, by name.

/// Runs of names, each from a number up. A later run is one more row.
const NAMES: [(u16, &[&str]); 2] = [
    (
        1,
        &[
            "MUL",
            "IMUL",
            "DIV",
            "IDIV",
            "NOP",
            "CMPXCHG",
            "VMOVLPS",
            "VMOVHPS",
            "VMOVLPD",
            "VMOVHPD",
            "EXTRQ",
            "INSERTQ",
            "RETURN",
            "RETF",
            "MULX",
            "VMASKMOVDQU",
            "PCMPESTRI",
            "VPCMPESTRI",
            "PCMPESTRM",
            "VPCMPESTRM",
            "LOOPNZ",
            "LOOPZ",
            "LOOP",
            "BT",
            "BTS",
            "BTR",
            "BTC",
            "LEA",
        ],
    ),
    (
        100,
        &[
            "MOV", "MOVZX", "MOVSX", "ADD", "SUB", "AND", "OR", "XOR", "ADC", "SBB", "CMP", "TEST",
            "INC", "DEC", "NEG", "NOT", "XCHG", "PUSH", "POP",
        ],
    ),
];

/// The name of an opcode, where it has one: others have neither a rule of their own nor a base digest.
///
/// ```
/// assert_eq!(machhurel::opcode_name(24), Some("BT"));
/// assert_eq!(machhurel::opcode_name(118), Some("POP"));
/// assert_eq!(machhurel::opcode_name(40), None);
/// ```
pub fn opcode_name(opcode: u16) -> Option<&'static str> {
    NAMES.iter().find_map(|(first, names)| {
        let k = opcode.checked_sub(*first)?;
        names.get(usize::from(k)).copied()
    })
}
