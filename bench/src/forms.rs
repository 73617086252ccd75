//! Integer code from a list of forms of instructions.

use answers::cases::draft::{Draft, D, Q};
use answers::cases::random::Random;

use crate::inputs::{files, Input};

pub const REG: u8 = 1;
pub const RM: u8 = 2;
pub const IMM: u8 = 15;
pub const DEREF: u8 = 18;
pub const DISP: u8 = 24;
pub const INDEX: u8 = 26;
pub const INDEX_DISP: u8 = 28;
pub const BASE_INDEX: u8 = 30;
pub const BASE_INDEX_DISP: u8 = 32;

pub const WRITES_FLAGS: u8 = 0x08;

/// One instruction: its specs, access, behavior and list, each as often as `weight` says.
pub struct Form {
    weight: u64,
    specs: &'static [u8],
    access: u8,
    behavior: u8,
    list: u16,
    opcode: u16,
}

pub const fn form(weight: u64, specs: &'static [u8], access: u8, behavior: u8, list: u16, opcode: u16) -> Form {
    Form { weight, specs, access, behavior, list, opcode }
}

/// As many records as are asked for, each of one of the forms.
pub fn input(forms: &[Form], seed: u64, records: usize) -> Input {
    let mut random = Random::new(seed);
    let files = files(&mut random);
    let all: u64 = forms.iter().map(|form| form.weight).sum();
    let made = (0..records)
        .map(|_| {
            let mut at = random.below(all);
            let form = forms.iter().find(|form| {
                let here = at < form.weight;
                at = at.wrapping_sub(form.weight);
                here
            });
            let form = form.expect("the weights add up");
            let bank = random.pick(&[Q, Q, D]);
            let mut draft = Draft::of(form.specs);
            let memory = form.specs.iter().any(|&spec| spec >= DEREF);
            for slot in 0..4 {
                let address = memory && (slot == 1 || slot == 2);
                draft = draft.reg(slot, if address { Q } else { bank }, random.below(16) as u8);
            }
            draft
                .opcode(form.opcode)
                .access(form.access)
                .behavior(form.behavior)
                .list(form.list)
                .size(if bank == Q || form.list != 0 { 8 } else { 4 })
                .scale(random.pick(&[1, 2, 4, 8]))
                .disp(random.below(256).wrapping_sub(128))
                .0
        })
        .collect();
    Input::new(made, files)
}
