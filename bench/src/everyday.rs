//! Everyday integer code: moves, sums, loads, stores, pushes and pops, as a control task has them.

use crate::forms::{self, form, Form, BASE_INDEX, BASE_INDEX_DISP, DEREF, DISP, IMM, REG, RM, WRITES_FLAGS};
use crate::inputs::Input;

const FORMS: [Form; 16] = [
    // mov register, register; mov register, [base + disp]; mov [base + disp], register
    form(14, &[REG, RM], 0x06, 0, 0, 100),
    form(16, &[REG, DISP], 0x06, 0, 0, 100),
    form(12, &[DISP, REG], 0x06, 0, 0, 100),
    form(4, &[REG, DEREF], 0x06, 0, 0, 100),
    // mov register, [base + index * scale (+ disp)]
    form(4, &[REG, BASE_INDEX], 0x06, 0, 0, 100),
    form(3, &[REG, BASE_INDEX_DISP], 0x06, 0, 0, 100),
    // mov register, immediate
    form(5, &[RM, IMM], 0x06, 0, 0, 100),
    // add, sub, and, or, xor
    form(10, &[RM, REG], 0x07, WRITES_FLAGS, 0, 103),
    form(6, &[RM, IMM], 0x07, WRITES_FLAGS, 0, 103),
    form(3, &[DISP, IMM], 0x07, WRITES_FLAGS, 0, 103),
    // cmp, test
    form(8, &[RM, REG], 0x05, WRITES_FLAGS, 0, 110),
    form(3, &[DISP, IMM], 0x05, WRITES_FLAGS, 0, 110),
    // lea
    form(4, &[REG, BASE_INDEX_DISP], 0x06, 0, 0, 28),
    // push, pop
    form(3, &[RM], 0x01, 0, 26, 117),
    form(3, &[RM], 0x02, 0, 27, 118),
    // imul register, register
    form(2, &[REG, RM], 0x07, WRITES_FLAGS | 0x10, 0, 2),
];

pub fn input(seed: u64, records: usize) -> Input {
    forms::input(&FORMS, seed, records)
}
