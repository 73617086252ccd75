//! Code over arrays: every record has an index, with scale 1, 2, 4 or 8.

use crate::forms::{self, form, Form, BASE_INDEX, BASE_INDEX_DISP, IMM, INDEX, INDEX_DISP, REG, WRITES_FLAGS};
use crate::inputs::Input;

const FORMS: [Form; 9] = [
    // mov register, element
    form(8, &[REG, BASE_INDEX], 0x06, 0, 0, 100),
    form(8, &[REG, BASE_INDEX_DISP], 0x06, 0, 0, 100),
    form(3, &[REG, INDEX_DISP], 0x06, 0, 0, 100),
    form(1, &[REG, INDEX], 0x06, 0, 0, 100),
    // mov element, register
    form(6, &[BASE_INDEX, REG], 0x06, 0, 0, 100),
    form(6, &[BASE_INDEX_DISP, REG], 0x06, 0, 0, 100),
    // add register, element; add element, register
    form(5, &[REG, BASE_INDEX], 0x07, WRITES_FLAGS, 0, 103),
    form(3, &[BASE_INDEX_DISP, REG], 0x07, WRITES_FLAGS, 0, 103),
    // cmp element, immediate
    form(3, &[BASE_INDEX_DISP, IMM], 0x05, WRITES_FLAGS, 0, 110),
];

pub fn input(seed: u64, records: usize) -> Input {
    forms::input(&FORMS, seed, records)
}
