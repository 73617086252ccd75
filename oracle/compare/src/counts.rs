//! How often each call answered each number.

use answers::expected;
use answers::input::{Call, CALLS};

/// What is counted: the refusals, then `finished`.
const NUMBERS: [u8; 10] = [0, 1, 2, 3, 4, 5, 6, 7, 9, expected::FINISHED];

/// Its place in `NUMBERS`; that of `finished` for a number that no call has.
fn column(number: u8) -> usize {
    NUMBERS.iter().position(|&known| known == number).unwrap_or(NUMBERS.len() - 1)
}

#[derive(Default)]
pub struct Counts {
    answered: [[u64; NUMBERS.len()]; CALLS.len()],
    differences: [u64; CALLS.len()],
}

impl Counts {
    pub fn answer(&mut self, call: Call, answer: u64) {
        self.answered[call as usize - 1][column(answer as u8)] += 1;
    }

    pub fn difference(&mut self, call: Call) {
        self.differences[call as usize - 1] += 1;
    }

    pub fn cases(&self) -> u64 {
        self.answered.iter().flatten().sum()
    }

    pub fn differences(&self) -> u64 {
        self.differences.iter().sum()
    }

    /// Prints the table. False where a call never gave a number that document 01 says it can give.
    pub fn print(&self) -> bool {
        println!("\nexpected answers by number:");
        println!(
            "{:<11}{}  finished  differences",
            "",
            NUMBERS[..9].iter().map(|n| format!("{n:>10}")).collect::<String>()
        );
        let mut complete = true;
        for call in CALLS {
            let row = &self.answered[call as usize - 1];
            let numbers = row.iter().map(|count| format!("{count:>10}")).collect::<String>();
            println!("{:<11}{numbers}{:>13}", format!("{call:?}"), self.differences[call as usize - 1]);
            for &number in expected::possible(call) {
                if row[column(number)] == 0 {
                    println!("MISSING: {call:?} never answered {number}");
                    complete = false;
                }
            }
        }
        complete
    }
}
