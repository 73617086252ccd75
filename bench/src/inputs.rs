//! Records and files for both sides: none that is refused but for complex instructions.

use answers::asked::{self, Visited};
use answers::cases::random::{self, Random};
use answers::record::Record;
use answers::refusals;
use answers::register_file::RegisterFile;

/// Records one after another, each with the number of its file.
pub struct Input {
    records: Vec<[u8; 40]>,
    files: Vec<[u8; 141]>,
}

impl Input {
    pub fn new(records: Vec<[u8; 40]>, files: Vec<[u8; 141]>) -> Input {
        Input { records, files }
    }

    pub fn len(&self) -> usize {
        self.records.len()
    }

    pub fn pairs(&self) -> impl Iterator<Item = (&[u8], &[u8])> {
        let files = self.files.iter().cycle();
        self.records.iter().zip(files).map(|(record, file)| (&record[..], &file[..]))
    }
}

/// Files that are well formed: a prime number of them, so that records and files do not keep step.
pub fn files(random: &mut Random) -> Vec<[u8; 141]> {
    let mut made = Vec::new();
    while made.len() < 251 {
        if let Ok(file) = <[u8; 141]>::try_from(random::file(random)) {
            if !refusals::of_file(&file) {
                made.push(file);
            }
        }
    }
    made
}

/// Every spec, list, opcode and access at random.
pub fn mixed(seed: u64, records: usize) -> Input {
    let mut random = Random::new(seed);
    let files = files(&mut random);
    let unknown = RegisterFile::from_bytes(&[0; 141]);
    let mut made = Vec::with_capacity(records);
    while made.len() < records {
        let record = random::well_formed(&mut random).0;
        match asked::visit(&Record::from_bytes(&record), &unknown) {
            // a Reg4 outside its bank is refused by us alone
            Visited::Log(_) if refusals::is_register(record[14], record[26]) => made.push(record),
            Visited::Complex(_) => made.push(record),
            _ => {}
        }
    }
    Input::new(made, files)
}
