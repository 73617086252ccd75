//! Records at random.
use super::Random;
use machhurel::RECORD_BYTES;

/// A record of kind 0x10 with up to two operands of any spec and access, flags and lists. No field is outside its table, but what is
/// accessed may name nothing.
pub fn any_record(random: &mut Random) -> Vec<u8> {
    let mut record = vec![0u8; RECORD_BYTES];
    record[..4].copy_from_slice(&[0x10, 40, 0, random.below(3) as u8]);
    record[4] = random.one_of(&[0, 1, 2, 18, 24, 26, 30, 35]);
    record[5] = random.one_of(&[1, 2, 18, 24, 26, 30, 35]);
    for slot in 0..4 {
        record[9 + 2 * slot] = random.below(16) as u8;
    }
    record[16] = random.one_of(&[1, 2, 4, 8, 64]);
    record[17] = random.one_of(&[1, 2, 4, 8]);
    record[36] = random.below(4) as u8 * 4;
    record[37] = random.below(16) as u8;
    record[38] = random.one_of(&[0, 0, 1, 5, 26, 27]);
    record
}
