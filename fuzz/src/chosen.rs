//! Which inputs are also run at full length.

/// Few inputs, by their bytes alone: these are also run at full length, which takes its time.
pub fn chosen(input: &[u8], one_in: u64) -> bool {
    let sum =
        input.iter().fold(7u64, |sum, &byte| sum.wrapping_mul(31).wrapping_add(u64::from(byte)));
    (sum >> 3).is_multiple_of(one_in)
}
