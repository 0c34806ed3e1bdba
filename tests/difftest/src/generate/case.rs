//! Names in any case of letters.

use crate::numbers::Numbers;

/// The word in small letters, in capital ones, or in both.
pub fn cased(numbers: &mut Numbers, word: &[u8]) -> Vec<u8> {
    let case = numbers.below(3);
    let mut cased = word.to_vec();
    for octet in &mut cased {
        if case == 1 || (case == 2 && numbers.once_in(2)) {
            octet.make_ascii_uppercase();
        }
    }
    cased
}
