//! The desk that an answer names.

/// The desk that a wait or a yield names as the item's holder.
pub fn named_holder(answer: &[u8]) -> Option<usize> {
    let names = answer[0] == 4 || (answer[0] == 7 && answer[3] == 3);
    let first = u32::from_le_bytes([answer[4], answer[5], answer[6], answer[7]]);
    names.then_some(first as usize)
}
