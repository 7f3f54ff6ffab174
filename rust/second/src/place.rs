//! Where a text went wrong (request #106): "the length of the longest beginning that some good text, however long as a
//! whole and with its line ends, also has". No text is scanned for it. A beginning is completed by the tails of a few good
//! samples, and if one of them makes a good text, some good text has that beginning.
//!
//! That the tails of these samples are enough is a matter of each kind of text: whatever has come, what may still come can be
//! as in one of them, since there is one for each form that the text can take, and it has nothing but what must be there and,
//! where there is a choice, a byte that is always right. The tests (`tests/places.rs`) look for other completions.

/// Whether one of the samples' tails, the empty one included, makes a good text of this beginning.
fn can_be_completed(beginning: &[u8], samples: &[&[u8]], is_good: &impl Fn(&[u8]) -> bool) -> bool {
    let completes = |tail: &[u8]| is_good(&[beginning, tail].concat());
    samples.iter().any(|sample| (0..=sample.len()).any(|start| completes(&sample[start..])))
}

/// The length of the longest beginning of the text that can be completed. If a beginning can be, so can all shorter ones,
/// by what they lack of it and the same tail; so each trial halves the span that is left.
pub fn longest_beginning(text: &[u8], samples: &[&[u8]], is_good: impl Fn(&[u8]) -> bool) -> usize {
    let (mut can, mut cannot) = (0, text.len() + 1);
    while cannot - can > 1 {
        let middle = can + (cannot - can) / 2;
        if can_be_completed(&text[..middle], samples, &is_good) {
            can = middle;
        } else {
            cannot = middle;
        }
    }
    can
}
