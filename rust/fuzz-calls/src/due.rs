//! What a call must say, as the second reader has it, in the library's form.

use crate::tally::Tally;
use ouinet_reader::raw;
use second::calls::{Outcome, Word};

/// An error where two things differ that must be the same.
pub fn same<T: PartialEq + std::fmt::Debug>(what: &str, is: &T, due: &T) -> Result<(), String> {
    if is == due {
        Ok(())
    } else {
        Err(format!("{what} is {is:?}, and {due:?} is due"))
    }
}

/// A word's number.
pub fn word_of(word: &Word) -> u8 {
    match word {
        Word::More => raw::MORE,
        Word::Question(_) => raw::QUESTION,
        Word::HeadAccepted { .. } => raw::HEAD,
        Word::Block { .. } => raw::BLOCK,
        Word::Closed { .. } => raw::CLOSED,
        Word::Complete { .. } => raw::COMPLETE,
        Word::Refused(_) => raw::REFUSED,
    }
}

/// The bytes of a result.
pub fn result_of(outcome: &Outcome) -> [u8; raw::RESULT_SIZE] {
    let (first, second) = match &outcome.word {
        Word::More => (0, 0),
        Word::Question(question) => (question.message.len() as u64, question.record as u64),
        Word::HeadAccepted { status } => (u64::from(*status), 0),
        Word::Block { offset, length } => (*offset, u64::from(*length)),
        Word::Closed { total } | Word::Complete { total } => (*total, 0),
        Word::Refused(refusal) => (u64::from(refusal.number), refusal.at.unwrap_or(0) as u64),
    };
    let numbers = [u64::from(word_of(&outcome.word)), outcome.taken as u64, first, second];
    let mut bytes = [0; raw::RESULT_SIZE];
    for (place, number) in numbers.iter().enumerate() {
        bytes[8 * place..8 * place + 8].copy_from_slice(&number.to_le_bytes());
    }
    if let Word::Question(question) = &outcome.word {
        bytes[32..].copy_from_slice(&question.signature);
    }
    bytes
}

/// Counts a word.
pub fn count(word: &Word, tally: &mut Tally) {
    tally.words[usize::from(word_of(word))] += 1;
    if let Word::Refused(refusal) = word {
        tally.refusals[usize::from(refusal.number)] += 1;
        tally.places += u64::from(refusal.at.is_some());
    }
}
