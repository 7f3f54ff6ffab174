//! Why a stream is refused.

use std::fmt;

/// Why a stream is refused, once and for all. The numbers are those of the specification; its 1 and 2 answer calls and not
/// streams: 1 is [`NotDue`](crate::NotDue), and 2, too short a buffer, cannot happen with this crate's own buffers.
///
/// Refusals 3 and 6 say where: where the text of a section is at fault, `at` is the length of the longest beginning of
/// the section that some good text has too, however long as a whole and with its line ends, so the byte at that place is
/// the first one that cannot stand there. Where the cause is another one, `at` is the length of the section as far as
/// it was taken, the deciding byte included: no end within the limit, too many fields, or a field twice that may come only once.
/// It is counted from the section's first byte; [`Reader::refused_section`](crate::Reader::refused_section) tells where in the
/// stream that is.
#[derive(Debug, Clone, Copy, PartialEq, Eq, Hash)]
pub enum Refusal {
    /// 3: the head's text is wrong or too long, it has over 128 field lines, or a field twice that may come only once: one whose
    /// name begins `X-Ouinet-` or is `Content-Length` or `Transfer-Encoding`, in any case. All others may be repeated.
    BadHead {
        /// Where its text goes wrong, or the length taken.
        at: u64,
    },
    /// 4: the head breaks one of the format's rules, those of a part answer's head among them.
    HeadRule,
    /// 5: the version is there and is not 4.
    BadVersion,
    /// 6: a chunk line, the end of a chunk's data or the trailer has a wrong text or is too long.
    BadFrame {
        /// Where that section's text goes wrong, or the length taken.
        at: u64,
    },
    /// 7: a chunk's size is against the rule for blocks, or a part answer ends before its last byte or goes on after it.
    BadSize,
    /// 8: a block's signature, `ouisig`, or the hash that a part begins with, `ouihash`, is absent where it is due, or present where it is
    /// not.
    BadOuisig,
    /// 9: the body would pass 4,294,967,296 bytes.
    TooLong,
    /// 10: the answer to a question was no.
    BadSignature,
    /// 11: the end was told in an unfinished stream.
    Unfinished,
    /// 12: the key is not trusted at the stream's time, or the stream's signatures are not all of one key. At the head's end that is the
    /// blocks' key; at the trailer's end it is that of `X-Ouinet-Sig1`, tested after 15.
    Untrusted,
    /// 13: the fields about the body's end are wrong: `Digest`, `X-Ouinet-Data-Size` and `X-Ouinet-Sig1`. Some but not all are there, one
    /// is there twice (in the head, the trailer or one in each), a text or the list of signed names is wrong, or `X-Ouinet-Sig0` signs one
    /// of the first two already. Like 14 and 15 it comes at the trailer's end, when all blocks are out.
    BadEnds,
    /// 14: the body has another length than `X-Ouinet-Data-Size` says.
    OtherLength,
    /// 15: the body has another SHA-256 than `Digest` says.
    OtherDigest,
    /// 16: the head is another URI's than the one asked for. It is tested after all of 3, 4 and 5 and before 12, and before any
    /// signature: [`Reader::offered_uri`](crate::Reader::offered_uri) then has the head's, unverified.
    OtherUri,
}

impl Refusal {
    /// The specification's number, from 3 to 16.
    pub fn number(self) -> u8 {
        match self {
            Refusal::BadHead { .. } => 3,
            Refusal::HeadRule => 4,
            Refusal::BadVersion => 5,
            Refusal::BadFrame { .. } => 6,
            Refusal::BadSize => 7,
            Refusal::BadOuisig => 8,
            Refusal::TooLong => 9,
            Refusal::BadSignature => 10,
            Refusal::Unfinished => 11,
            Refusal::Untrusted => 12,
            Refusal::BadEnds => 13,
            Refusal::OtherLength => 14,
            Refusal::OtherDigest => 15,
            Refusal::OtherUri => 16,
        }
    }

    /// Where the section's text goes wrong, or the length taken; the refusals other than 3 and 6 have no such place.
    pub fn at(self) -> Option<u64> {
        match self {
            Refusal::BadHead { at } | Refusal::BadFrame { at } => Some(at),
            _ => None,
        }
    }

    /// The refusal with these two numbers of a result: its own, and the place, which is 0 where there is none.
    pub fn from_numbers(number: u64, place: u64) -> Option<Refusal> {
        Some(match (number, place) {
            (3, at) => Refusal::BadHead { at },
            (4, 0) => Refusal::HeadRule,
            (5, 0) => Refusal::BadVersion,
            (6, at) => Refusal::BadFrame { at },
            (7, 0) => Refusal::BadSize,
            (8, 0) => Refusal::BadOuisig,
            (9, 0) => Refusal::TooLong,
            (10, 0) => Refusal::BadSignature,
            (11, 0) => Refusal::Unfinished,
            (12, 0) => Refusal::Untrusted,
            (13, 0) => Refusal::BadEnds,
            (14, 0) => Refusal::OtherLength,
            (15, 0) => Refusal::OtherDigest,
            (16, 0) => Refusal::OtherUri,
            _ => return None,
        })
    }

    /// What it means, in words for the person who waits for the stream.
    pub fn meaning(self) -> &'static str {
        match self {
            Refusal::BadHead { .. } => {
                "the head is not well formed: wrong text, no end within 32,768 bytes, over 128 fields, or a field twice that may come only once"
            }
            Refusal::HeadRule => "the head breaks a rule of signed streams: a field is missing or has a wrong value",
            Refusal::BadVersion => "the stream is of another version than 4",
            Refusal::BadFrame { .. } => {
                "the body's framing is broken: a chunk line, the end of a chunk or the trailer is wrong"
            }
            Refusal::BadSize => {
                "a chunk has a size that the rule for blocks does not allow, or a part answer has not the bytes that its head gives"
            }
            Refusal::BadOuisig => {
                "a block's signature, or the hash that a part answer begins with, is missing, or one stands where none is due"
            }
            Refusal::TooLong => "the body is longer than 4,294,967,296 bytes",
            Refusal::BadSignature => "a signature is wrong: the stream was changed on its way, or not signed with this key",
            Refusal::Unfinished => "the stream stops before its end",
            Refusal::Untrusted => {
                "the key is not trusted: no record of the ring has it at the stream's time, or the stream is not signed with one key throughout"
            }
            Refusal::BadEnds => {
                "the fields about the show's end are wrong: Digest, X-Ouinet-Data-Size and X-Ouinet-Sig1 do not all stand there once and well written"
            }
            Refusal::OtherLength => "these are not the bytes of the whole show: the stream gives another length than theirs",
            Refusal::OtherDigest => "these are not the bytes of the whole show: the stream gives another SHA-256 than theirs",
            Refusal::OtherUri => "this is another show than the one asked for: the head has another URI",
        }
    }
}

impl fmt::Display for Refusal {
    fn fmt(&self, out: &mut fmt::Formatter) -> fmt::Result {
        match self.at() {
            Some(at) => write!(out, "{}; at byte {at} of it", self.meaning()),
            None => out.write_str(self.meaning()),
        }
    }
}

impl std::error::Error for Refusal {}

#[cfg(test)]
mod tests {
    use super::*;
    use crate::raw::{FIELD_LIMIT, HEAD_SIZE};

    #[test]
    fn numbers_and_refusals_fit() {
        for number in 3..=16 {
            for place in [0, 1, 32_768, u64::MAX] {
                let has_place = number == 3 || number == 6;
                match Refusal::from_numbers(number, place) {
                    Some(refusal) => {
                        assert_eq!(u64::from(refusal.number()), number);
                        assert_eq!(refusal.at(), has_place.then_some(place));
                    }
                    None => assert!(!has_place && place != 0, "{number}, {place}"),
                }
            }
        }
        for none in [0, 1, 2, 17, 18, 255, 259, 269, 272, u64::MAX] {
            assert_eq!(Refusal::from_numbers(none, 0), None);
        }
    }

    #[test]
    fn words() {
        let without_commas = Refusal::BadHead { at: 0 }.meaning().replace(',', "");
        assert!(without_commas.contains(&format!("no end within {HEAD_SIZE} bytes over {FIELD_LIMIT} fields")));
        assert_eq!(Refusal::Unfinished.to_string(), "the stream stops before its end");
        assert!(Refusal::BadFrame { at: 17 }.to_string().ends_with("; at byte 17 of it"));
    }
}
