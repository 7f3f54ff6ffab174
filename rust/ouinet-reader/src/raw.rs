//! The C interface as it is, over slices: numbers and lent bytes, and no state outside of them. All unsafe code of the crate
//! is here. Most callers want [`Reader`](crate::Reader); this module is for callers with buffers of their own, and for tests.
//!
//! Every function is safe for any bytes and any lengths. With every state, a forged one too, a length in a result and a part
//! that is handed out are at most the sizes below and at most the buffer's length, a count of lines is at most
//! [`FIELD_LIMIT`], and bytes of head, block and question beyond these sizes are neither read nor written. A call whose state
//! or result is too short changes nothing and returns [`SHORT`]. Numbers in the buffers have eight bytes, lowest byte first.

#![allow(unsafe_code)]

/// The least length of a state.
pub const STATE_SIZE: usize = 504;
/// Where a state has the number of its phase.
pub(crate) const STATE_PHASE: usize = 0;
/// The phases in which a section is under way that is judged by its text.
pub(crate) const PHASE_HEAD: u64 = 0;
pub(crate) const PHASE_FIRST_LINE: u64 = 2;
pub(crate) const PHASE_DATA_END: u64 = 4;
pub(crate) const PHASE_NEXT_LINE: u64 = 5;
pub(crate) const PHASE_TRAILER: u64 = 7;
/// Where a state has how many bytes of the section under way have come.
pub(crate) const STATE_COUNT: usize = 8;
/// Where a state has the length of the accepted head.
pub(crate) const STATE_ACCEPTED: usize = 24;
/// Where a state has the size of a block.
pub(crate) const STATE_BLOCK_SIZE: usize = 40;
/// Where a state has the show's id, and the room for it.
pub(crate) const STATE_ID: usize = 56;
pub(crate) const ID_ROOM: usize = 64;
/// Where a state has the length of the id.
pub(crate) const STATE_ID_LENGTH: usize = 120;
/// Where a state has 1 if the answer is a part of the show.
pub(crate) const STATE_PART: usize = 472;
/// Where a state has the places of a part's first and last byte, and the length of the show.
pub(crate) const STATE_FIRST: usize = 480;
pub(crate) const STATE_LAST: usize = 488;
pub(crate) const STATE_TOTAL: usize = 496;
/// The least length of a head buffer: a head, and a trailer too, has at most so many bytes.
pub const HEAD_SIZE: usize = 32_768;
/// The least length of a block buffer.
pub const BLOCK_SIZE: usize = 65_536;
/// The least length of a question buffer.
pub const QUESTION_SIZE: usize = 32_768;
/// The length of a record in a ring: key, first second, last second.
pub const RECORD_SIZE: usize = 48;
/// The most records in a ring.
pub const RING_LIMIT: usize = 16;
/// The most field lines of an accepted head.
pub const FIELD_LIMIT: usize = 128;
/// The least length of a result: word, taken, two numbers, signature.
pub const RESULT_SIZE: usize = 96;

/// The word of a feed that brought no event.
pub const MORE: u8 = 0;
/// The word of a question; its numbers are the message's length and the record's number.
pub const QUESTION: u8 = 1;
/// The word of an accepted head; its number is the status, 206 for a part answer.
pub const HEAD: u8 = 2;
/// The word of a released block; its numbers are the offset in the show and the length.
pub const BLOCK: u8 = 3;
/// The word of a closed stream, which has no end fields or is a part answer; its number is how many bytes were released.
pub const CLOSED: u8 = 4;
/// The word of a refusal; its numbers are the refusal's and, with 3 and 6, where the section's text goes wrong.
pub const REFUSED: u8 = 5;
/// The word of a complete stream, after the last yes; its number is the body's length.
pub const COMPLETE: u8 = 6;
/// What a call returns where the state or the result is too short.
pub const SHORT: u8 = 255;

extern "C" {
    fn ouinet_reader_fresh(state: *mut u8, state_len: usize) -> u8;
    fn ouinet_reader_feed(
        state: *mut u8,
        state_len: usize,
        head: *mut u8,
        head_len: usize,
        block: *mut u8,
        block_len: usize,
        question: *mut u8,
        question_len: usize,
        ring: *const u8,
        ring_len: usize,
        uri: *const u8,
        uri_len: usize,
        piece: *const u8,
        piece_len: usize,
        result: *mut u8,
        result_len: usize,
    ) -> u8;
    fn ouinet_reader_answer(
        state: *mut u8,
        state_len: usize,
        head: *mut u8,
        head_len: usize,
        block: *mut u8,
        block_len: usize,
        question: *mut u8,
        question_len: usize,
        good: u8,
        result: *mut u8,
        result_len: usize,
    ) -> u8;
    fn ouinet_reader_end(
        state: *mut u8,
        state_len: usize,
        head: *mut u8,
        head_len: usize,
        block: *mut u8,
        block_len: usize,
        question: *mut u8,
        question_len: usize,
        result: *mut u8,
        result_len: usize,
    ) -> u8;
    fn ouinet_reader_block(state: *const u8, state_len: usize, block: *const u8, block_len: usize) -> usize;
    fn ouinet_reader_value(
        state: *const u8,
        state_len: usize,
        head: *const u8,
        head_len: usize,
        name: *const u8,
        name_len: usize,
        value: *mut u8,
        value_len: usize,
    ) -> usize;
    fn ouinet_reader_value_count(
        state: *const u8,
        state_len: usize,
        head: *const u8,
        head_len: usize,
        name: *const u8,
        name_len: usize,
    ) -> usize;
}

/// The buffers that a call is lent and may change.
pub struct Lent<'a> {
    /// The reader's state.
    pub state: &'a mut [u8],
    /// Where the head is gathered.
    pub head: &'a mut [u8],
    /// Where a block, and later the trailer, is gathered.
    pub block: &'a mut [u8],
    /// Where a question's message is written.
    pub question: &'a mut [u8],
    /// Where the call's result is written.
    pub result: &'a mut [u8],
}

/// Writes the state before the first byte. Returns 0, or [`SHORT`].
pub fn fresh(state: &mut [u8]) -> u8 {
    // SAFETY: the pointer and the length are those of a slice that nothing else uses during the call.
    unsafe { ouinet_reader_fresh(state.as_mut_ptr(), state.len()) }
}

/// Feeds a piece. Ring and URI are read only when the head is judged; the URI asked for may have any length and hold any bytes.
/// Returns the word, which the result holds too, or [`SHORT`].
pub fn feed(lent: &mut Lent, ring: &[u8], uri: &[u8], piece: &[u8]) -> u8 {
    // SAFETY: each pointer and the length after it are those of a slice. The exclusive ones overlap nothing, which their
    // borrows ensure. The library keeps no pointer, and reads and writes within these lengths for any bytes in them.
    unsafe {
        ouinet_reader_feed(
            lent.state.as_mut_ptr(),
            lent.state.len(),
            lent.head.as_mut_ptr(),
            lent.head.len(),
            lent.block.as_mut_ptr(),
            lent.block.len(),
            lent.question.as_mut_ptr(),
            lent.question.len(),
            ring.as_ptr(),
            ring.len(),
            uri.as_ptr(),
            uri.len(),
            piece.as_ptr(),
            piece.len(),
            lent.result.as_mut_ptr(),
            lent.result.len(),
        )
    }
}

/// Answers the open question; 0 is no, anything else yes. Returns the word, or [`SHORT`].
pub fn answer(lent: &mut Lent, good: u8) -> u8 {
    // SAFETY: as for `feed`.
    unsafe {
        ouinet_reader_answer(
            lent.state.as_mut_ptr(),
            lent.state.len(),
            lent.head.as_mut_ptr(),
            lent.head.len(),
            lent.block.as_mut_ptr(),
            lent.block.len(),
            lent.question.as_mut_ptr(),
            lent.question.len(),
            good,
            lent.result.as_mut_ptr(),
            lent.result.len(),
        )
    }
}

/// Says that no bytes will follow. Returns the word, or [`SHORT`].
pub fn end(lent: &mut Lent) -> u8 {
    // SAFETY: as for `feed`.
    unsafe {
        ouinet_reader_end(
            lent.state.as_mut_ptr(),
            lent.state.len(),
            lent.head.as_mut_ptr(),
            lent.head.len(),
            lent.block.as_mut_ptr(),
            lent.block.len(),
            lent.question.as_mut_ptr(),
            lent.question.len(),
            lent.result.as_mut_ptr(),
            lent.result.len(),
        )
    }
}

/// How many first bytes of the block buffer are the released block; 0 where none is out or a buffer is too short.
pub fn block(state: &[u8], block: &[u8]) -> usize {
    // SAFETY: each pointer and the length after it are those of a slice, which the library only reads.
    unsafe { ouinet_reader_block(state.as_ptr(), state.len(), block.as_ptr(), block.len()) }
}

/// The length of a signed field's value, which is copied to the front of `value` where it fits whole; 0 where there is none. Where
/// the head has several lines of that name, it is the first line's.
pub fn value(state: &[u8], head: &[u8], name: &[u8], value: &mut [u8]) -> usize {
    // SAFETY: each pointer and the length after it are those of a slice. The library writes to the last one alone, and
    // within its length; its borrow is exclusive.
    unsafe {
        ouinet_reader_value(
            state.as_ptr(),
            state.len(),
            head.as_ptr(),
            head.len(),
            name.as_ptr(),
            name.len(),
            value.as_mut_ptr(),
            value.len(),
        )
    }
}

/// How many lines of the accepted head have a signed field's name, at most [`FIELD_LIMIT`]; 0 where no value is handed out.
pub fn value_count(state: &[u8], head: &[u8], name: &[u8]) -> usize {
    // SAFETY: each pointer and the length after it are those of a slice, which the library only reads.
    unsafe {
        ouinet_reader_value_count(state.as_ptr(), state.len(), head.as_ptr(), head.len(), name.as_ptr(), name.len())
    }
}

/// What a call writes at the front of a result.
#[derive(Debug, Clone, Copy, PartialEq, Eq)]
pub struct Outcome {
    /// One of the words above.
    pub word: u64,
    /// How many bytes of the piece were taken.
    pub taken: u64,
    /// The word's first number.
    pub first: u64,
    /// The word's second number.
    pub second: u64,
}

impl Outcome {
    /// Reads the four numbers.
    pub fn of(result: &[u8; RESULT_SIZE]) -> Self {
        let number = |place| number(result, place);
        Outcome { word: number(0), taken: number(8), first: number(16), second: number(24) }
    }
}

/// The number at a place of a state or a result, which must have eight bytes there.
pub(crate) fn number(bytes: &[u8], place: usize) -> u64 {
    let mut eight = [0; 8];
    eight.copy_from_slice(&bytes[place..place + 8]);
    u64::from_le_bytes(eight)
}

/// The signature in a result: that of a question, or zeros.
pub fn signature(result: &[u8; RESULT_SIZE]) -> &[u8; 64] {
    // The range has 64 bytes, so this never panics.
    result[32..96].try_into().expect("64 bytes")
}
