//! The reader with buffers of its own.

use crate::event::{Event, Question};
use crate::part::PartRange;
use crate::raw::{self, Lent, Outcome};
use crate::refusal::Refusal;
use crate::ring::Ring;
use crate::section::Section;
use crate::uri::{another_show, head_uri};
use std::fmt;

/// A call that came when it has no place: a feed or an end while a question is open, an answer while none is, or any call
/// after the last event. It changes nothing. The specification's number for it is 1.
#[derive(Debug, Clone, Copy, PartialEq, Eq)]
pub struct NotDue;

impl fmt::Display for NotDue {
    fn fmt(&self, out: &mut fmt::Formatter) -> fmt::Result {
        out.write_str("the call is not due: a question waits for its answer, or there is none, or the stream is over")
    }
}

impl std::error::Error for NotDue {}

/// What a feed did.
#[derive(Debug, Clone, Copy, PartialEq, Eq)]
pub struct Fed<'r> {
    /// How many bytes of the piece were taken. The rest is to be fed again, after the event was dealt with.
    pub taken: usize,
    /// The event that they brought. With none, the whole piece was taken and more bytes are wanted.
    pub event: Option<Event<'r>>,
}

/// A reader of one stream. It takes about 132 kB and the URI, whatever the length of the stream, and can be cloned at any time.
#[derive(Clone)]
pub struct Reader {
    ring: Ring,
    uri: Box<[u8]>,
    state: [u8; raw::STATE_SIZE],
    result: [u8; raw::RESULT_SIZE],
    head: Box<[u8]>,
    block: Box<[u8]>,
    question: Box<[u8]>,
    taken: u64,
    refused: Option<Section>,
    offered: Option<Box<[u8]>>,
}

impl Reader {
    /// A reader that waits for a stream's first byte. It trusts the keys of this ring, and takes the show of this URI alone: a head
    /// whose `X-Ouinet-URI` differs from it in any byte is refused with [`Refusal::OtherUri`]. The spaces and tabs around the head's
    /// value do not count; the URI given here is compared as it is, in its own case, with any blanks or line ends that it has.
    pub fn new(ring: Ring, uri: impl Into<Vec<u8>>) -> Self {
        let mut state = [0; raw::STATE_SIZE];
        let done = raw::fresh(&mut state);
        assert_eq!(done, 0, "the linked library wants a longer state than this crate was written for");
        Reader {
            ring,
            uri: uri.into().into(),
            state,
            result: [0; raw::RESULT_SIZE],
            head: vec![0; raw::HEAD_SIZE].into(),
            block: vec![0; raw::BLOCK_SIZE].into(),
            question: vec![0; raw::QUESTION_SIZE].into(),
            taken: 0,
            refused: None,
            offered: None,
        }
    }

    /// Feeds bytes of the stream, in a piece of any length. They are taken up to the first event, or all.
    pub fn feed(&mut self, piece: &[u8]) -> Result<Fed<'_>, NotDue> {
        let before = self.state;
        self.feed_raw(piece);
        let taken = Outcome::of(&self.result).taken as usize;
        self.taken += taken as u64;
        match self.event() {
            Ok(Some(Event::Refused(Refusal::OtherUri))) => self.offered = head_uri(&self.head).map(Box::from),
            Ok(Some(Event::Refused(refusal))) if self.is_about_a_section(refusal) => {
                self.refused = self.locate(before, &piece[..taken]);
            }
            _ => (),
        }
        Ok(Fed { taken, event: self.event()? })
    }

    /// Answers the open question: whether the signature is good. A yes gives [`Event::HeadAccepted`], [`Event::Block`] or, at
    /// the end, [`Event::Complete`], a no [`Refusal::BadSignature`].
    pub fn answer(&mut self, good: bool) -> Result<Event<'_>, NotDue> {
        raw::answer(&mut self.lend().0, u8::from(good));
        self.event()?.ok_or(NotDue)
    }

    /// Says that no bytes will follow. Since a closed or complete stream has had its last event, this is [`Refusal::Unfinished`].
    pub fn end(&mut self) -> Result<Event<'_>, NotDue> {
        raw::end(&mut self.lend().0);
        self.event()?.ok_or(NotDue)
    }

    /// The released block, from its event to the next feed or end; at other times nothing.
    pub fn block(&self) -> &[u8] {
        &self.block[..raw::block(&self.state, &self.block)]
    }

    /// The value of a field of the accepted head, whatever the case of its name. It is empty before the head is accepted
    /// and for a field that is not signed. Where the head has several lines of that name, it is the first line's; the signature
    /// covers them all.
    pub fn value(&self, name: impl AsRef<[u8]>) -> Vec<u8> {
        let mut value = vec![0; raw::HEAD_SIZE];
        let length = raw::value(&self.state, &self.head, name.as_ref(), &mut value);
        value.truncate(length);
        value
    }

    /// How many lines of the accepted head have that name, whatever its case: 1 for most signed fields, more for one that is
    /// repeated, such as `Vary` or `Via`. It is 0 where [`value`](Reader::value) has nothing to hand out: before the head is
    /// accepted, and for a field that is not signed. Items with commas between are not counted, and an empty value is a line too.
    pub fn value_count(&self, name: impl AsRef<[u8]>) -> usize {
        raw::value_count(&self.state, &self.head, name.as_ref())
    }

    /// The accepted head with its end, empty before it is accepted. Only what [`value`](Reader::value) gives of it is signed.
    pub fn accepted_head(&self) -> &[u8] {
        let length = raw::number(&self.state, raw::STATE_ACCEPTED);
        let length = usize::try_from(length).map_or(self.head.len(), |length| length.min(self.head.len()));
        &self.head[..length]
    }

    /// Which bytes of the show come, where the accepted head is that of a part answer (status 206); else nothing. Ask for it at
    /// [`Event::HeadAccepted`]: a part may come where the whole show was asked for, and then its blocks are not the body from its first byte on.
    pub fn range(&self) -> Option<PartRange> {
        self.is_accepted().then(|| PartRange::of(&self.state)).flatten()
    }

    /// The show's id, once the head is accepted: the parts of one show have one id, block size and key.
    pub fn id(&self) -> Option<&[u8]> {
        let length = usize::try_from(raw::number(&self.state, raw::STATE_ID_LENGTH)).unwrap_or(raw::ID_ROOM);
        let id = &self.state[raw::STATE_ID..raw::STATE_ID + length.min(raw::ID_ROOM)];
        self.is_accepted().then_some(id)
    }

    /// How many bytes each block of the show but the last has, once the head is accepted.
    pub fn block_size(&self) -> Option<u64> {
        self.is_accepted().then(|| raw::number(&self.state, raw::STATE_BLOCK_SIZE))
    }

    fn is_accepted(&self) -> bool {
        raw::number(&self.state, raw::STATE_ACCEPTED) > 0
    }

    /// How many bytes of the stream were taken, in all feeds.
    pub fn taken(&self) -> u64 {
        self.taken
    }

    /// The section whose text or length was refused, after [`Refusal::BadHead`] or [`Refusal::BadFrame`]: the place that the refusal
    /// carries is counted from its first byte. After a refusal at the trailer's end, which is about the fields in it or what they
    /// say, it is the trailer. Else nothing.
    pub fn refused_section(&self) -> Option<Section> {
        self.refused
    }

    /// The URI that the head gives, after [`Refusal::OtherUri`]; else nothing. It is not verified, and good for a message alone.
    pub fn offered_uri(&self) -> Option<&[u8]> {
        self.offered.as_deref()
    }

    /// A sentence for the person who waits, after [`Refusal::OtherUri`]; else nothing: what was asked for and what came, as
    /// [`another_show`] has it.
    pub fn another_show(&self) -> Option<String> {
        self.offered_uri().map(|offered| another_show(&self.uri, offered))
    }

    /// The URI that the reader was made with.
    pub fn uri(&self) -> &[u8] {
        &self.uri
    }

    /// The key ring that the reader was made with.
    pub fn ring(&self) -> &Ring {
        &self.ring
    }

    /// Whether the section that was refused is to be told: one with a wrong text or length, or the trailer, whose end was judged. A head
    /// that is well written and refused all the same is none.
    fn is_about_a_section(&self, refusal: Refusal) -> bool {
        match refusal {
            Refusal::BadHead { .. } | Refusal::BadFrame { .. } => true,
            Refusal::BadEnds | Refusal::OtherLength | Refusal::OtherDigest => true,
            Refusal::Untrusted => self.is_accepted(),
            _ => false,
        }
    }

    /// The section that the last byte taken belongs to. The call is made once more without that byte, by a copy of the reader in
    /// the state before it: the copy's state then says which section is under way and how many bytes of it have come. What a
    /// refusal has set to zero in the buffers does not matter for that.
    fn locate(&self, before: [u8; raw::STATE_SIZE], taken: &[u8]) -> Option<Section> {
        let (_, rest) = taken.split_last()?;
        let mut again = Reader { state: before, ..self.clone() };
        again.feed_raw(rest);
        Section::under_way(&again.state, self.taken)
    }

    fn feed_raw(&mut self, piece: &[u8]) {
        let (mut lent, ring, uri) = self.lend();
        raw::feed(&mut lent, ring.as_bytes(), uri, piece);
    }

    /// The buffers for a call, the ring, and the URI asked for.
    fn lend(&mut self) -> (Lent<'_>, &Ring, &[u8]) {
        let lent = Lent {
            state: &mut self.state,
            head: &mut self.head,
            block: &mut self.block,
            question: &mut self.question,
            result: &mut self.result,
        };
        (lent, &self.ring, &self.uri)
    }

    /// The event in the last call's result. Refusals 1 and 2 are none; 2 would be about buffers that this crate makes.
    pub(crate) fn event(&self) -> Result<Option<Event<'_>>, NotDue> {
        let Outcome { word, first, second, .. } = Outcome::of(&self.result);
        Ok(match word as u8 {
            raw::MORE => None,
            raw::QUESTION => Some(Event::Question(self.question(first as usize, second as usize))),
            raw::HEAD => Some(Event::HeadAccepted { status: first as u16 }),
            raw::BLOCK => Some(Event::Block { offset: first, bytes: &self.block[..second as usize] }),
            raw::CLOSED => Some(Event::Closed { total: first }),
            raw::COMPLETE => Some(Event::Complete { total: first }),
            _ if first == 1 => return Err(NotDue),
            _ => {
                let refusal = Refusal::from_numbers(first, second);
                Some(Event::Refused(
                    refusal.expect("the linked library is another one than this crate was written for"),
                ))
            }
        })
    }

    fn question(&self, length: usize, record: usize) -> Question<'_> {
        Question {
            key: &self.ring.records()[record].key,
            record,
            message: &self.question[..length],
            signature: raw::signature(&self.result),
        }
    }
}

impl fmt::Debug for Reader {
    fn fmt(&self, out: &mut fmt::Formatter) -> fmt::Result {
        let uri = self.uri.escape_ascii().to_string();
        out.debug_struct("Reader").field("ring", &self.ring).field("uri", &uri).finish_non_exhaustive()
    }
}
