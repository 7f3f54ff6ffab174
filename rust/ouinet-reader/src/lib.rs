//! Reads signed streams: HTTP responses in Ouinet's version 4 signature format, in which the head and every block of the
//! body carry an Ed25519 signature. The reading itself is done by a proved library with a C interface, which this crate
//! links; the crate adds types, buffers of the right lengths and a way to run a whole stream. It depends on nothing else.
//!
//! The reader does no Ed25519 of its own. It asks: *does this signature over this message belong to this key?* The caller
//! answers with a routine of its choice, and only after a yes are a head's values or a block's bytes handed out.
//!
//! # A whole stream
//!
//! [`run`] reads from anything that implements [`std::io::Read`]:
//!
//! ```no_run
//! use ouinet_reader::{run, Ending, Event, Question, Ring};
//! use std::fs::File;
//!
//! # fn ed25519_verify(key: &[u8; 32], message: &[u8], signature: &[u8; 64]) -> bool { false }
//! # fn main() -> Result<(), Box<dyn std::error::Error>> {
//! let ring = Ring::parse(&std::fs::read("ring")?)?;
//! let mut body = Vec::new();
//! let ending = run(
//!     File::open("stream")?,
//!     ring,
//!     "https://example.com/south", // the show that was asked for
//!     |question: &Question| ed25519_verify(question.key, question.message, question.signature),
//!     |reader, event| {
//!         if let Event::Block { bytes, .. } = event {
//!             body.extend_from_slice(bytes);
//!         }
//!         if reader.range().is_some() {
//!             return Err(std::io::Error::other("a part of the show came, and all of it was asked for"));
//!         }
//!         if let Some(sentence) = reader.another_show() {
//!             println!("{sentence}");
//!         }
//!         Ok::<(), std::io::Error>(())
//!     },
//! )?;
//! match ending {
//!     Ending::Complete { total } => println!("{total} bytes, all verified, and the whole show"),
//!     Ending::Closed { total } => println!("{total} bytes, all verified; whether that is the whole show was not checked"),
//!     Ending::Refused(refusal) => println!("refused with {}: {refusal}", refusal.number()),
//! }
//! # Ok(())
//! # }
//! ```
//!
//! # Piece by piece
//!
//! Where bytes come from an event loop rather than a blocking source, call [`Reader::feed`], [`Reader::answer`] and
//! [`Reader::end`]. A feed takes bytes up to the first event, or all of them; what it did not take is fed again:
//!
//! ```
//! use ouinet_reader::{Event, NotDue, Reader};
//!
//! /// Feeds a piece that has just come. True once the last event is there.
//! fn piece_came(
//!     reader: &mut Reader,
//!     mut piece: &[u8],
//!     body: &mut Vec<u8>,
//!     verify: fn(&[u8; 32], &[u8], &[u8; 64]) -> bool,
//! ) -> Result<bool, NotDue> {
//!     loop {
//!         let fed = reader.feed(piece)?;
//!         piece = &piece[fed.taken..];
//!         let good = match fed.event {
//!             None => return Ok(false),
//!             Some(Event::Question(question)) => verify(question.key, question.message, question.signature),
//!             Some(event) => return Ok(event.is_final()),
//!         };
//!         match reader.answer(good)? {
//!             Event::Block { bytes, .. } => body.extend_from_slice(bytes),
//!             event if event.is_final() => return Ok(true),
//!             _ => (),
//!         }
//!     }
//! }
//! # let mut reader = Reader::new(ouinet_reader::Ring::empty(), "");
//! # let mut body = Vec::new();
//! # assert_eq!(piece_came(&mut reader, b"HTTP/1.1 200 OK\r\n", &mut body, |_, _, _| true), Ok(false));
//! # assert_eq!(piece_came(&mut reader, b"\r\n", &mut body, |_, _, _| true), Ok(true));
//! ```
//!
//! # Where a text went wrong
//!
//! A refusal that is about a section says where its text goes wrong, and the reader where in the stream the section starts:
//!
//! ```
//! use ouinet_reader::{Event, Reader, Refusal, Ring, SectionKind};
//!
//! let mut reader = Reader::new(Ring::empty(), "https://example.com/south");
//! let fed = reader.feed(b"HTTP/1.1 200 OK\r\nDate : now\r\n\r\n").expect("in turn");
//! assert_eq!(fed.event, Some(Event::Refused(Refusal::BadHead { at: 21 }))); // the space after `Date`
//! let section = reader.refused_section().expect("a section");
//! assert_eq!((section.kind, section.start, section.length), (SectionKind::Head, 0, 31));
//! ```
//!
//! # Which show it is
//!
//! A signature says who signed a show, not that it is the one that was wanted. So the reader is told the URI asked for, and refuses a
//! head with any other before it asks about a signature. What came instead can be told to the user:
//!
//! ```
//! use ouinet_reader::another_show;
//!
//! assert_eq!(
//!     another_show(b"https://example.com/south", b"https://example.com/north"),
//!     "this is another show: asked for `https://example.com/south`, got `https://example.com/north`"
//! );
//! ```
//!
//! A program in which any show will do, because its user says so, reads the head beforehand and hands in what [`head_uri`] finds there.
//!
//! # What *complete* means, and *closed*
//!
//! The signature of a block does not say that it is the last one. So a stream may have three fields about its end, in the head or in the
//! trailer: `Digest`, `X-Ouinet-Data-Size` and `X-Ouinet-Sig1`, a signature over both and over what the head's own covers. Where they are
//! there, the reader counts and hashes what it hands out, asks one question more after the trailer, and a yes gives
//! [`Event::Complete`]: the bytes that were handed out are the whole show. Where they are wrong, or are about other bytes, the stream is
//! refused with [`Refusal::BadEnds`], [`Refusal::OtherLength`], [`Refusal::OtherDigest`] or [`Refusal::Untrusted`], although its blocks,
//! each of them verified, are out by then.
//!
//! Where none of the three is there, the last event is [`Event::Closed`]: the framing ended well. That does not say that the body is
//! complete: a stream that was cut after a block and closed by someone on its way, who also leaves the three out, reads like a shorter one.
//!
//! # Part answers
//!
//! Who asks for a range of a show gets some of its blocks, with status 206, and [`Reader::range`] says which. The offset of each
//! [`Event::Block`] is that in the whole show. The fields about the end are not looked at, so the last event is [`Event::Closed`], with the
//! length of the part:
//!
//! ```
//! use ouinet_reader::{Event, PartRange, Reader};
//!
//! /// Where the first block belongs, or why the head will not do.
//! fn head_came(reader: &Reader, have: u64) -> Result<u64, &'static str> {
//!     match reader.range() {
//!         None => Ok(0), // the whole show
//!         Some(PartRange { first, .. }) if first <= have => Ok(first),
//!         Some(_) => Err("the part begins behind what is there"),
//!     }
//! }
//! ```
//!
//! A part may come where the whole show was asked for, from anybody on the way. A program that wants the whole show must look at
//! [`Reader::range`] when the head is accepted, and not put the blocks of a part where the show's beginning belongs.
//!
//! To go on with a body of which the beginning is there, hold [`Reader::id`], [`Reader::block_size`] and the key of the questions against
//! those that the beginning came with. The last 64 bytes of a block's question are the hash of the block, chained: SHA-512 of the hash of the
//! block before and the block. So where the first new block's question ends in the SHA-512 of the chained hash of what is there and that
//! block, its signature is over what is there, too.

#![deny(missing_docs)]
#![deny(unsafe_code)]

mod base64;
mod event;
mod part;
pub mod raw;
mod reader;
mod refusal;
mod ring;
mod run;
mod section;
mod uri;

pub use event::{Event, Question};
pub use part::PartRange;
pub use reader::{Fed, NotDue, Reader};
pub use refusal::Refusal;
pub use ring::{Record, Ring, RingFault, MOST_RECORDS};
pub use run::{run, Ending, RunError};
pub use section::{Section, SectionKind};
pub use uri::{another_show, head_uri, printable, quoted};
