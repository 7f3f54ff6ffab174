//! A second reader for version 4 signature streams, written from paper 01 and requests #101, #102, #104, #105,
//! #106 and #108 alone.
//!
//! It exists to be compared with the verified reader, so it shares nothing with it. The modules:
//!
//! * `sha512`, `sha256`, `base64`: the codings the stream uses; `sha2`: what the first two have in common;
//! * `text`: characters, trimming, field lines and numbers;
//! * `ring`: the key ring;
//! * `other_show`: what is said of a head with another URI than the one asked for;
//! * `scan`: a value that is read from its front;
//! * `part`: which bytes of a show a part answer has;
//! * `head`, `chunk`, `trailer`: one judge for each kind of text in a stream;
//! * `ends`: the judge of what the head and the trailer say about the whole show;
//! * `place`: where a text went wrong, found by trying completions;
//! * `message`: what a block's question asks about;
//! * `event`: what a reading lists;
//! * `plain`: the plain reading of a whole stream in memory;
//! * `reader`: the same reading done piece by piece in bounded memory (the program uses this one);
//! * `calls`: how a list of feeds, answers and ends is read, on top of `plain`;
//! * `files`: the program's files.

#![forbid(unsafe_code)]

pub mod base64;
pub mod calls;
pub mod chunk;
pub mod ends;
pub mod event;
pub mod files;
pub mod head;
pub mod message;
pub mod other_show;
pub mod part;
pub mod place;
pub mod plain;
pub mod reader;
pub mod ring;
mod scan;
mod sha2;
pub mod sha256;
pub mod sha512;
pub mod text;
pub mod trailer;
