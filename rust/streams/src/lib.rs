//! A seeded generator of version 4 signature streams with real Ed25519 signatures, honest ones and
//! broken ones, together with what a reader must say about them. It signs and hashes through
//! libsodium and builds all texts itself, so that its expectations do not come from a reader.
//!
//! * `rng`: the seeded numbers;
//! * `limits`: the limits that cases come to;
//! * `sodium`: Ed25519, SHA-512 and SHA-256, a package of its own;
//! * `base64`: encoding, and how an encoding looks;
//! * `head`: a head as an editable list of lines;
//! * `plan`: what an honest stream is made from, and how it is built;
//! * `end`: what is said about the end of a show, and what comes of it;
//! * `part_answer`: a run of a show's blocks as an answer of its own, and what comes of it;
//! * `random`: plans drawn at random;
//! * `answers`, `cuts`: two further files of a case;
//! * `case`: a case and what is expected of it;
//! * `table`: cases made one after another;
//! * `rules`: a table of the rules of paper 01, each broken once;
//! * `bounds`: both sides of each limit;
//! * `repeated`: heads in which a name comes in several lines;
//! * `asked`: streams asked for by their own URI, or by another one;
//! * `longer`: heads and trailers beyond paper 01's own limits;
//! * `ends`: shows that say where they end, rightly or wrongly;
//! * `parts`: part answers, right ones and wrong ones;
//! * `damage`: bytes changed, deleted, inserted, cut off;
//! * `wrong_text`: damage to the text of a section;
//! * `inputs`: malformed files;
//! * `sequence`: the cases of a seed in order;
//! * `example`: the example of document 000;
//! * `options`: a program's words;
//! * `writer`: a stream written block by block as its body comes;
//! * `long`: streams of any length from the writer.

pub mod answers;
pub mod asked;
pub mod base64;
pub mod bounds;
pub mod case;
pub mod cuts;
pub mod damage;
pub mod end;
pub mod ends;
pub mod example;
pub mod head;
pub mod inputs;
pub mod limits;
pub mod long;
pub mod longer;
pub mod options;
pub mod part_answer;
pub mod parts;
pub mod plan;
pub mod random;
pub mod repeated;
pub mod rng;
pub mod rules;
pub mod sequence;
pub mod table;
pub mod writer;
pub mod wrong_text;

pub use ::sodium;
