//! The limits that cases come to, each said once: paper 01's, as request #108 moves those of heads and trailers.

/// The most bytes of a head, and of a trailer.
pub const SECTION: usize = 32_768;
/// The most field lines of a head.
pub const FIELDS: usize = 128;
/// The most names in the signed list, the two pseudo names included.
pub const LISTED: usize = 32;
/// The most bytes of a chunk line.
pub const LINE: usize = 128;
/// The most bytes of a body.
pub const BODY: u64 = 4_294_967_296;

/// The first two as paper 01 had them. Cases stay there, so that a limit that was left behind somewhere shows.
pub mod before {
    pub const SECTION: usize = 8192;
    pub const FIELDS: usize = 64;
}
