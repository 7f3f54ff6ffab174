//! Signed streams (version 4) made from any bytes, and parts cut out of them: what the program `oui-sign` is made of.

#![forbid(unsafe_code)]

pub mod ends;
pub mod header;
pub mod key;
pub mod part;
pub mod scan;
pub mod show;
