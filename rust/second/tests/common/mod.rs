//! What several tests start from: a head that is good in all, paper 01's example, and a ring that trusts their key. Signatures are
//! stand-ins, since the readings ask about them and never check them. Each test uses some of it.
#![allow(dead_code)]

pub mod ways;

use second::ring::Record;

pub const KEY: &str = "AAAAAAAAAAAAAAAAAAAAAAAAAAAAAAAAAAAAAAAAAAA=";
pub const NEEDED: &str = "(response-status) (created) x-ouinet-version x-ouinet-uri x-ouinet-injection";

pub fn ring() -> Vec<Record> {
    vec![Record { key: [0; 32], first: 0, last: 999_999_999_999 }]
}

pub fn signature() -> String {
    format!("{}==", "A".repeat(86))
}

/// The value of a signature field over these names.
pub fn sig(key: &str, created: &str, list: &str) -> String {
    let signature = signature();
    format!(
        "keyId=\"ed25519={key}\",algorithm=\"hs2019\",created={created},headers=\"{list}\",signature=\"{signature}\""
    )
}

/// A head for blocks of 5 bytes: with this text between the colon and the line end of `X-Ouinet-URI`, these lines, the CR LF of
/// each included, and these names listed beside the needed ones.
pub fn head_with(uri: &str, lines: &str, listed: &str) -> String {
    let names = format!("{NEEDED} {listed}");
    let sig0 = sig(KEY, "1", names.trim_end());
    format!(
        "HTTP/1.1 200 OK\r\nX-Ouinet-Version: 4\r\nX-Ouinet-URI:{uri}\r\nX-Ouinet-Injection: id=a,ts=1\r\n{lines}\
         Transfer-Encoding: chunked\r\nX-Ouinet-BSigs: keyId=\"ed25519={KEY}\",algorithm=\"hs2019\",size=5\r\n\
         X-Ouinet-Sig0: {sig0}\r\n\r\n"
    )
}

/// The URI of the example.
pub const EXAMPLE_URI: &[u8] = b"https://example.com/hello";

/// The head of the example with these values for injection and block size.
pub fn example_head(injection: &str, size: &str) -> Vec<u8> {
    let sig0 = sig(KEY, "1584748800", &format!("{NEEDED} date content-type")).replace(",headers", ", headers");
    format!(
        "HTTP/1.1 200 OK\r\n\
         X-Ouinet-Version: 4\r\n\
         X-Ouinet-URI: https://example.com/hello\r\n\
         X-Ouinet-Injection: {injection}\r\n\
         Date: Sat, 21 Mar 2020 00:00:00 GMT\r\n\
         Content-Type: text/plain\r\n\
         X-Ouinet-Sig0: {sig0}\r\n\
         X-Ouinet-BSigs: keyId=\"ed25519={KEY}\",algorithm=\"hs2019\",size={size}\r\n\
         Transfer-Encoding: chunked\r\n\
         Trailer: Digest, X-Ouinet-Data-Size, X-Ouinet-Sig1\r\n\
         \r\n"
    )
    .into_bytes()
}

/// The example with these lines in its trailer, the CR LF of each included.
pub fn example(trailer: &str) -> Vec<u8> {
    let signature = signature();
    let body = format!(
        "5\r\nHello\r\n5;ouisig={signature}\r\n worl\r\n2;ouisig={signature}\r\nd!\r\n0;ouisig={signature}\r\n\
         {trailer}\r\n"
    );
    [example_head("id=qwertyuiop-12345,ts=1584748800", "5"), body.into_bytes()].concat()
}

/// What a reading lists for it, with these lines at the end.
pub fn example_lines(end: &[&str]) -> Vec<String> {
    let head = ["question 219", "head 200"];
    let blocks = ["question 83", "block 0 5", "question 83", "block 5 5", "question 84", "block 10 2"];
    head.iter().chain(&blocks).chain(end).map(|line| line.to_string()).collect()
}
