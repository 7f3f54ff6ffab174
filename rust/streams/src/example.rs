//! The example of document 000 as a fixed stream: block size 5, `Hello world!`, with a fixed test
//! key. Names stand in the list as the document prints them. Also the document's answer that has the show's second half.

use crate::base64;
use crate::end::End;
use crate::head::{replaced, Field};
use crate::part_answer::PartAnswer;
use crate::plan::{blocks_of, Plan, RingRecord, SizeStyle};
use crate::sodium::Signer;

/// The seed of the test key. It is public and good for nothing else.
pub const TEST_SEED: [u8; 32] = *b"a key for tests, known to anyone";

/// The lines that paper 01 gives for the example, with the end that request #101 gives it.
pub const LINES: [&str; 10] = [
    "question 219",
    "head 200",
    "question 83",
    "block 0 5",
    "question 83",
    "block 5 5",
    "question 84",
    "block 10 2",
    "question 303",
    "complete 12",
];

/// The lines that request #104 gives for the part of it.
pub const PART_LINES: [&str; 7] =
    ["question 219", "head 206", "question 83", "block 5 5", "question 84", "block 10 2", "closed 7"];

const TS: &str = "1584748800";
const SIGNED: [&str; 5] = ["x-Ouinet-version", "x-Ouinet-uri", "x-Ouinet-injection", "date", "content-type"];

/// The plan of the example.
pub fn plan() -> Plan {
    let signer = Signer::from_seed(&TEST_SEED);
    let record = RingRecord { key: signer.public, first: 0, last: 4_102_444_800 };
    let mut plan = Plan {
        status: b"200".to_vec(),
        reason: b"OK".to_vec(),
        fields: vec![
            Field::new("X-Ouinet-Version", "4"),
            Field::new("X-Ouinet-URI", "https://example.com/hello"),
            Field::new("X-Ouinet-Injection", ""),
            Field::new("Date", "Sat, 21 Mar 2020 00:00:00 GMT"),
            Field::new("Content-Type", "text/plain"),
            Field::new("X-Ouinet-Sig0", ""),
            Field::new("X-Ouinet-BSigs", ""),
            Field::new("Transfer-Encoding", "chunked"),
            Field::new("Trailer", "Digest, X-Ouinet-Data-Size, X-Ouinet-Sig1"),
        ],
        pseudo: b"(response-status) (created)".to_vec(),
        listed: SIGNED.iter().map(|name| name.as_bytes().to_vec()).collect(),
        id: Vec::new(),
        created: TS.as_bytes().to_vec(),
        gaps: ["", "", "", "", " ", ""].map(|gap| gap.as_bytes().to_vec()),
        block_size: 5,
        blocks: blocks_of(b"Hello world!", 5),
        sizes: SizeStyle::Lower,
        trailer: trailer(&signer),
        ring: vec![record],
        signer,
    };
    plan.set_injection(b"qwertyuiop-12345", TS.as_bytes());
    plan
}

/// The trailer of the example with its full signature.
fn trailer(signer: &Signer) -> Vec<u8> {
    let digest = "SHA-256=wFNeS+K3n/2TKRMFQ2v4iTFOSj+uwF7P/Lt98xrZ5Ro=";
    let message = format!(
        "(response-status): 200\n(created): {TS}\nx-ouinet-version: 4\nx-ouinet-uri: https://example.com/hello\n\
         x-ouinet-injection: id=qwertyuiop-12345,ts={TS}\ndate: Sat, 21 Mar 2020 00:00:00 GMT\n\
         content-type: text/plain\ndigest: {digest}\nx-ouinet-data-size: 12"
    );
    let key = base64::encode(&signer.public);
    let signature = base64::encode(&signer.sign(message.as_bytes()));
    format!(
        "Digest: {digest}\r\nX-Ouinet-Data-Size: 12\r\nX-Ouinet-Sig1: keyId=\"ed25519={}\",algorithm=\"hs2019\",\
         created={TS}, headers=\"(response-status) (created) {} digest x-Ouinet-data-size\",signature=\"{}\"\r\n\r\n",
        String::from_utf8_lossy(&key),
        SIGNED.join(" "),
        String::from_utf8_lossy(&signature),
    )
    .into_bytes()
}

/// Document 000's answer to a request for the second half: the whole show's end stands in its head, and its fields in the order that is printed.
pub fn part() -> PartAnswer {
    let mut show = plan();
    show.reason = b"Partial Content".to_vec();
    show.trailer = b"\r\n".to_vec();
    show.fields.retain(|field| field.name != b"Trailer");
    let mut end = End::of(&show);
    end.in_head = [true; 3];
    end.gaps[2] = b" ".to_vec();
    end.list = replaced(&end.list, b"x-ouinet-data-size", b"x-Ouinet-data-size");
    let coding = show.fields.pop();
    let written = end.signed(&show);
    show.fields.extend(written.head.into_iter().chain(coding));
    PartAnswer::of(&show, 1..3)
}

/// A stream of the same kind that is as short as can be: one block of two bytes, no trailer.
pub fn short_plan() -> Plan {
    let mut plan = plan();
    plan.fields.retain(|field| !["Date", "Content-Type", "Trailer"].iter().any(|name| field.name == name.as_bytes()));
    plan.listed.truncate(3);
    plan.set_injection(b"a", b"7");
    plan.created = b"0".to_vec();
    plan.field("X-Ouinet-URI").value = b"u".to_vec();
    plan.gaps = std::array::from_fn(|_| Vec::new());
    plan.blocks = vec![b"ab".to_vec()];
    plan.trailer = b"\r\n".to_vec();
    plan
}

#[cfg(test)]
mod tests {
    use super::*;

    #[test]
    fn the_generator_itself_expects_these_lines() {
        assert_eq!(plan().build().lines(), LINES);
        assert_eq!(part().build().lines(), PART_LINES);
    }

    /// What document 000 prints of its part answer, with our own key and signatures.
    #[test]
    fn the_part_is_that_of_the_document() {
        let built = part().build();
        let names: Vec<&[u8]> = built.head.fields.iter().map(|field| &field.name[..]).collect();
        let due = [
            "X-Ouinet-Version",
            "X-Ouinet-URI",
            "X-Ouinet-Injection",
            "Date",
            "Content-Type",
            "X-Ouinet-Sig0",
            "X-Ouinet-BSigs",
            "Digest",
            "X-Ouinet-Data-Size",
            "X-Ouinet-Sig1",
            "Transfer-Encoding",
            "Content-Range",
            "X-Ouinet-HTTP-Status",
        ];
        assert_eq!(names, due.map(str::as_bytes));
        assert_eq!(built.head.status_line, b"HTTP/1.1 206 Partial Content");
        assert_eq!(built.head.fields[11].value, b"bytes 5-11/12");
        let hash = "NhX4DJ0pPtdAJof5SyLVjlKbjMeRb4+sf933+9WvTPd309eVp6AKFr9+fz+5Vh7puq5IDan+ehh2nnGIawPzFQ==";
        assert_eq!(built.parts[1].bytes, format!("5;ouihash={hash}\r\n").as_bytes());
        // The show's own head, with its end in it, is signed alike
        let sig1 = &built.head.fields[9].value;
        assert!(sig1.ends_with(&trailer_signature()[..]), "{}", String::from_utf8_lossy(sig1));
    }

    /// The last characters of Sig1 in the example's trailer, which is written by hand.
    fn trailer_signature() -> Vec<u8> {
        let trailer = plan().trailer;
        trailer[trailer.len() - 4 - 90..trailer.len() - 4].to_vec()
    }
}
