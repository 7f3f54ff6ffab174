//! What several tests start from: the example without and with the fields about its end, its ring, and its head with lines put in;
//! events as lines; and buffers for the raw calls. All answers are yes, so the signatures need not fit. Each test uses some of it.
#![allow(dead_code)]

use ouinet_reader::raw::{self, Lent, Outcome};
use ouinet_reader::{Event, Ring};

/// The example, with the fields about its end in its trailer.
pub const STREAM: &[u8] = include_bytes!("../../../../crates/ouiread/data/stream");
pub const URI: &[u8] = include_bytes!("../../../../crates/ouiread/data/uri");
const RING: &[u8] = include_bytes!("../../../../crates/ouiread/data/ring");
/// What a reader says of it.
pub const WHOLE_LINES: &str = include_str!("../../../../crates/ouiread/stdout");
/// How many fields the example's head has.
pub const OWN_FIELDS: usize = 9;

pub fn ring() -> Ring {
    Ring::parse(RING).expect("a good ring")
}

/// The example up to its trailer.
pub fn front() -> &'static [u8] {
    let find = |from: usize, text: &[u8]| {
        let found = STREAM[from..].windows(text.len()).position(|window| window == text);
        from + found.expect("the text is there") + text.len()
    };
    let last_line = find(0, b"\r\n0;ouisig=");
    &STREAM[..find(last_line, b"\r\n")]
}

/// The example's trailer, with the fields about its end.
pub fn ends() -> &'static str {
    std::str::from_utf8(&STREAM[front().len()..]).expect("a trailer of text")
}

/// The example without fields about its end.
pub fn plain() -> Vec<u8> {
    with_trailer("\r\n")
}

/// The example with them.
pub fn whole() -> Vec<u8> {
    STREAM.to_vec()
}

pub fn with_trailer(trailer: &str) -> Vec<u8> {
    [front(), trailer.as_bytes()].concat()
}

/// The example's head with these lines behind the status line, and these words behind the last listed name.
pub fn head_with(lines: &str, listed: &str) -> Vec<u8> {
    let end = STREAM.windows(4).position(|four| four == b"\r\n\r\n").expect("a head") + 4;
    let head = std::str::from_utf8(&STREAM[..end]).expect("a head of text");
    let list = "content-type\"";
    assert!(head.contains(list), "the example's list ends in another name");
    let listed = head.replacen(list, &format!("content-type{listed}\""), 1);
    listed.replacen("\r\n", &format!("\r\n{lines}"), 1).into_bytes()
}

/// The hash of the example's first block, as document 000 prints it.
pub const HASH_0: &str = "NhX4DJ0pPtdAJof5SyLVjlKbjMeRb4+sf933+9WvTPd309eVp6AKFr9+fz+5Vh7puq5IDan+ehh2nnGIawPzFQ==";

/// The example's head as that of a part answer, with this `Content-Range` and the status of the whole answer.
pub fn part_head(range: &str) -> String {
    part_head_with(&format!("Content-Range: {range}\r\nX-Ouinet-HTTP-Status: 200\r\n"))
}

/// The example's head with status 206 and these lines.
pub fn part_head_with(lines: &str) -> String {
    let head = String::from_utf8(head_with(lines, "")).expect("a head of text");
    head.replacen("200 OK", "206 Partial Content", 1)
}

/// The lines of the example's body, chunk lines and data by turns, up to the trailer.
pub fn body_lines() -> [String; 7] {
    let body = std::str::from_utf8(&front()[head_with("", "").len()..]).expect("a body of text");
    let lines: Vec<String> = body.split_inclusive("\r\n").map(str::to_string).collect();
    lines.try_into().expect("three blocks and the line of size 0")
}

/// Document 000's part answer, `bytes 5-11/12`: the second and the third block. Its head has the fields about the end.
pub fn part() -> Vec<u8> {
    let [_, _, _, second, line, third, zero] = body_lines();
    let ends = ends().trim_end();
    let head = part_head_with(&format!("{ends}\r\nContent-Range: bytes 5-11/12\r\nX-Ouinet-HTTP-Status: 200\r\n"));
    let first = format!("5;ouihash={HASH_0}\r\n");
    [head, first, second, line, third, zero, "\r\n".to_string()].concat().into_bytes()
}

/// An event as a line of the small program.
pub fn line(event: &Event) -> String {
    match event {
        Event::Question(question) => format!("question {}\n", question.message.len()),
        Event::HeadAccepted { status } => format!("head {status}\n"),
        Event::Block { offset, bytes } => format!("block {offset} {}\n", bytes.len()),
        Event::Closed { total } => format!("closed {total}\n"),
        Event::Complete { total } => format!("complete {total}\n"),
        Event::Refused(refusal) => match refusal.at() {
            Some(at) => format!("refused {} at {at}\n", refusal.number()),
            None => format!("refused {}\n", refusal.number()),
        },
    }
}

/// Buffers of the least lengths, marked.
#[derive(Clone, PartialEq, Debug)]
pub struct Buffers {
    pub state: Vec<u8>,
    pub head: Vec<u8>,
    pub block: Vec<u8>,
    pub question: Vec<u8>,
    pub result: Vec<u8>,
}

/// The least lengths of head, block and question.
pub const ENOUGH: [usize; 3] = [raw::HEAD_SIZE, raw::BLOCK_SIZE, raw::QUESTION_SIZE];

impl Buffers {
    pub fn fresh() -> Self {
        let mut state = vec![0; raw::STATE_SIZE];
        assert_eq!(raw::fresh(&mut state), 0);
        Buffers {
            state,
            head: vec![1; raw::HEAD_SIZE],
            block: vec![2; raw::BLOCK_SIZE],
            question: vec![3; raw::QUESTION_SIZE],
            result: vec![4; raw::RESULT_SIZE],
        }
    }

    /// So much of head, block and question is lent.
    pub fn lend(&mut self, [head, block, question]: [usize; 3]) -> Lent<'_> {
        Lent {
            state: &mut self.state,
            head: &mut self.head[..head],
            block: &mut self.block[..block],
            question: &mut self.question[..question],
            result: &mut self.result,
        }
    }

    pub fn feed(&mut self, lengths: [usize; 3], piece: &[u8]) -> u8 {
        raw::feed(&mut self.lend(lengths), ring().as_bytes(), URI, piece)
    }

    pub fn outcome(&self) -> Outcome {
        Outcome::of(self.result[..].try_into().expect("a result"))
    }
}
