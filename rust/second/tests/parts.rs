//! Part answers: the examples of request #104, read by the plain reading, the piecewise reader and the list of calls, which must agree.
//! Signatures are stand-ins, since the readings ask about them and never check them. Here are the answers that all of them start from, and
//! document 000's own example; the points of the request are in the files of the folder `parts`.

#[path = "parts/blocks.rs"]
mod blocks;
mod common;
#[path = "parts/head.rs"]
mod head;
#[path = "parts/lines.rs"]
mod lines;

use common::{example, head_with, ring, sig, signature, ways, EXAMPLE_URI, KEY, NEEDED};
use second::base64;
use second::event::{Event, Question, Refusal};
use second::plain;
use second::ring::Record;

const HELLO: &[u8] = b"Hello world!";
/// The hash of `Hello` as document 000 prints it on its line.
const HASH_0: &str = "NhX4DJ0pPtdAJof5SyLVjlKbjMeRb4+sf933+9WvTPd309eVp6AKFr9+fz+5Vh7puq5IDan+ehh2nnGIawPzFQ==";
const STATUS: &str = "X-Ouinet-HTTP-Status: 200\r\n";
/// What the head's message has behind `(response-status)`, with nothing else listed.
const SIGNED: &str = "\n(created): 1\nx-ouinet-version: 4\nx-ouinet-uri: u\nx-ouinet-injection: id=a,ts=1";
/// The three of request #101, right ones for `Hello world!`.
const DIGEST: &str = "Digest: SHA-256=wFNeS+K3n/2TKRMFQ2v4iTFOSj+uwF7P/Lt98xrZ5Ro=\r\n";
const SIZE: &str = "X-Ouinet-Data-Size: 12\r\n";

fn sig1() -> String {
    format!("X-Ouinet-Sig1: {}\r\n", sig(KEY, "1", &format!("{NEEDED} digest x-ouinet-data-size")))
}

/// An answer that can be changed, its show `Hello world!` in blocks of 5 bytes unless something else is said.
#[derive(Clone)]
struct Answer {
    status: &'static str,
    /// Lines of the head beside the needed ones, the CR LF of each included, and the names listed beside the needed ones.
    lines: String,
    listed: String,
    block_size: usize,
    /// All that follows the head.
    rest: Vec<u8>,
    ring: Vec<Record>,
    asked: &'static [u8],
}

/// A chunk line.
fn line(size: usize, extension: &str) -> String {
    format!("{size:x}{extension}\r\n")
}

fn ouisig() -> String {
    format!(";ouisig={}", signature())
}

fn ouihash() -> String {
    format!(";ouihash={HASH_0}")
}

/// Chunks, the first line's extension, and this in the place of the 0 line and the trailer.
fn chunks(first: &str, blocks: &[&[u8]], end: &str) -> Vec<u8> {
    let mut out = Vec::new();
    for (number, block) in blocks.iter().enumerate() {
        let extension = if number == 0 { first.to_string() } else { ouisig() };
        out.extend([line(block.len(), &extension).as_bytes(), block, b"\r\n"].concat());
    }
    out.extend(end.bytes());
    out
}

/// The 0 line and an empty trailer.
fn zero() -> String {
    format!("{}\r\n", line(0, &ouisig()))
}

impl Answer {
    /// An answer of status 206 with these lines, and nothing behind its head.
    fn head(lines: &str) -> Self {
        Answer {
            status: "206 Partial Content",
            lines: lines.to_string(),
            listed: String::new(),
            block_size: 5,
            rest: Vec::new(),
            ring: ring(),
            asked: b"u",
        }
    }

    /// The same with this `Content-Range`.
    fn range(value: &str) -> Self {
        Answer::head(&format!("Content-Range: {value}\r\n{STATUS}"))
    }

    /// `bytes 5-11/12`, and then this.
    fn then(rest: impl Into<Vec<u8>>) -> Self {
        Answer { rest: rest.into(), ..Answer::range("bytes 5-11/12") }
    }

    /// The bytes a to b of a body, in blocks of this size.
    fn of(body: &[u8], block_size: usize, a: usize, b: usize) -> Self {
        let first = if a > 0 { ouihash() } else { String::new() };
        let blocks: Vec<&[u8]> = body[a..=b].chunks(block_size).collect();
        let range = format!("bytes {a}-{b}/{}", body.len());
        Answer { block_size, rest: chunks(&first, &blocks, &zero()), ..Answer::range(&range) }
    }

    /// An answer of status 200, and then this.
    fn whole(lines: &str, rest: impl Into<Vec<u8>>) -> Self {
        Answer { status: "200 OK", rest: rest.into(), ..Answer::head(lines) }
    }

    fn head_bytes(&self) -> Vec<u8> {
        let head = head_with(" u", &self.lines, &self.listed);
        let size = format!("size={}", self.block_size);
        head.replace("200 OK", self.status).replace("size=5", &size).into_bytes()
    }

    fn stream(&self) -> Vec<u8> {
        [self.head_bytes(), self.rest.clone()].concat()
    }

    fn events(&self, answers: &[bool]) -> Vec<Event> {
        ways::events(&self.stream(), &self.ring, self.asked, answers)
    }

    /// All lines, all answers yes.
    fn told(&self) -> Vec<String> {
        self.events(&[true; 40]).iter().map(Event::to_string).collect()
    }

    /// What comes behind the accepted head.
    fn body_told(&self) -> Vec<String> {
        let told = self.told();
        assert_eq!(told[1], format!("head {}", &self.status[..3]), "{:?}", self.lines);
        told[2..].to_vec()
    }

    /// Behind the accepted head comes nothing but this.
    fn is(&self, last: &str) {
        assert_eq!(self.body_told(), [last], "{:?}", self.rest.escape_ascii().to_string());
    }

    /// It ends so, after these blocks, each asked about by a message of its own.
    fn gives(&self, blocks: &[&str], last: &str) {
        let told = self.body_told();
        let others: Vec<&str> = told.iter().map(String::as_str).filter(|line| !line.starts_with("question")).collect();
        assert_eq!(others, [blocks, &[last]].concat(), "{:?}", self.rest.escape_ascii().to_string());
        assert_eq!(told.len() - others.len(), blocks.len());
    }

    /// The head is asked about; gives the message.
    fn message(&self) -> String {
        match &self.events(&[])[..] {
            [Event::Question(question)] => String::from_utf8(question.message.clone()).expect("text"),
            other => panic!("{:?}: {other:?}", self.lines),
        }
    }

    fn is_accepted(&self) {
        self.message();
    }

    /// The head is refused.
    fn head_is(&self, refused: &str) {
        assert_eq!(self.told(), [refused], "{:?}", self.lines);
    }

    fn block_questions(&self) -> Vec<Question> {
        let question = |event| if let Event::Question(question) = event { Some(question) } else { None };
        self.events(&[true; 40]).into_iter().filter_map(question).skip(1).collect()
    }
}

// ---- the example

/// Document 000's answer to a request for the second half of its example.
fn document_answer() -> Vec<u8> {
    let sig0 = sig(KEY, "1584748800", &format!("{NEEDED} date content-type"));
    let sig1 = sig(KEY, "1584748800", &format!("{NEEDED} date content-type digest x-Ouinet-data-size"));
    let signature = signature();
    format!(
        "HTTP/1.1 206 Partial Content\r\n\
         X-Ouinet-Version: 4\r\n\
         X-Ouinet-URI: https://example.com/hello\r\n\
         X-Ouinet-Injection: id=qwertyuiop-12345,ts=1584748800\r\n\
         Date: Sat, 21 Mar 2020 00:00:00 GMT\r\n\
         Content-Type: text/plain\r\n\
         X-Ouinet-Sig0: {sig0}\r\n\
         X-Ouinet-BSigs: keyId=\"ed25519={KEY}\",algorithm=\"hs2019\",size=5\r\n\
         {DIGEST}{SIZE}X-Ouinet-Sig1: {sig1}\r\n\
         Transfer-Encoding: chunked\r\n\
         Content-Range: bytes 5-11/12\r\n\
         X-Ouinet-HTTP-Status: 200\r\n\
         \r\n\
         5;ouihash={HASH_0}\r\n worl\r\n2;ouisig={signature}\r\nd!\r\n0;ouisig={signature}\r\n\r\n"
    )
    .into_bytes()
}

fn messages(events: &[Event]) -> Vec<Vec<u8>> {
    let question =
        |event: &Event| if let Event::Question(question) = event { Some(question.message.clone()) } else { None };
    events.iter().filter_map(question).collect()
}

#[test]
fn the_example() {
    let stream = document_answer();
    let events = ways::events(&stream, &ring(), EXAMPLE_URI, &[true; 3]);
    let told: Vec<String> = events.iter().map(Event::to_string).collect();
    let due = ["question 219", "head 206", "question 83", "block 5 5", "question 84", "block 10 2", "closed 7"];
    assert_eq!(told, due);
    // The same is asked as for the whole show, but for its first block
    let whole = messages(&ways::events(&example(""), &ring(), EXAMPLE_URI, &[true; 4]));
    assert_eq!(messages(&events), [&whole[..1], &whole[2..]].concat());
    // Cut short at any byte behind the head it is not closed, and it is read no further than its end
    let head = stream.len() - document_body().len();
    for length in head..stream.len() {
        let told = plain::read(&stream[..length], &ring(), EXAMPLE_URI, &[true; 3], true).events;
        assert_eq!(told.last().expect("an event").event, Event::Refused(Refusal::plain(11)), "{length}");
    }
    let more = [&stream[..], b"more"].concat();
    assert_eq!(ways::events(&more, &ring(), EXAMPLE_URI, &[true; 3]), events);
}

fn document_body() -> Vec<u8> {
    chunks(&ouihash(), &[b" worl", b"d!"], &zero())
}

/// The hashes are those that document 000 prints.
#[test]
fn the_hashes_of_the_example() {
    let printed = [
        "3615f80c9d293ed7402687f94b22d58e529b8cc7916f8fac7fddf7fbd5af4cf777d3d795a7a00a16bf7e7f3fb9561ee9baae480da9fe7a18769e71886b03f315",
        "9f3cda2fa89c046c51a5635693a5c8e26a8a19fa0675c785bb1b318910db4ea49ee281e264d1f1461533f48e81d81eb53dd6addd21ad9e42ec46182b93c37d5e",
        "a5424a9d7faf90c636fe14686de2b44e490d36e94113aec176d68cd7e86b59e4d8df7712e62f967c27a54e7216f812b6371d456e94529b46423ac1acd797572c",
    ];
    let hex = |bytes: &[u8]| bytes.iter().map(|byte| format!("{byte:02x}")).collect::<String>();
    assert_eq!(hex(&base64::decode_signature(HASH_0.as_bytes()).expect("a hash")), printed[0]);
    let asked = messages(&ways::events(&document_answer(), &ring(), EXAMPLE_URI, &[true; 3]));
    for (message, (offset, hash)) in asked[1..].iter().zip([(5, printed[1]), (10, printed[2])]) {
        let (front, hashed) = message.split_at(message.len() - 64);
        assert_eq!(front, format!("qwertyuiop-12345\0{offset}\0").as_bytes());
        assert_eq!(hex(hashed), hash);
    }
}

/// The program's lines for it.
#[test]
fn the_program_s_lines() {
    let folder = std::env::temp_dir().join(format!("second-parts-{}", std::process::id()));
    std::fs::create_dir_all(&folder).expect("a folder");
    let ring = format!("{KEY} 0 4102444800\n");
    for (name, bytes) in
        [("stream", &document_answer()[..]), ("ring", ring.as_bytes()), ("answers", b"yyy"), ("uri", EXAMPLE_URI)]
    {
        std::fs::write(folder.join(name), bytes).expect("a file");
    }
    std::fs::write(folder.join("cuts"), "3\n").expect("a file");
    let mut program = std::process::Command::new(env!("CARGO_BIN_EXE_ouiread-second"));
    let words = ["stream", "ring", "answers", "cuts", "body", "--uri", "uri"];
    let output = program.current_dir(&folder).args(words).output().expect("it runs");
    let due = "question 219\nhead 206\nquestion 83\nblock 5 5\nquestion 84\nblock 10 2\nclosed 7\n";
    assert_eq!(String::from_utf8_lossy(&output.stdout), due);
    assert_eq!(std::fs::read(folder.join("body")).expect("a body"), b" world!");
    std::fs::remove_dir_all(&folder).expect("the folder goes");
}
