//! The head of a part answer: which range and which status it must have, and in what order its rules are tested.

use super::{chunks, document_body, zero, Answer, SIGNED, STATUS};
use crate::common::{ring, ways};
use second::event::{Event, Refusal};
use second::plain;

// ---- point 1: the range

#[test]
fn point_1_the_text_of_the_range() {
    for good in
        ["bytes 5-11/12", "  bytes 5-11/12", "bytes 5-11/12\t ", "\tbytes 0-4/12", "bytes 10-11/12", "bytes 0-11/12"]
    {
        Answer::range(good).is_accepted();
    }
    for wrong in [
        // Several ranges, or none
        "bytes 0-4,5-11/12",
        "bytes 0-4/12,bytes 5-11/12",
        "bytes 0-4/12, bytes 5-11/12",
        "bytes 0-4/12, 5-11/12",
        "bytes 5-11/12,",
        ",bytes 5-11/12",
        "",
        "bytes",
        "bytes ",
        "bytes 12",
        "bytes */12",
        "bytes 5-11/*",
        "bytes *-11/12",
        "bytes 5-*/12",
        "none",
        // Another text
        "Bytes 5-11/12",
        "BYTES 5-11/12",
        "bytez 5-11/12",
        "byte 5-11/12",
        "items 5-11/12",
        "5-11/12",
        "bytes5-11/12",
        "bytes  5-11/12",
        "bytes\t5-11/12",
        "bytes=5-11/12",
        "bytes: 5-11/12",
        "bytes 5 -11/12",
        "bytes 5- 11/12",
        "bytes 5-11 /12",
        "bytes 5-11/ 12",
        "bytes 5--11/12",
        "bytes 5-11//12",
        "bytes 5-11-12",
        "bytes 5/11/12",
        "bytes 5-11/12/12",
        "bytes 5-11",
        "bytes 5-/12",
        "bytes -11/12",
        "bytes 5-11/",
        "bytes /12",
        "bytes -/",
        "bytes 5-11/12;x",
        "bytes 5-11/12 x",
        "bytes 5-11/12.",
        "\"bytes 5-11/12\"",
        "bytes 5\u{2013}11/12",
        // Other numbers
        "bytes 05-11/12",
        "bytes 5-011/12",
        "bytes 5-11/012",
        "bytes 00-11/12",
        "bytes 0-011/12",
        "bytes +5-11/12",
        "bytes 5-+11/12",
        "bytes 5-11/+12",
        "bytes 5-b/c",
        "bytes 0x5-11/12",
        "bytes 5.0-11/12",
        "bytes 5-11/1 2",
        "bytes 5-1e1/12",
        "bytes \u{665}-11/12",
    ] {
        Answer::range(wrong).head_is("refused 4");
    }
    // There is none, or it is no field of this name
    for lines in [
        "",
        "Content-Type: multipart/byteranges; boundary=x\r\n",
        "Content-Ranges: bytes 5-11/12\r\n",
        "Range: bytes 5-11/12\r\n",
    ] {
        Answer::head(&format!("{STATUS}{lines}")).head_is("refused 4");
    }
    Answer::head(&format!("{STATUS}cONTENT-rANGE:bytes 5-11/12\r\n")).is_accepted();
}

#[test]
fn point_1_the_numbers() {
    for (range, is_good) in [
        ("5-11/12", true),
        ("5-10/12", false),
        ("6-11/12", false),
        ("5-12/12", false),
        ("5-11/11", false),
        ("5-11/13", false),
        ("5-9/12", true),
        ("5-9/10", true),
        ("5-9/9", false),
        ("5-8/9", true),
        ("5-5/6", true),
        ("5-5/12", false),
        ("5-4/12", false),
        ("10-9/12", false),
        ("10-4/12", false),
        ("0-0/1", true),
        ("0-0/2", false),
        ("0-4/5", true),
        ("0-4/4", false),
        ("0-0/0", false),
        ("5-11/0", false),
        ("12-11/12", false),
        ("15-15/16", true),
    ] {
        let answer = Answer::range(&format!("bytes {range}"));
        if is_good {
            answer.is_accepted();
        } else {
            answer.head_is("refused 4");
        }
    }
}

/// All small numbers and sizes, held against where the blocks of the show begin and end.
#[test]
fn point_1_whole_blocks_and_nothing_else() {
    let mut good = 0;
    for size in 1..=6 {
        for total in 0..=13 {
            let ends: Vec<usize> = (1..total).filter(|end| end % size == 0).chain([total]).collect();
            let starts: Vec<usize> = (0..total).step_by(size).collect();
            for first in 0..=14 {
                for last in 0..=14 {
                    let is_good = starts.contains(&first) && ends.contains(&(last + 1)) && first <= last;
                    let answer = Answer { block_size: size, ..Answer::range(&format!("bytes {first}-{last}/{total}")) };
                    let read = plain::read(&answer.stream(), &answer.ring, b"u", &[], false).events;
                    let is_asked = matches!(read[0].event, Event::Question(_));
                    assert!(is_asked || read[0].event == Event::Refused(Refusal::plain(4)));
                    assert_eq!(is_asked, is_good, "{first}-{last}/{total} in blocks of {size}");
                    good += usize::from(is_good);
                }
            }
        }
    }
    assert!(good > 700, "only {good} ranges were good");
}

#[test]
fn point_1_large_numbers() {
    let at = |size: usize, range: &str| Answer { block_size: size, ..Answer::range(&format!("bytes {range}")) };
    // The body limit
    for (size, range) in [
        (1, "4294967295-4294967295/4294967296"),
        (5, "4294967295-4294967295/4294967296"),
        (65_536, "4294901760-4294967295/4294967296"),
        (65_536, "0-4294967295/4294967296"),
        (65_536, "65536-131071/4294967296"),
        (5, "5-9/4294967296"),
    ] {
        at(size, range).is_accepted();
    }
    for (size, range) in [
        (1, "4294967295-4294967296/4294967297"),
        (1, "4294967296-4294967296/4294967297"),
        (5, "0-4/4294967297"),
        (5, "0-4/4294967300"),
        (5, "0-4/999999999999"),
        (5, "0-4/1000000000000"),
        (5, "0-4/1000000000005"),
        (5, "0-999999999999/999999999999"),
        (5, "999999999995-999999999999/999999999999"),
        (1, "999999999998-999999999998/999999999999"),
        (5, "0-1000000000004/1000000000005"),
        (5, "0-4/18446744073709551616"),
        // These would be good if numbers wrapped
        (5, "18446744073709551621-11/12"),
        (5, "5-18446744073709551627/12"),
        (5, "5-11/18446744073709551628"),
        (5, "4294967301-4294967307/4294967308"),
        (5, "5-4294967307/12"),
        (5, "4294967300-11/12"),
        (5, "5-11/4294967308"),
        (1, "0-18446744073709551615/1"),
        (1, "0-18446744073709551615/0"),
        (5, "340282366920938463463374607431768211461-11/12"),
    ] {
        at(size, range).head_is("refused 4");
    }
}

// ---- point 2: the status

#[test]
fn point_2_the_status_that_was_signed() {
    let with = |line: &str| Answer::head(&format!("Content-Range: bytes 5-11/12\r\n{line}"));
    for status in ["200", "301", "302", "307"] {
        for line in [
            format!("X-Ouinet-HTTP-Status: {status}\r\n"),
            format!("X-Ouinet-HTTP-Status: \t {status} \r\n"),
            format!("x-ouinet-http-STATUS:{status}\r\n"),
        ] {
            assert_eq!(with(&line).message(), format!("(response-status): {status}{SIGNED}"));
        }
        let line = format!("X-Ouinet-HTTP-Status: {status}\r\n");
        assert_eq!(Answer { rest: document_body(), ..with(&line) }.body_told().last().expect("a line"), "closed 7");
    }
    with("").head_is("refused 4");
    for wrong in [
        "", "206", "404", "201", "300", "303", "304", "308", "500", "000", "20", "2", "2000", "0200", "00200", "+200",
        "-200", "200.0", "2 00", "200 OK", "OK", "200,", "200, 200", "200 200", "200;", "\"200\"", "0xc8", "C8",
        "\u{b2}00",
    ] {
        with(&format!("X-Ouinet-HTTP-Status: {wrong}\r\n")).head_is("refused 4");
    }
    with("X-Ouinet-HTTP-Statu: 200\r\nX-Ouinet-Status: 200\r\nHTTP-Status: 200\r\n").head_is("refused 4");
}

/// Neither field has to be signed, and either may be: then it has its own line in the message.
#[test]
fn point_2_signed_or_not() {
    let lines = format!("Content-Range: \tbytes 5-11/12 \r\n{}", STATUS.replace(" 200", "  301\t"));
    for (listed, due) in [
        ("", ""),
        ("content-range", "\ncontent-range: bytes 5-11/12"),
        ("X-Ouinet-HTTP-Status", "\nx-ouinet-http-status: 301"),
        ("x-ouinet-http-status Content-Range", "\nx-ouinet-http-status: 301\ncontent-range: bytes 5-11/12"),
    ] {
        let answer = Answer { listed: listed.to_string(), rest: document_body(), ..Answer::head(&lines) };
        assert_eq!(answer.message(), format!("(response-status): 301{SIGNED}{due}"));
        answer.gives(&["block 5 5", "block 10 2"], "closed 7");
    }
}

/// In other answers neither is looked at.
#[test]
fn point_2_plain_fields_in_other_answers() {
    let honest = chunks("", &[b"Hello", b" worl", b"d!"], &zero());
    for status in ["200 OK", "301 Moved Permanently", "302 Found", "307 Temporary Redirect"] {
        for line in [
            "Content-Range: bytes 5-11/12\r\n",
            "Content-Range: x\r\n",
            "Content-Range:\r\n",
            "X-Ouinet-HTTP-Status: 404\r\n",
            "X-Ouinet-HTTP-Status:\r\n",
            "X-Ouinet-HTTP-Status: 301\r\nContent-Range: bytes 5-11/12\r\n",
        ] {
            let answer = Answer { status, ..Answer::whole(line, honest.clone()) };
            assert_eq!(answer.message(), format!("(response-status): {}{SIGNED}", &status[..3]));
            answer.gives(&["block 0 5", "block 5 5", "block 10 2"], "closed 12");
        }
        let answer =
            Answer { status, listed: "content-range".to_string(), ..Answer::whole("Content-Range: x\r\n", "") };
        assert_eq!(answer.message(), format!("(response-status): {}{SIGNED}\ncontent-range: x", &status[..3]));
    }
    // No other status is a part's
    for status in [
        "404 Not Found",
        "205 Reset Content",
        "207 Multi-Status",
        "416 Range Not Satisfiable",
        "216 x",
        "260 x",
        "026 x",
    ] {
        Answer { status, ..Answer::range("bytes 5-11/12") }.head_is("refused 4");
    }
}

// ---- request #102, point 5

#[test]
fn doubled_fields() {
    let range = "Content-Range: bytes 5-11/12\r\n";
    for second in [
        range,
        "content-range: bytes 5-11/12\r\n",
        "Content-Range: bytes 0-4/12\r\n",
        "CONTENT-RANGE:\r\n",
        "Content-Range: x\r\n",
    ] {
        for lines in [format!("{range}{second}{STATUS}"), format!("{second}{STATUS}{range}")] {
            Answer::head(&lines).head_is("refused 4");
            Answer { listed: "content-range".to_string(), ..Answer::head(&lines) }.head_is("refused 4");
            Answer::whole(&lines, "").is_accepted();
        }
    }
    let twice = Answer { listed: "content-range".to_string(), ..Answer::whole(&range.repeat(2), "") };
    assert_eq!(twice.message(), format!("(response-status): 200{SIGNED}\ncontent-range: bytes 5-11/12, bytes 5-11/12"));
    // One of ours may not come twice, whatever the status
    for answer in
        [Answer::range("bytes 5-11/12"), Answer::whole(STATUS, ""), Answer { status: "404 x", ..Answer::head(STATUS) }]
    {
        for second in [STATUS, "x-ouinet-http-status:\r\n"] {
            let answer = Answer { lines: format!("{}{second}", answer.lines), ..answer.clone() };
            answer.head_is(&format!("refused 3 at {}", answer.head_bytes().len()));
        }
    }
    let coding = Answer { lines: "Transfer-Encoding: chunked\r\n".to_string(), ..Answer::range("bytes 5-11/12") };
    coding.head_is(&format!("refused 3 at {}", coding.head_bytes().len()));
}

// ---- the order in the head

#[test]
fn the_order_in_the_head() {
    let bad = Answer::range("bytes 5-10/12");
    let good = Answer::range("bytes 5-11/12");
    // 3 goes before 4
    let text = Answer { lines: format!("{}A b\r\n", bad.lines), ..bad.clone() };
    let place = text.head_bytes().windows(3).position(|three| three == b"A b").expect("the line") + 1;
    text.head_is(&format!("refused 3 at {place}"));
    // 5 does too: the version stands before the status
    let version = |answer: &Answer, version: &str| {
        let head = String::from_utf8(answer.head_bytes()).expect("text").replace("Version: 4", version);
        ways::events(head.as_bytes(), &answer.ring, answer.asked, &[])
    };
    for answer in [&bad, &good] {
        assert_eq!(version(answer, "Version: 5"), [Event::Refused(Refusal::plain(5))]);
        assert_eq!(version(answer, "Version: 6"), [Event::Refused(Refusal::plain(5))]);
        assert_eq!(version(answer, "Versio: 4"), [Event::Refused(Refusal::plain(4))]);
    }
    // 16 and 12 come behind, in this order
    for (asked, ring, bad_is, good_is) in [
        (&b"u"[..], Vec::new(), "refused 4", "refused 12"),
        (b"v", ring(), "refused 4", "refused 16"),
        (b"v", Vec::new(), "refused 4", "refused 16"),
    ] {
        Answer { asked, ring: ring.clone(), ..bad.clone() }.head_is(bad_is);
        Answer { asked, ring: ring.clone(), ..good.clone() }.head_is(good_is);
        let no_status = Answer { asked, ring, ..Answer::head("Content-Range: bytes 5-11/12\r\n") };
        no_status.head_is("refused 4");
    }
    // The other rules stand
    Answer { lines: format!("{}Content-Length: 7\r\n", good.lines), ..good.clone() }.head_is("refused 4");
    Answer { block_size: 65_537, ..Answer::range("bytes 65537-65537/65538") }.head_is("refused 4");
    Answer { block_size: 0, ..Answer::range("bytes 0-11/12") }.head_is("refused 4");
}
