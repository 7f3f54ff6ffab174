//! The blocks of a part answer: their offsets and their chain, the end that is not checked, and what lies in the holds.

use super::{chunks, document_body, line, ouihash, ouisig, sig1, zero, Answer, DIGEST, HELLO, SIZE};
use crate::common::{ring, ways, KEY};
use second::calls::{Calls, Contents, Holds, Outcome, Word};
use second::event::{Event, Refusal};
use second::plain;
use second::sha512::sha512;

// ---- point 6: offsets and the chain

/// Every part of a show asks about its blocks what the whole show asks.
#[test]
fn point_6_the_questions_of_the_whole_show() {
    let body: Vec<u8> = (0..23_u8).map(|place| place * 11).collect();
    for size in [1, 2, 5, 8, 11, 22, 23, 40] {
        let whole = Answer {
            block_size: size,
            ..Answer::whole("", chunks("", &body.chunks(size).collect::<Vec<_>>(), &zero()))
        };
        let asked = whole.block_questions();
        let count = body.len().div_ceil(size);
        assert_eq!(asked.len(), count);
        let mut hash: Option<[u8; 64]> = None;
        for first in 0..count {
            for behind in first + 1..=count {
                let (a, end) = (first * size, body.len().min(behind * size));
                let told = hash.map_or(String::new(), |hash| format!(";ouihash={}", encode(&hash)));
                let blocks: Vec<&[u8]> = body[a..end].chunks(size).collect();
                let range = format!("bytes {a}-{}/{}", end - 1, body.len());
                let part = Answer { block_size: size, rest: chunks(&told, &blocks, &zero()), ..Answer::range(&range) };
                assert_eq!(part.block_questions(), asked[first..behind], "{range} in blocks of {size}");
                let due: Vec<String> = (first..behind)
                    .map(|number| format!("block {} {}", number * size, size.min(body.len() - number * size)))
                    .collect();
                let due: Vec<&str> = due.iter().map(String::as_str).collect();
                part.gives(&due, &format!("closed {}", end - a));
            }
            let block = &body[first * size..body.len().min((first + 1) * size)];
            hash = Some(hash.map_or_else(|| sha512([block]), |hash| sha512([&hash[..], block])));
        }
    }
}

fn encode(bytes: &[u8; 64]) -> String {
    let letters = b"ABCDEFGHIJKLMNOPQRSTUVWXYZabcdefghijklmnopqrstuvwxyz0123456789+/";
    let bit = |place: usize| bytes.get(place / 8).map_or(0, |byte| usize::from(byte >> (7 - place % 8) & 1));
    let letter = |number: usize| (0..6).fold(0, |value, place| value << 1 | bit(6 * number + place));
    (0..86).map(|number| char::from(letters[letter(number)])).chain("==".chars()).collect()
}

/// The hash that is told goes in as its 64 bytes, and another one gives another message.
#[test]
fn point_6_the_chain_starts_from_the_hash() {
    let told = |hash: &[u8; 64]| {
        let rest = chunks(&format!(";ouihash={}", encode(hash)), &[b" worl", b"d!"], &zero());
        Answer::then(rest).block_questions().into_iter().map(|question| question.message).collect::<Vec<_>>()
    };
    for hash in [[0; 64], [255; 64], std::array::from_fn(|place| place as u8)] {
        let first = sha512([&hash[..], b" worl"]);
        let second = sha512([&first[..], b"d!"]);
        assert_eq!(told(&hash), [[b"a\x005\0", &first[..]].concat(), [b"a\x0010\0", &second[..]].concat()]);
    }
}

/// Far into the largest show.
#[test]
fn point_6_large_offsets() {
    let block = vec![b'x'; 65_536];
    let last = Answer {
        block_size: 65_536,
        rest: chunks(&ouihash(), &[&block, &block], &zero()),
        ..Answer::range("bytes 4294836224-4294967295/4294967296")
    };
    let stream = last.stream();
    let read = plain::read(&stream, &last.ring, b"u", &[true; 3], true).events;
    let told: Vec<String> = read.iter().map(|placed| placed.event.to_string()).collect();
    let blocks = ["block 4294836224 65536", "block 4294901760 65536"];
    assert_eq!(told[2..], ["question 77", blocks[0], "question 77", blocks[1], "closed 131072"]);
    assert_eq!(
        ways::by_reader(&stream, &last.ring, b"u", &[true; 3], 5000).last(),
        Some(&Event::Closed { total: 131_072 })
    );
    let byte = Answer {
        block_size: 1,
        rest: chunks(&ouihash(), &[b"x"], &zero()),
        ..Answer::range("bytes 4294967295-4294967295/4294967296")
    };
    byte.gives(&["block 4294967295 1"], "closed 1");
    Answer { rest: chunks(&ouihash(), &[b"x", b"x"], &zero()), ..byte }.is("refused 7");
}

#[test]
fn one_byte() {
    for (size, range, first, last) in [
        (5, "bytes 0-0/1", "", "block 0 1"),
        (1, "bytes 0-0/12", "", "block 0 1"),
        (5, "bytes 10-10/11", "hash", "block 10 1"),
        (1, "bytes 11-11/12", "hash", "block 11 1"),
        (1, "bytes 5-5/12", "hash", "block 5 1"),
        (65_536, "bytes 65536-65536/65537", "hash", "block 65536 1"),
    ] {
        let first = if first.is_empty() { String::new() } else { ouihash() };
        let part = Answer { block_size: size, rest: chunks(&first, &[b"x"], &zero()), ..Answer::range(range) };
        part.gives(&[last], "closed 1");
        Answer { rest: chunks(&first, &[b"x", b"x"], &zero()), ..part.clone() }.is("refused 7");
        Answer { rest: chunks(&first, &[b"xx"], &zero()), ..part }.is("refused 7");
    }
}

// ---- point 7: the end of the show is not checked

#[test]
fn point_7_the_end_is_not_checked() {
    let (all, sig1) = ([DIGEST, SIZE, &sig1()].concat(), sig1());
    for (a, b, blocks) in [
        (0, 11, &["block 0 5", "block 5 5", "block 10 2"][..]),
        (0, 4, &["block 0 5"]),
        (5, 11, &["block 5 5", "block 10 2"]),
        (10, 11, &["block 10 2"]),
    ] {
        let last = format!("closed {}", b - a + 1);
        for lines in [
            // Right ones, wrong ones, some of them, doubled ones
            all.clone(),
            all.replace("12\r\n", "13\r\n"),
            all.replace("wFNe", "AAAA"),
            all.replace("SHA-256", "sha-256"),
            all.replace(KEY, "AQEBAQEBAQEBAQEBAQEBAQEBAQEBAQEBAQEBAQEBAQE="),
            all.replace(" digest x-ouinet-data-size", ""),
            DIGEST.to_string(),
            SIZE.to_string(),
            sig1.clone(),
            "Digest: x\r\n".to_string(),
            "X-Ouinet-Sig1: x\r\n".to_string(),
            DIGEST.repeat(2),
        ] {
            let part = Answer::of(HELLO, 5, a, b);
            let in_head = Answer { lines: format!("{}{lines}", part.lines), ..part.clone() };
            in_head.gives(blocks, &last);
            let trailer = |lines: &str| [&part.rest[..part.rest.len() - 2], lines.as_bytes(), b"\r\n"].concat();
            Answer { rest: trailer(&lines), ..part.clone() }.gives(blocks, &last);
            Answer { rest: trailer(&lines), ..in_head.clone() }.gives(blocks, &last);
            // Trailer text is still judged
            let bad = format!("refused 6 at {}", lines.len() + 1);
            Answer { rest: trailer(&format!("{lines}A b\r\n")), ..part.clone() }.gives(blocks, &bad);
            Answer { rest: trailer("A b\r\n"), ..in_head }.gives(blocks, "refused 6 at 1");
        }
        // Those of ours twice in a head are still 3, and twice in a trailer nothing
        let twice =
            Answer { lines: format!("{}{SIZE}{SIZE}", Answer::of(HELLO, 5, a, b).lines), ..Answer::of(HELLO, 5, a, b) };
        twice.head_is(&format!("refused 3 at {}", twice.head_bytes().len()));
    }
    // Listed in the head as well
    let part = Answer::of(HELLO, 5, 5, 11);
    let listed =
        Answer { lines: format!("{}{all}", part.lines), listed: "digest x-ouinet-data-size".to_string(), ..part };
    listed.gives(&["block 5 5", "block 10 2"], "closed 7");
    // A whole answer with the same three is asked about once more
    let whole = Answer::whole(&all, chunks("", &[b"Hello", b" worl", b"d!"], &zero()));
    assert_eq!(whole.told().last().expect("a line"), "complete 12");
}

/// A short last block only where the show ends.
#[test]
fn point_7_a_short_last_block() {
    let short = |range: &str| Answer { rest: chunks(&ouihash(), &[b" worl", b"d!"], &zero()), ..Answer::range(range) };
    short("bytes 5-11/12").gives(&["block 5 5", "block 10 2"], "closed 7");
    short("bytes 5-14/15").gives(&["block 5 5"], "refused 7");
    short("bytes 5-14/30").gives(&["block 5 5"], "refused 7");
    short("bytes 5-12/13").gives(&["block 5 5"], "refused 7");
    short("bytes 5-10/11").is("refused 7");
}

// ---- answers, ends and calls

#[test]
fn answers_and_ends() {
    let part = Answer::then(document_body());
    for (answers, last) in
        [(&[false][..], "refused 10"), (&[true, false], "refused 10"), (&[true, true, false], "refused 10")]
    {
        let events = part.events(answers);
        assert_eq!((events.len(), events.last().expect("an event").to_string()), (2 * answers.len(), last.to_string()));
    }
    for count in 0..3 {
        let events = part.events(&vec![true; count]);
        assert!(matches!(events.last(), Some(Event::Question(_))));
        assert_eq!(events.len(), 2 * count + 1);
    }
    // Yes to all, and the end told before its time
    let head = part.head_bytes().len();
    for length in [head, head + 1, head + 99, head + 100, head + 105, head + 107] {
        let events = plain::read(&part.stream()[..length], &ring(), b"u", &[true; 9], true).events;
        assert_eq!(events.last().expect("an event").event, Event::Refused(Refusal::plain(11)));
    }
}

fn marks() -> Contents {
    let Holds { head, block, question } = Holds::ENOUGH;
    Contents { head: vec![1; head], block: vec![2; block], question: vec![3; question] }
}

/// A list of calls that feeds all of an answer and says yes to all.
fn called(answer: &Answer) -> (Calls, Word) {
    let (mut calls, stream) = (Calls::new(), answer.stream());
    loop {
        let Outcome { word, .. } =
            calls.feed(Holds::ENOUGH, &answer.ring, answer.asked, &stream[calls.bytes().len()..]);
        let Word::Question(_) = word else { return (calls, word) };
        calls.answer(Holds::ENOUGH, true);
    }
}

/// A refused line sets the block that waits for it to zero; nothing of a line goes into a hold.
#[test]
fn what_lies_in_the_holds() {
    let block = |front: &[u8]| [front, &marks().block[front.len()..]].concat();
    let cases: [(Vec<u8>, u8, &[u8]); 6] = [
        (chunks(&ouihash(), &[b" worl"], &zero()), 7, b"\0\0\0\0\0"),
        (chunks(&ouihash(), &[b" worl", b"d!!"], &zero()), 7, b"\0\0\0\0\0"),
        (chunks(&ouihash(), &[b" worl", b"d!", b"!"], &zero()), 7, b"\0\0orl"),
        (chunks(&ouihash(), &[b" worl"], &line(0, &ouihash())), 8, b"\0\0\0\0\0"),
        (chunks("", &[b" worl"], &zero()), 8, b""),
        (chunks(&ouihash(), &[], &line(0, &ouihash())), 7, b""),
    ];
    for (rest, number, front) in cases {
        let answer = Answer::then(rest);
        let (calls, word) = called(&answer);
        assert_eq!(word, Word::Refused(Refusal::plain(number)));
        let contents = calls.contents(&marks());
        assert_eq!(contents.block, block(front));
        let head = answer.head_bytes();
        assert_eq!(contents.head, [&head[..], &marks().head[head.len()..]].concat());
    }
    // Closed, it leaves its trailer over the last block, whatever is said there
    let trailer = format!("{DIGEST}{SIZE}\r\n");
    let (calls, word) = called(&Answer::then(chunks(&ouihash(), &[b" worl", b"d!"], &(line(0, &ouisig()) + &trailer))));
    assert_eq!(word, Word::Closed { total: 7 });
    assert_eq!(calls.contents(&marks()).block, block(trailer.as_bytes()));
    let (calls, _) = called(&Answer::then(document_body()));
    assert_eq!(calls.contents(&marks()).block, block(b"\r\norl"));
}

#[test]
fn what_is_handed_out() {
    let answer = Answer { listed: "content-range".to_string(), ..Answer::then(document_body()) };
    let (mut calls, stream) = (Calls::new(), answer.stream());
    let value = |calls: &Calls, name: &[u8]| (calls.value(32_768, name).to_vec(), calls.value_count(32_768, name));
    calls.feed(Holds::ENOUGH, &ring(), b"u", &stream);
    assert_eq!(value(&calls, b"Content-Range"), (Vec::new(), 0));
    assert_eq!(calls.answer(Holds::ENOUGH, true).word, Word::HeadAccepted { status: 206 });
    assert_eq!(value(&calls, b"Content-Range"), (b"bytes 5-11/12".to_vec(), 1));
    assert_eq!(value(&calls, b"X-Ouinet-HTTP-Status"), (Vec::new(), 0));
    for (block, offset) in [(&b" worl"[..], 5), (b"d!", 10)] {
        calls.feed(Holds::ENOUGH, &[], b"", &stream[calls.bytes().len()..]);
        let due = Word::Block { offset, length: block.len() as u32 };
        assert_eq!(calls.answer(Holds::ENOUGH, true).word, due);
        assert_eq!(calls.block(65_536), block);
    }
    let last = calls.feed(Holds::ENOUGH, &[], b"", &stream[calls.bytes().len()..]);
    assert_eq!(last, Outcome { word: Word::Closed { total: 7 }, taken: 2 });
    assert_eq!(value(&calls, b"Content-Range"), (b"bytes 5-11/12".to_vec(), 1));
}

/// The first line in two pieces, cut at each of its bytes.
#[test]
fn a_cut_inside_the_hash() {
    let part = Answer::then(document_body());
    let (head, stream) = (part.head_bytes().len(), part.stream());
    let due: Vec<Word> = part.events(&[true; 9]).into_iter().map(Word::from).collect();
    for cut in head..head + line(5, &ouihash()).len() + 9 {
        assert_eq!(words_in_two(&stream, cut), due, "cut at {cut}");
    }
}

fn words_in_two(stream: &[u8], cut: usize) -> Vec<Word> {
    let (mut calls, mut words) = (Calls::new(), Vec::new());
    for end in [cut, stream.len()] {
        while calls.bytes().len() < end {
            match calls.feed(Holds::ENOUGH, &ring(), b"u", &stream[calls.bytes().len()..end]).word {
                Word::More => (),
                word @ Word::Question(_) => words.extend([word, calls.answer(Holds::ENOUGH, true).word]),
                last => {
                    words.push(last);
                    return words;
                }
            }
        }
    }
    words
}
