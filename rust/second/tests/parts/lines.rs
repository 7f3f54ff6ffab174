//! The chunk lines of a part answer, and of others: where a hash is due, how it is written, and where a part ends.

use super::{chunks, line, ouihash, ouisig, zero, Answer, HASH_0};
use second::event::{Event, Refusal};
use second::plain;

// ---- points 3 and 4: the lines

#[test]
fn point_3_where_a_hash_is_due() {
    let then = |first: &str, end: &str| chunks(first, &[b" worl", b"d!"], end);
    // On the first line of a part that does not start its show
    Answer::then(then(&ouihash(), &zero())).gives(&["block 5 5", "block 10 2"], "closed 7");
    Answer::then(then("", &zero())).is("refused 8");
    Answer::then(then(&ouisig(), &zero())).is("refused 8");
    // On none of one that does, nor of a whole answer
    let hello: [&[u8]; 3] = [b"Hello", b" worl", b"d!"];
    for answer in [Answer::range("bytes 0-11/12"), Answer::whole("", "")] {
        let blocks = ["block 0 5", "block 5 5", "block 10 2"];
        Answer { rest: chunks("", &hello, &zero()), ..answer.clone() }.gives(&blocks, "closed 12");
        Answer { rest: chunks(&ouihash(), &hello, &zero()), ..answer.clone() }.is("refused 8");
        Answer { rest: chunks(&ouisig(), &hello, &zero()), ..answer }.is("refused 8");
    }
    // On no later line of any answer, the 0 line among them
    for answer in [Answer::then(line(5, &ouihash())), Answer { rest: line(5, "").into(), ..Answer::whole("", "") }] {
        for size in [0, 1, 2, 5, 6] {
            let rest = [&answer.rest[..], b" worl\r\n", line(size, &ouihash()).as_bytes()].concat();
            Answer { rest, ..answer.clone() }.is("refused 8");
        }
    }
    let last = [&chunks(&ouihash(), &[b" worl", b"d!"], "")[..], line(0, &ouihash()).as_bytes()].concat();
    Answer::then(last).gives(&["block 5 5"], "refused 8");
    // An empty body's only line
    Answer::whole("", line(0, &ouihash())).is("refused 8");
    Answer { rest: line(0, &ouihash()).into(), ..Answer::range("bytes 0-11/12") }.is("refused 8");
}

/// "so written" is well written; else it is 6, which comes first. The place is that of request #106.
#[test]
fn point_3_wrong_text() {
    let good = HASH_0;
    let texts = [
        (format!("5;ouihash={}", &good[..87]), 10 + 87),
        (format!("5;ouihash={}", &good[..86]), 10 + 86),
        (format!("5;ouihash={}", &good[1..]), 10 + 85),
        (format!("5;ouihash={good}="), 10 + 88),
        (format!("5;ouihash={good} "), 10 + 88),
        (format!("5;ouihash={good};"), 10 + 88),
        (format!("5;ouihash={}R==", &good[..85]), 10 + 85),
        (format!("5;ouihash={}A=", &good[..86]), 10 + 86),
        (format!("5;ouihash={}", good.replace('+', "-")), 10 + good.find('+').expect("a plus")),
        ("5;ouihash=".to_string(), 10),
        ("5;ouihash".to_string(), 9),
        ("5;ouihas".to_string(), 8),
        ("5;ouih".to_string(), 6),
        ("5;oui".to_string(), 5),
        ("5;".to_string(), 2),
        (format!("5;ouihx={good}"), 6),
        (format!("5;ouiX={good}"), 5),
        (format!("5;ouihsig={good}"), 6),
        (format!("5;ouisash={good}"), 6),
        (format!("5;ouishash={good}"), 6),
        (format!("5;OUIHASH={good}"), 2),
        (format!("5;Ouihash={good}"), 2),
        (format!("5;ouiHash={good}"), 5),
        (format!("5; ouihash={good}"), 2),
        (format!("5 ;ouihash={good}"), 1),
        (format!("5;ouihash ={good}"), 9),
        (format!("5;ouihash= {good}"), 10),
        (format!("5;ouihash=\"{good}\""), 10),
        (format!("5;;ouihash={good}"), 2),
        (format!("5,ouihash={good}"), 1),
        (format!("5ouihash={good}"), 1),
        (format!(" 5;ouihash={good}"), 0),
        (format!(";ouihash={good}"), 0),
        (format!("000000005;ouihash={good}"), 8),
        (format!("00000005;ouihash={}", &good[..87]), 17 + 87),
        (format!("5;ouihash={good}\r"), 10 + 89),
        (format!("5;ouihash={good}\n"), 10 + 88),
    ];
    for (text, place) in texts {
        let due = format!("refused 6 at {place}");
        // As a first line, due or not, and as a later one
        for answer in [Answer::then(""), Answer::range("bytes 0-11/12"), Answer::whole("", "")] {
            Answer { rest: format!("{text}\r\n").into(), ..answer }.is(&due);
        }
        Answer::then(format!("{} worl\r\n{text}\r\n", line(5, &ouihash()))).is(&due);
        Answer::whole("", format!("5\r\nHello\r\n{text}\r\n")).is(&due);
    }
}

/// A line with both is longer than a line may be.
#[test]
fn point_4_both_extensions() {
    for extension in [ouihash() + &ouisig(), ouisig() + &ouihash(), ouihash() + &ouihash()] {
        for answer in [Answer::then(""), Answer::range("bytes 0-11/12"), Answer::whole("", "")] {
            Answer { rest: line(5, &extension).into(), ..answer }.is("refused 6 at 128");
        }
        Answer::then(format!("{} worl\r\n{}", line(5, &ouihash()), line(2, &extension))).is("refused 6 at 128");
        Answer::whole("", format!("5\r\nHello\r\n{}", line(0, &extension))).is("refused 6 at 128");
    }
}

/// 8 goes before 7, and 6 before both.
#[test]
fn point_4_the_order_of_a_line() {
    let first = |text: String| Answer::then(text);
    // Without the hash, whatever the size: the first of the two lines that request #104 is read by
    for size in [0, 5, 6, 65_536, 0xffff_ffff] {
        first(line(size, "")).is("refused 8");
        first(line(size, &ouisig())).is("refused 8");
        let hashed = Answer { rest: line(size, &ouihash()).into(), ..Answer::range("bytes 0-11/12") };
        hashed.is("refused 8");
        Answer::whole("", line(size, &ouihash())).is("refused 8");
        first(format!("{size:x} {}\r\n", ouihash())).is(&format!("refused 6 at {}", format!("{size:x}").len()));
    }
    // With it: the 0 line, or a size above N or past the part
    for size in [0, 6, 7, 8, 65_536, 0xffff_ffff] {
        first(line(size, &ouihash())).is("refused 7");
    }
    for size in [0, 6, 12, 65_536] {
        Answer { rest: line(size, "").into(), ..Answer::range("bytes 0-11/12") }.is("refused 7");
    }
    // Behind a block: neither extension, or the wrong one, before a wrong size
    let begun = format!("{} worl\r\n", line(5, &ouihash()));
    for size in [0, 2, 3, 5, 6, 0xffff_ffff] {
        first(format!("{begun}{}", line(size, ""))).is("refused 8");
        first(format!("{begun}{}", line(size, &ouihash()))).is("refused 8");
        first(format!("{begun}{}", line(size, &(ouisig() + ";"))))
            .is(&format!("refused 6 at {}", line(size, &ouisig()).len() - 2));
    }
}

// ---- point 5: the end of a part

#[test]
fn point_5_an_early_end() {
    let part = Answer::then;
    // The block before an early 0 line is not asked about
    part(chunks(&ouihash(), &[b" worl"], &zero())).is("refused 7");
    part(chunks(&ouihash(), &[b" wor"], &zero())).is("refused 7");
    part(chunks(&ouihash(), &[b" worl", b"d"], &zero())).gives(&["block 5 5"], "refused 7");
    // Nor the one before a chunk past the part, or before one behind a short block
    part(chunks(&ouihash(), &[b" worl", b"d!!"], &zero())).is("refused 7");
    part(chunks(&ouihash(), &[b" worl", b"d!", b"!"], &zero())).gives(&["block 5 5"], "refused 7");
    part(chunks(&ouihash(), &[b" wor", b"ld!"], &zero())).is("refused 7");
    part(chunks(&ouihash(), &[b" worl", b"d", b"!"], &zero())).gives(&["block 5 5"], "refused 7");
    // A part in the middle ends with a full block
    let middle =
        |blocks: &[&[u8]]| Answer { rest: chunks(&ouihash(), blocks, &zero()), ..Answer::range("bytes 5-9/12") };
    middle(&[b" worl"]).gives(&["block 5 5"], "closed 5");
    middle(&[b" wor"]).is("refused 7");
    for more in [&b"d"[..], b"d!", b"d!!!!"] {
        middle(&[b" worl", more]).is("refused 7");
    }
    // One that starts the show
    let start = |blocks: &[&[u8]]| Answer { rest: chunks("", blocks, &zero()), ..Answer::range("bytes 0-9/12") };
    start(&[b"Hello", b" worl"]).gives(&["block 0 5", "block 5 5"], "closed 10");
    start(&[b"Hello", b" worl", b"d!"]).gives(&["block 0 5"], "refused 7");
    start(&[b"Hello"]).is("refused 7");
    Answer { rest: zero().into(), ..Answer::range("bytes 0-9/12") }.is("refused 8");
    Answer { rest: b"0\r\n\r\n".to_vec(), ..Answer::range("bytes 0-9/12") }.is("refused 7");
    // A whole answer has no such rule
    Answer::whole("Content-Range: bytes 0-11/12\r\n", chunks("", &[b"Hello"], &zero()))
        .gives(&["block 0 5"], "closed 5");
    Answer::whole("Content-Range: bytes 0-4/12\r\n", chunks("", &[b"Hello", b"!"], &zero()))
        .gives(&["block 0 5", "block 5 1"], "closed 6");
}

/// All short lists of chunk sizes for all parts of small shows. The sizes of a good list are the blocks of the part; where a list leaves
/// them, a shorter block than is due is refused by the line behind it, and anything else at once.
#[test]
fn point_5_all_lists_of_sizes() {
    let mut closed = 0;
    for block_size in 1..=3 {
        for total in 1..=5 {
            for first in (0..total).step_by(block_size) {
                for behind in (first + 1..=total).filter(|behind| *behind == total || behind % block_size == 0) {
                    let part = Answer { block_size, ..Answer::range(&format!("bytes {first}-{}/{total}", behind - 1)) };
                    for number in 0..5_usize.pow(4) {
                        let sizes: Vec<usize> = (0..4).map(|place| number / 5_usize.pow(place) % 5).collect();
                        closed += usize::from(check_sizes(&part, &sizes, first, behind));
                    }
                }
            }
        }
    }
    assert!(closed > 300, "only {closed} lists were closed");
}

/// Whether the list is that of the part.
fn check_sizes(part: &Answer, sizes: &[usize], first: usize, behind: usize) -> bool {
    let size = part.block_size;
    let blocks: Vec<usize> = (first..behind).step_by(size).map(|start| size.min(behind - start)).collect();
    let due: Vec<usize> = blocks.iter().copied().chain([0]).collect();
    let mut rest = String::new();
    for (number, size) in sizes.iter().enumerate() {
        let extension = match (number, first) {
            (0, 0) => String::new(),
            (0, _) => ouihash(),
            _ => ouisig(),
        };
        rest += &format!("{}{}", line(*size, &extension), "x".repeat(*size));
        rest += "\r\n";
    }
    let last = |events: Vec<plain::Placed>| events.last().expect("an event").event.clone();
    let stream = [part.head_bytes(), rest.into_bytes()].concat();
    let read = plain::read(&stream, &part.ring, b"u", &[true; 9], false).events;
    let released = read.iter().filter(|placed| matches!(placed.event, Event::Block { .. })).count();
    let same = sizes.iter().zip(&due).take_while(|(size, due)| size == due).count();
    if same == due.len() {
        assert_eq!((released, last(read)), (blocks.len(), Event::Closed { total: (behind - first) as u64 }));
        return true;
    }
    let Some(&wrong) = sizes.get(same) else { return false };
    let is_shorter = 0 < wrong && wrong < due[same];
    if is_shorter && same + 1 == sizes.len() {
        return false;
    }
    // The line that is refused has two blocks before it that were not released: its own and the one that it would sign
    let lines = same + usize::from(is_shorter);
    assert_eq!(
        (released, last(read)),
        (lines.saturating_sub(1), Event::Refused(Refusal::plain(7))),
        "{sizes:?} of {due:?}"
    );
    false
}
