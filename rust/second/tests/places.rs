//! Where a text went wrong: the examples of request #106, and short random texts, for which the place that was found must be a
//! beginning of a good text and one byte more must be none. Whether it is one is found here by completions of another make: all
//! texts of a few letters, or many lines.

mod common;

use common::{head_with, ring};
use second::chunk::{self, Before};
use second::event::{Event, Refusal};
use second::head;
use second::plain;
use second::reader::Reader;
use second::trailer;

fn signature() -> String {
    format!("{}==", "A".repeat(86))
}

/// A head that is good in all, for blocks of 5 bytes.
fn good_head() -> String {
    head_with(" u", "", "")
}

/// The last event of a stream, all answers yes: by the plain reading, and by the piecewise reader in single bytes.
fn last(stream: &[u8]) -> Event {
    let reading = plain::read(stream, &ring(), b"u", &[true; 9], true);
    let whole = reading.events.last().expect("an event").event.clone();
    assert_eq!(by_bytes(stream), whole);
    whole
}

fn by_bytes(stream: &[u8]) -> Event {
    let mut reader = Reader::new(ring(), b"u".to_vec());
    for byte in stream.chunks(1) {
        match reader.feed(byte).expect("in time").1 {
            Some(Event::Question(_)) => drop(reader.answer(true)),
            Some(event) => return event,
            None => (),
        }
    }
    reader.end().expect("in time")
}

fn head_at(head: &[u8], place: usize) {
    assert_eq!(last(head), Event::Refused(Refusal::head(place)), "{:?}", head.escape_ascii().to_string());
}

/// What comes after a good head is refused with 6 at this place of its last section.
fn frame_at(rest: &[u8], place: usize) {
    let stream = [good_head().as_bytes(), rest].concat();
    assert_eq!(last(&stream), Event::Refused(Refusal::frame(place)), "{:?}", rest.escape_ascii().to_string());
}

/// A first line, and the line after a block.
fn line_at(line: &[u8], place: usize) {
    frame_at(line, place);
    frame_at(&[b"5\r\nHello\r\n", line].concat(), place);
}

/// A trailer after no block, and after one.
fn trailer_at(trailer: &[u8], place: usize) {
    frame_at(&[b"0\r\n", trailer].concat(), place);
    let block = format!("5\r\nHello\r\n0;ouisig={}\r\n", signature());
    frame_at(&[block.as_bytes(), trailer].concat(), place);
}

#[test]
fn point_1_the_limit_goes_before_bad_text() {
    head_at(&b"x".repeat(33_000), 32_768);
    line_at(&[&b"x".repeat(126)[..], b"\r\n"].concat(), 0);
    line_at(&b"x".repeat(128), 128);
    line_at(&[&b"x".repeat(127)[..], b"\r\n"].concat(), 128);
    trailer_at(&b"\0".repeat(32_768), 32_768);
    trailer_at(&[&b"\0".repeat(32_764)[..], b"\r\n\r\n"].concat(), 0);
    head_at(&[&b"x".repeat(32_764)[..], b"\r\n\r\n"].concat(), 0);
    head_at(&[&b"x".repeat(32_765)[..], b"\r\n\r\n"].concat(), 32_768);
}

/// A head of so many fields of names that differ, with these lines at its end.
fn many_fields(count: usize, more: &str) -> String {
    let fields: String = (0..count).map(|number| format!("f{number}: x\r\n")).collect();
    format!("HTTP/1.1 200 OK\r\n{fields}{more}\r\n")
}

#[test]
fn point_2_the_length_taken_is_the_section_s() {
    let head = many_fields(129, "");
    head_at(head.as_bytes(), head.len());
    let doubled = many_fields(3, "X-Ouinet-F: 1\r\nx-ouinet-f: 2\r\n");
    head_at(doubled.as_bytes(), doubled.len());
    assert_eq!(last(many_fields(128, "").as_bytes()), Event::Refused(Refusal::plain(4)));
}

#[test]
fn point_3_a_cr_may_begin_a_line_end() {
    for (line, place) in
        [("A: b\rc", 5), ("A: b\nc", 4), ("\rA", 1), ("\rA: b", 1), ("A: b\r", 5), ("A\r", 1), ("\n", 0)]
    {
        for before in ["", "A: b\r\n", "A: b\r\nC:\r\n"] {
            let start = before.len() + place;
            trailer_at(format!("{before}{line}\r\n\r\n").as_bytes(), start);
            head_at(format!("HTTP/1.1 200 OK\r\n{before}{line}\r\n\r\n").as_bytes(), 17 + start);
        }
    }
    head_at(b"HTTP/1.1 200 O\rK\r\n\r\n", 15);
    head_at(b"HTTP/1.1 200 OK\r\r\n\r\n", 16);
    line_at(b"5\rx\r\n", 2);
    line_at(b"5\r\r\n", 2);
    line_at(b"\r\n", 0);
    line_at(b"5\nx\r\n", 1);
}

#[test]
fn point_4_digits_and_base64() {
    let line = |text: &str| format!("5;ouisig={text}\r\n").into_bytes();
    let good = signature();
    line_at(b"000000005\r\n", 8);
    line_at(b"00000000000000\r\n", 8);
    for letter in ['B', 'P', 'R', '/', '=', '-'] {
        line_at(&line(&format!("{}{letter}==", &good[..85])), 9 + 85);
    }
    line_at(&line(&good[..87]), 9 + 87);
    line_at(&line(&good[..86]), 9 + 86);
    line_at(&line(""), 9);
    line_at(&line(&format!("{}A=", &good[..86])), 9 + 86);
    line_at(&line(&format!("{}=A", &good[..86])), 9 + 87);
    line_at(&line(&format!("{good}=")), 9 + 88);
    line_at(&line(&format!("{}=", &good[1..])), 9 + 85);
    line_at(b"5;OUISIG=\r\n", 2);
    line_at(b"5;ouisi\r\n", 7);
    line_at(b"5 ;ouisig=\r\n", 1);
}

/// Request #104 gives a line one more form, so that some texts go wrong later than before. (`parts.rs` has more of them.)
#[test]
fn a_hash_is_good_text_too() {
    for (line, place) in [
        ("5;OUIHASH=\r\n", 2),
        ("5;ouiX\r\n", 5),
        ("5;oui\r\n", 5),
        ("5;ouih\r\n", 6),
        ("5;ouihx\r\n", 6),
        ("5;ouis\r\n", 6),
        ("5;ouisx\r\n", 6),
        ("5;ouihash=\r\n", 10),
        ("5;ouisash=\r\n", 6),
        ("5;ouihig=\r\n", 6),
    ] {
        line_at(line.as_bytes(), place);
    }
    // Behind either one nothing may come but the line's end
    for name in [";ouisig=", ";ouihash="] {
        let line = format!("5{name}{}", signature());
        line_at(format!("{line};ouihash=\r\n").as_bytes(), line.len());
        line_at(format!("{line};ouisig=\r\n").as_bytes(), line.len());
        line_at(format!("{line}\rx\r\n").as_bytes(), line.len() + 1);
    }
}

#[test]
fn point_5_good_by_text_only() {
    // A signature that is not due, and then one that is too long for a base64 text
    line_at(format!("5;ouisig={}x\r\n", signature()).as_bytes(), 9 + 88);
    // A size above N, with a blank at the line's end
    line_at(b"ffffffff \r\n", 8);
    let after_129 = many_fields(129, "A b: c\r\n");
    head_at(after_129.as_bytes(), after_129.len() - 2 - 8 + 1);
    let after_doubling = many_fields(3, "X-Ouinet-F:\r\nX-Ouinet-F:\r\nA\0: c\r\n");
    head_at(after_doubling.as_bytes(), after_doubling.len() - 2 - 7 + 1);
    let before_both = format!("HTTP/1.1 200 OK\r\n: {}", &many_fields(130, "X-Ouinet-F:\r\nX-Ouinet-F:\r\n")[17..]);
    head_at(before_both.as_bytes(), 17);
}

#[test]
fn point_6_the_end_may_come_inside_bad_text() {
    head_at(b"\r\n\r\n", 0);
    head_at(b"HTTP/1.1 20\r\n\r\n", 11);
    head_at(b"HTTP/1.1 2000 OK\r\n\r\n", 12);
    head_at(b"HTTP/1.0 200 OK\r\n\r\n", 7);
    head_at(b"HTTP/1.1 200\r\n\r\n", 12);
    head_at(b"HTTP/1.1 200 OK\r\nA\r\n\r\n", 18);
    trailer_at(b"A\r\n\r\n", 1);
}

#[test]
fn point_7_data_ends_and_trailers() {
    for (end, place) in [(b"XY", 0), (b"\rX", 1), (b"\r\r", 1), (b"\n\r", 0), (b"\n\n", 0)] {
        frame_at(&[b"5\r\nHello", &end[..]].concat(), place);
        assert_eq!(chunk::judge_data_end(end), Err(Refusal::frame(place)));
    }
    trailer_at(b"\rA: b\r\n\r\n", 1);
    trailer_at(b"\rA\r\n\r\n", 1);
}

#[test]
fn other_refusals_have_no_place() {
    let mut stream = good_head().into_bytes();
    let last_of = |rest: &[u8]| last(&[&stream[..], rest].concat());
    let signed = format!("5;ouisig={}\r\n", signature());
    assert_eq!(last_of(signed.as_bytes()), Event::Refused(Refusal::plain(8)));
    assert_eq!(last_of(b"6\r\n"), Event::Refused(Refusal::plain(7)));
    assert_eq!(last_of(b"5"), Event::Refused(Refusal::plain(11)));
    stream.truncate(40);
    assert_eq!(last(&stream), Event::Refused(Refusal::plain(11)));
    assert_eq!(last(b"HTTP/1.1 200 OK\r\n\r\n"), Event::Refused(Refusal::plain(4)));
}

/// The program tells the place where it is asked for it.
#[test]
fn the_program_s_lines() {
    let folder = std::env::temp_dir().join(format!("second-places-{}", std::process::id()));
    std::fs::create_dir_all(&folder).expect("a folder");
    let file = |name: &str, text: &[u8]| std::fs::write(folder.join(name), text).expect("a file");
    file("stream", b"HTTP/1.1 20\r\n\r\n");
    file("short", b"HTTP/1.1 20");
    file("empty", b"");
    let run = |words: &[&str]| {
        let mut program = std::process::Command::new(env!("CARGO_BIN_EXE_ouiread-second"));
        let output = program.current_dir(&folder).args(words).output().expect("it runs");
        (String::from_utf8(output.stdout).expect("text"), output.status.code())
    };
    let told = |text: &str| (text.to_string(), Some(0));
    assert_eq!(run(&["stream", "empty", "empty", "--uri", "empty", "--where"]), told("refused 3 at 11\n"));
    assert_eq!(run(&["stream", "empty", "empty", "--uri", "empty"]), told("refused 3\n"));
    assert_eq!(run(&["short", "empty", "empty", "--where", "--uri", "empty"]), told("refused 11\n"));
    std::fs::remove_dir_all(&folder).expect("the folder goes");
}

// ---- other completions

/// A seeded generator; enough for drawing texts.
struct Draw(u64);

impl Draw {
    fn below(&mut self, bound: usize) -> usize {
        self.0 = self.0.wrapping_mul(6_364_136_223_846_793_005).wrapping_add(1_442_695_040_888_963_407);
        ((self.0 >> 33) % bound as u64) as usize
    }

    fn text(&mut self, letters: &[&str], most: usize) -> Vec<u8> {
        let count = self.below(most + 1);
        (0..count).flat_map(|_| letters[self.below(letters.len())].bytes()).collect()
    }
}

/// All texts of up to so many of these letters.
fn all_texts(letters: &[u8], most: usize) -> Vec<Vec<u8>> {
    let mut all = vec![Vec::new()];
    let mut start = 0;
    for _ in 0..most {
        let end = all.len();
        for place in start..end {
            all.extend(letters.iter().map(|&letter| [&all[place][..], &[letter]].concat()).collect::<Vec<_>>());
        }
        start = end;
    }
    all
}

fn has_completion(beginning: &[u8], completions: &[Vec<u8>], is_good: fn(&[u8]) -> bool) -> bool {
    completions.iter().any(|completion| is_good(&[beginning, completion].concat()))
}

/// Up to the place there is a completion, and one byte further there is none.
fn check(text: &[u8], place: usize, completions: &[Vec<u8>], is_good: fn(&[u8]) -> bool) {
    let shown = text.escape_ascii().to_string();
    assert!(has_completion(&text[..place], completions, is_good), "{shown} goes wrong before {place}");
    assert!(
        place < text.len() && !has_completion(&text[..place + 1], completions, is_good),
        "{shown} is good at {place}"
    );
}

const FIELD_LETTERS: [&str; 10] = ["A", "~", ":", ": ", " ", "(", "\r", "\n", "\r\n", "A:\r\n"];

/// Short trailers, cut at their first end; each beginning of a good one can be completed by six of these letters.
#[test]
fn trailers_against_all_completions() {
    let completions = all_texts(b"B:\r\n", 6);
    let (mut draw, mut wrong) = (Draw(1), 0);
    for _ in 0..3000 {
        let mut text = [&draw.text(&FIELD_LETTERS, 8)[..], b"\r\n\r\n"].concat();
        let end = (0..=text.len()).find(|&length| trailer::is_whole(&text[..length])).expect("an end");
        text.truncate(end);
        if let Err(refusal) = trailer::judge(&text) {
            wrong += 1;
            check(&text, refusal.at.expect("a place"), &completions, trailer::is_good);
        }
    }
    assert!(wrong > 2000, "only {wrong} trailers were wrong");
}

/// The same for what comes after the three digits of a head.
#[test]
fn heads_against_all_completions() {
    let completions = all_texts(b"B:\r\n", 6);
    let (mut draw, mut wrong) = (Draw(2), 0);
    let letters = [&FIELD_LETTERS[..], &["\0", "\x7f", "\t", "\r\n", " \r\n"]].concat();
    for _ in 0..3000 {
        let mut text = [b"HTTP/1.1 200 ", &draw.text(&letters, 9)[..], b"\r\n\r\n"].concat();
        let end = text.windows(4).position(|four| four == head::END).expect("an end");
        text.truncate(end + 4);
        let Err(Refusal { number: 3, at: Some(place) }) = head::judge(&text, &[], b"u") else { continue };
        if place < text.len() {
            wrong += 1;
            check(&text, place, &completions, head::is_good);
        } else {
            assert!(head::is_good(&text));
        }
    }
    assert!(wrong > 1500, "only {wrong} heads were wrong");
}

/// Every byte in place of every one of a status line; a good one has one byte at each place, or ten, or a reason's.
#[test]
fn status_lines_with_any_byte_anywhere() {
    let good = b"HTTP/1.1 200 OK\r\n\r\n";
    for place in 0..15 {
        for byte in 0..=255 {
            let mut text = good.to_vec();
            text[place] = byte;
            let stays = match place {
                9..=11 => byte.is_ascii_digit(),
                13.. => byte == b'\t' || byte == b'\r' || (byte >= b' ' && byte != 127),
                _ => byte == good[place],
            };
            // A CR in the reason is wrong at the byte after it
            let due = place + usize::from(byte == b'\r' && place >= 13);
            match head::judge(&text, &[], b"u") {
                Err(Refusal { number: 3, at: Some(at) }) => assert_eq!(at, due, "{byte} at {place}"),
                other => assert!(stays && byte != b'\r', "{byte} at {place}: {other:?}"),
            }
        }
    }
}

/// Some thousand ways to go on with a line: up to two digits, a tail of `;ouisig=` or `;ouihash=`, some letters, a tail of the end.
fn line_tails() -> Vec<Vec<u8>> {
    let (names, end) = ([&b";ouisig="[..], b";ouihash="], b"==\r\n");
    let names: Vec<&[u8]> = names.iter().flat_map(|name| (0..=name.len()).map(|start| &name[start..])).collect();
    let mut tails = Vec::new();
    for digits in [&b""[..], b"3", b"0f"] {
        for name in &names {
            for letters in 0..=86 {
                let front = [digits, name, &b"w".repeat(letters)].concat();
                tails.extend((0..=end.len()).map(|start| [&front[..], &end[start..]].concat()));
                tails.push([&front[..], b"Q==\r\n"].concat());
            }
        }
    }
    tails
}

/// A good line with one byte replaced, inserted or deleted, cut at its first end.
fn changed_line(draw: &mut Draw) -> Vec<u8> {
    let samples = ["5", "00000005", "a;ouisig=", "0;ouisig=", "FFFFFFFF;ouisig=", "a;ouihash=", "FFFFFFFF;ouihash="];
    let letters = ["\r", "\n", "0", "A", "B", "g", "=", ";", " ", "-", "Q", "\0", "h", "s"];
    let mut line = samples[draw.below(samples.len())].as_bytes().to_vec();
    if line.ends_with(b"=") {
        line.extend(format!("{}Q==", "xyz+/".repeat(17)).bytes());
    }
    line.extend(b"\r\n");
    let place = draw.below(line.len());
    let odd = letters[draw.below(letters.len())].as_bytes()[0];
    match draw.below(3) {
        0 => line[place] = odd,
        1 => line.insert(place, odd),
        _ => drop(line.remove(place)),
    }
    line.extend(b"\r\n");
    let end = line.windows(2).position(|two| two == chunk::END).expect("an end");
    line.truncate(end + 2);
    line
}

#[test]
fn lines_against_many_completions() {
    let tails = line_tails();
    let before = Before { block_size: 5, block: None, total: 0, part: None };
    let (mut draw, mut wrong) = (Draw(3), 0);
    for _ in 0..3000 {
        let line = changed_line(&mut draw);
        if let Err(Refusal { number: 6, at: Some(place) }) = chunk::judge(&line, &before) {
            wrong += 1;
            check(&line, place, &tails, chunk::is_good);
        }
    }
    assert!(wrong > 1500, "only {wrong} lines were wrong");
}
