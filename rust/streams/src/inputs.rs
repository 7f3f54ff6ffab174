//! Malformed, missing and unreadable files: no event, one line that names the file and the line. Words that are not as they
//! must be: no event, and the usage.

use crate::case::{Case, Expected, Lack, Naming, ANSWERS, ASKED, CUTS, RING, STREAM};
use crate::example;
use crate::plan::ring_text;

/// All cases of this kind, made from the example, and a few odd files that are good.
pub fn all() -> Vec<Case> {
    let mut cases: Vec<Case> = [STREAM, RING, ANSWERS, CUTS].into_iter().flat_map(lacks).collect();
    cases.extend(rings());
    cases.extend(answers());
    cases.extend(cuts());
    cases.extend(good());
    cases
}

/// The same about the file of the URI. They are apart so that the numbers of later cases do not depend on them.
pub fn about_uri() -> Vec<Case> {
    lacks(ASKED).into_iter().chain(namings()).chain(uris()).collect()
}

/// The bytes of a file cannot be had.
fn lacks(file: &'static str) -> Vec<Case> {
    [("missing", Lack::Missing), ("a folder", Lack::Folder), ("that cannot be read", Lack::Unreadable)]
        .into_iter()
        .map(|(how, lack)| {
            let mut case = example_case(format!("{file} {how}"), Expected::Malformed { file, line: None });
            case.lack = Some((file, lack));
            case
        })
        .collect()
}

fn example_case(label: String, expected: Expected) -> Case {
    let built = example::plan().build();
    Case {
        label,
        stream: built.bytes(),
        ring: ring_text(&built.ring),
        uri: built.uri,
        naming: Naming::Once,
        answers: b"yyyyy".to_vec(),
        cuts: Some(b"65536\n".to_vec()),
        lack: None,
        through_pipe: false,
        expected,
    }
}

/// The file of the URI must be named, and once.
fn namings() -> Vec<Case> {
    let mut cases = Vec::new();
    for (label, naming) in [
        ("no URI given", Naming::NotAtAll),
        ("a URI given twice", Naming::Twice),
        ("a URI without its file", Naming::WithoutFile),
    ] {
        for cuts in [None, Some(b"5\n".to_vec())] {
            let mut case = example_case(label.to_string(), Expected::Usage);
            (case.naming, case.cuts) = (naming, cuts);
            cases.push(case);
        }
    }
    cases
}

/// Any bytes are a good file for the URI; most are another one's.
fn uris() -> Vec<Case> {
    let own = example::plan().uri();
    let texts: [(&str, Vec<u8>); 6] = [
        ("that is empty", Vec::new()),
        ("with a line feed at its end", [&own[..], b"\n"].concat()),
        ("with a CR LF at its end", [&own[..], b"\r\n"].concat()),
        ("with a space at its end", [&own[..], b" "].concat()),
        ("of zero bytes", vec![0; 70_000]),
        ("of a million bytes", [&own[..], &b"x".repeat(1_000_000)].concat()),
    ];
    let refused = || Expected::Exactly { lines: vec!["refused 16".to_string()], body: Vec::new() };
    texts
        .into_iter()
        .map(|(label, text)| {
            let mut case = example_case(format!("{ASKED} {label}"), refused());
            case.uri = text;
            case
        })
        .collect()
}

fn rings() -> Vec<Case> {
    let good = ring_text(&example::plan().ring);
    let good = String::from_utf8_lossy(&good).into_owned();
    let key = good[..44].to_string();
    let texts = [
        ("seventeen records", good.repeat(17), 17),
        ("an empty line first", format!("\n{good}"), 1),
        ("an empty line between", format!("{good}\n{good}"), 2),
        ("a key alone", format!("{key}\n"), 1),
        ("one second alone", format!("{key} 1\n"), 1),
        ("three seconds", format!("{good}{key} 1 2 3\n"), 2),
        ("two spaces", format!("{key}  1 2\n"), 1),
        ("a tab", format!("{key}\t1 2\n"), 1),
        ("a space at the front", format!(" {key} 1 2\n"), 1),
        ("a space at the end", format!("{good}{key} 1 2 \n"), 2),
        ("a CR at the end", format!("{key} 1 2\r\n"), 1),
        ("a leading zero", format!("{key} 01 2\n"), 1),
        ("a minus", format!("{key} -1 2\n"), 1),
        ("a plus", format!("{key} 1 +2\n"), 1),
        ("hex", format!("{key} 0x1 2\n"), 1),
        ("a second of 2^64", format!("{key} 1 18446744073709551616\n"), 1),
        ("a second of 21 digits", format!("{key} 1 100000000000000000000\n"), 1),
        ("a key of 43 characters", format!("{} 1 2\n", &key[1..]), 1),
        ("a key without padding", format!("{} 1 2\n", &key[..43]), 1),
        ("a key with a spare bit", format!("{}B= 1 2\n", &key[..42]), 1),
        ("a key with a wrong letter", format!("-{} 1 2\n", &key[1..]), 1),
        ("a word", format!("{good}{good}key\n"), 3),
    ];
    texts
        .into_iter()
        .map(|(label, text, line)| {
            let expected = Expected::Malformed { file: RING, line: Some(line) };
            let mut case = example_case(format!("ring with {label}"), expected);
            case.ring = text.into_bytes();
            case
        })
        .collect()
}

fn answers() -> Vec<Case> {
    let far = [&b"y\n".repeat(1000)[..], b"z"].concat();
    let wide = [&b" ".repeat(511)[..], b"y\n0"].concat();
    let texts: [(&str, &[u8], usize); 8] = [
        ("another letter first", b"x", 1),
        ("a capital letter", b"yY", 1),
        ("another letter on line 3", b"y\ny\nyes\n", 3),
        ("a digit behind what is needed", b"y\ny\ny\ny\ny\n1\n", 6),
        ("a zero byte", b"y\0y", 1),
        ("a byte of 255", b"y\n\xff", 2),
        ("another letter on line 1001", &far, 1001),
        ("another letter after 513 bytes", &wide, 2),
    ];
    texts
        .into_iter()
        .map(|(label, text, line)| {
            let expected = Expected::Malformed { file: ANSWERS, line: Some(line) };
            let mut case = example_case(format!("answers with {label}"), expected);
            case.answers = text.to_vec();
            case
        })
        .collect()
}

fn cuts() -> Vec<Case> {
    let texts: [(&str, Vec<u8>, Option<usize>); 14] = [
        ("nothing", b"".to_vec(), None),
        ("zeros only", b"0\n0\n".to_vec(), None),
        ("65,537", b"1\n65537\n".to_vec(), Some(2)),
        ("a large number", b"99999999999999999999999\n".to_vec(), Some(1)),
        ("a word", b"1\n2\nthree\n".to_vec(), Some(3)),
        ("a minus", b"-1\n".to_vec(), Some(1)),
        ("an empty line", b"5\n\n5\n".to_vec(), Some(2)),
        ("two numbers on a line", b"1 2\n".to_vec(), Some(1)),
        ("a space in front", b"1\n 2\n".to_vec(), Some(2)),
        ("hex", b"0x10\n".to_vec(), Some(1)),
        ("a CR", b"1\n2\r\n".to_vec(), Some(2)),
        ("4,097 lines", b"1\n".repeat(4097), Some(4097)),
        ("50,000 lines", b"1\n".repeat(50_000), Some(4097)),
        ("4,096 zeros", b"0\n".repeat(4096), None),
    ];
    texts
        .into_iter()
        .map(|(label, text, line)| {
            let expected = Expected::Malformed { file: CUTS, line };
            let mut case = example_case(format!("cuts with {label}"), expected);
            case.cuts = Some(text);
            case
        })
        .collect()
}

/// Odd files that are good.
fn good() -> Vec<Case> {
    let all = example::LINES.len();
    let exactly = |count: usize| Expected::Exactly {
        lines: example::LINES[..count].iter().map(|line| line.to_string()).collect(),
        body: b"Hello world!"[..if count < all { 5 } else { 12 }].to_vec(),
    };
    let mut cases = Vec::new();
    let mut case = example_case("ring without a last line feed".to_string(), exactly(all));
    case.ring.pop();
    cases.push(case);
    let mut case = example_case("ring with seconds of 0 and 2^64-1".to_string(), exactly(all));
    case.ring = [&case.ring[..44], b" 0 18446744073709551615\n"].concat();
    cases.push(case);
    let mut case = example_case("answers with white space".to_string(), exactly(all));
    case.answers = b" \n\t y\r\n\ny  \n\n\ty\ny\n\ny".to_vec();
    cases.push(case);
    let mut case = example_case("answers far apart".to_string(), exactly(all));
    case.answers = [&b" ".repeat(511)[..], b"yy", &b"\n".repeat(1024), b"yy", &b"\t".repeat(5000), b"y"].concat();
    cases.push(case);
    let mut case = example_case("more answers than questions".to_string(), exactly(all));
    case.answers = b"y".repeat(5000);
    cases.push(case);
    let mut case = example_case("answers that run out".to_string(), exactly(5));
    case.answers = b"yy\n".to_vec();
    cases.push(case);
    let mut case = example_case("cuts of 4,096 lines".to_string(), exactly(all));
    case.cuts = Some(b"1\n".repeat(4096));
    cases.push(case);
    let mut case = example_case("cuts with many zeros".to_string(), exactly(all));
    case.cuts = Some([&b"0\n".repeat(50)[..], b"3"].concat());
    cases.push(case);
    cases
}
