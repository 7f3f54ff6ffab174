//! The URI that is looked up in a stream's head before anything is verified, beside the one that the accepted head hands out; and the
//! sentence about another show, beside the second reader's.

use ouinet_reader::{another_show, head_uri, Event, Reader, Refusal, Ring};
use second::other_show::sentence;
use streams::case::Case;
use streams::rng::Rng;
use streams::sequence::{Group, Sequence};

/// What the head comes to, asked for so and with a yes: the URI that is handed out, or the refusal. Nothing where it has no end.
fn judged(case: &Case, asked: &[u8]) -> Option<Result<Vec<u8>, Refusal>> {
    let mut reader = Reader::new(Ring::parse(&case.ring).expect("a good ring"), asked);
    match reader.feed(&case.stream).expect("in turn").event? {
        Event::Refused(refusal) => return Some(Err(refusal)),
        Event::Question(_) => (),
        other => panic!("{other:?} is no word about a head"),
    }
    assert!(matches!(reader.answer(true), Ok(Event::HeadAccepted { .. })), "{}", case.label);
    Some(Ok(reader.value("X-Ouinet-URI")))
}

#[test]
fn uris_of_accepted_heads() {
    let groups =
        [Group::Example, Group::Rules, Group::Bounds, Group::Repeated, Group::Asked, Group::Longer, Group::Mixed];
    let (mut accepted, mut others) = (0, 0);
    for case in Sequence::new(9, &groups).take(3350) {
        let found = head_uri(&case.stream);
        match judged(&case, &case.uri) {
            Some(Ok(uri)) => {
                assert_eq!(found, Some(&uri[..]), "{}", case.label);
                accepted += 1;
            }
            Some(Err(Refusal::OtherUri)) => others += 1,
            _ => (),
        }
        // Asked for by what is found, it is no other show
        assert_ne!(judged(&case, found.unwrap_or_default()), Some(Err(Refusal::OtherUri)), "{}", case.label);
    }
    println!("{accepted} accepted heads, {others} of another show");
    assert!(accepted > 800, "only {accepted} heads were accepted");
    assert!(others > 200, "only {others} heads were another show's");
}

/// A URI that begins so, in letters some of which are escaped or look like what stands for others.
fn longer(front: &[u8], rng: &mut Rng) -> Vec<u8> {
    let more = rng.below(130) * rng.below(2);
    [front, &rng.letters(b"x.`\\0\n\xe9", more)].concat()
}

#[test]
fn sentences() {
    let mut rng = Rng::new(3);
    for _ in 0..20_000 {
        let length = *rng.pick(&[0, 1, 30, 39, 40, 41, 60, 99, 100, 101, 200, 5000]);
        let front = rng.letters(b"x.`\\", length);
        let (asked, got) = (longer(&front, &mut rng), longer(&front, &mut rng));
        let said = another_show(&asked, &got);
        assert_eq!(said, sentence(&asked, &got));
        // What is shown of them is told apart, and has no backtick of its own
        let parts: Vec<&str> = said.split('`').collect();
        assert_eq!((parts.len(), parts[1] == parts[3]), (5, asked == got), "{said}");
    }
}
