// Times the judgement of good heads with as many fields and listed names as there may be, of 4, 8, 16 and 32 KiB, the longest. The bytes
// differ and the names do not, so the times tell how the work grows with the bytes. Then the longest heads in which a signed name has many
// lines, whose values are joined for the signature, and ones whose names differ at their ends. bench/timed builds and runs this.
use std::time::Instant;

extern "C" {
    // A slice is passed as its first byte's address and its length.
    fn thawrushes_judge_head(
        text: *const u8,
        text_len: usize,
        key: *const u8,
        key_len: usize,
        first: u64,
        last: u64,
        uri: *const u8,
        uri_len: usize,
        question: *mut u8,
        question_len: usize,
    ) -> u8;
}

// 32 bytes and 64 bytes of zeros in base64.
const KEY: &str = "AAAAAAAAAAAAAAAAAAAAAAAAAAAAAAAAAAAAAAAAAAA=";
const SIGNATURE: &str = "AAAAAAAAAAAAAAAAAAAAAAAAAAAAAAAAAAAAAAAAAAAAAAAAAAAAAAAAAAAAAAAAAAAAAAAAAAAAAAAAAAAAAA==";

// The most fields of a head, the most names in its list, and its most bytes.
const FIELDS: usize = 128;
const LISTED: usize = 32;
const LONGEST: usize = 32 * 1024;
// How many fields a head has beside the six that the rules ask for, and how many names it must list.
const OTHERS: usize = FIELDS - 6;
const OWN_LISTED: usize = 5;
// A head with short names has fewer bytes than these beside the values of its other fields.
const BESIDE_VALUES: usize = 2600;

// The URI that all heads here have, and that is asked for.
const URI: &str = "/";

fn judge(head: &[u8], uri: &str, question: &mut [u8]) -> u8 {
    // The four lengths are those of the four parts of memory, and question overlaps none of the others.
    unsafe {
        thawrushes_judge_head(
            head.as_ptr(),
            head.len(),
            KEY.as_ptr(),
            KEY.len(),
            0,
            u64::MAX,
            uri.as_ptr(),
            uri.len(),
            question.as_mut_ptr(),
            question.len(),
        )
    }
}

// A head of n bytes: six fields that the rules ask for, and others that are named by their number, the first 27 of them listed. Their values
// have this width, and the last one's fills the head up.
fn head_named(n: usize, name: fn(usize) -> String, width: usize) -> Vec<u8> {
    let (mut fields, mut listed) = (String::new(), String::new());
    for i in 0..OTHERS - 1 {
        fields += &format!("{}: {i:0width$}\r\n", name(i));
        if i < LISTED - OWN_LISTED {
            listed += &format!(" {}", name(i));
        }
    }
    let head = head_of(n, &fields, &listed, &name(OTHERS - 1));
    assert_eq!(names(&head).count(), LISTED);
    head
}

// The same with short names: their number and length do not depend on n, and the values share the rest.
fn head(n: usize) -> Vec<u8> {
    head_named(n, |i| format!("field-{i}"), (n - BESIDE_VALUES) / OTHERS)
}

// A head of 32 KiB with so many listed names of one line each, and one that has all other lines, in two cases by turns. The last of
// them fills the head.
fn repeated(single: usize, name: &str) -> Vec<u8> {
    let (mut fields, mut listed) = (String::new(), String::new());
    for i in 0..single {
        fields += &format!("Field-Number-{i}: {:030}\r\n", i);
        listed += &format!(" field-number-{i}");
    }
    let width = 200 - name.len();
    for i in 0..OTHERS - single - 1 {
        let name = if i % 2 == 0 { name.to_string() } else { name.to_uppercase() };
        fields += &format!("{name}: {i:0width$}\r\n");
    }
    let head = head_of(LONGEST, &fields, &format!("{listed} {name}"), name);
    assert_eq!(names(&head).count(), OWN_LISTED + single + 1);
    let mut question = vec![0; LONGEST];
    assert_eq!(judge(&head, URI, &mut question), 0);
    let joined = format!("\n{name}: {:0width$}, {:0width$}, {:0width$}, ", 0, 1, 2);
    assert!(String::from_utf8(question).unwrap().contains(&joined));
    head
}

// The names in the list of a head.
fn names(head: &[u8]) -> impl Iterator<Item = &str> {
    let head = std::str::from_utf8(head).unwrap();
    head.split("headers=\"").nth(1).unwrap().split('"').next().unwrap().split(' ')
}

// A head of n bytes: what the rules ask for, these fields, and one more that fills it up. They must be as many as there may be.
fn head_of(n: usize, fields: &str, listed: &str, filler: &str) -> Vec<u8> {
    let names = format!("(response-status) (created) x-ouinet-version x-ouinet-uri x-ouinet-injection{listed}");
    let key = format!("keyId=\"ed25519={KEY}\",algorithm=\"hs2019\"");
    let start = format!(
        "HTTP/1.1 200 OK\r\nX-Ouinet-Version: 4\r\nX-Ouinet-URI: {URI}\r\nX-Ouinet-Injection: id=a,ts=1\r\n\
         X-Ouinet-Sig0: {key},created=1,headers=\"{names}\",signature=\"{SIGNATURE}\"\r\n\
         X-Ouinet-BSigs: {key},size=65536\r\nTransfer-Encoding: chunked\r\n{fields}{filler}: "
    );
    let fill = "x".repeat(n - start.len() - 4);
    let head = format!("{start}{fill}\r\n\r\n").into_bytes();
    assert_eq!(head.len(), n);
    assert_eq!(head.split(|&b| b == b'\n').count(), 1 + FIELDS + 2);
    head
}

// The median time of one judgement, in microseconds.
fn median(head: &[u8]) -> f64 {
    let mut question = vec![0; LONGEST];
    let mut times: Vec<f64> = (0..2001)
        .map(|_| {
            let start = Instant::now();
            assert_eq!(judge(head, URI, &mut question), 0);
            start.elapsed().as_secs_f64() * 1e6
        })
        .collect();
    assert!(question.starts_with(b"(response-status): 200\n(created): 1\nx-ouinet-version: 4\n"));
    times.sort_by(f64::total_cmp);
    times[times.len() / 2]
}

fn main() {
    // A head that breaks a rule, and one that was not asked for, show that the judgement is made.
    let mut wrong = head(LONGEST);
    wrong[9] = b'4';
    assert_eq!(judge(&wrong, URI, &mut [0; LONGEST]), 4);
    assert_eq!(judge(&head(LONGEST), "/other", &mut [0; LONGEST]), 16);
    println!("one judgement of a head of {FIELDS} fields and {LISTED} listed names, median of 2001 in microseconds, and that by KiB:");
    let times = [4, 8, 16, 32].map(|kib| {
        let time = median(&head(kib * 1024));
        println!("{kib} KiB: {time:.1}, {:.2}", time / kib as f64);
        time
    });
    let whole = times[3];
    println!("the same of other heads of 32 KiB and {FIELDS} fields, and the ratio to the last one above:");
    for (single, name) in [(0, "vary"), (26, "vary"), (0, &"v".repeat(100))] {
        let (lines, letters, listed) = (OTHERS - single, name.len(), OWN_LISTED + single + 1);
        let label = format!("{lines} lines of a name of {letters} letters, {listed} listed names");
        tell(&label, &repeated(single, name), whole);
    }
    // Names of one length that differ at their ends: of a pair that is compared, all letters are
    let plain = head_named(LONGEST, |i| format!("{}{i:03}", "n".repeat(202)), 3);
    tell("names of 205 letters that differ in the last ones", &plain, whole);
    let ours = head_named(LONGEST, |i| format!("x-ouinet-{}{i:03}", "n".repeat(193)), 3);
    tell("the same, and each begins X-Ouinet- and may come once", &ours, whole);
}

fn tell(label: &str, head: &[u8], whole: f64) {
    let time = median(head);
    println!("{label}: {time:.1}, ratio {:.3}", time / whole);
}
