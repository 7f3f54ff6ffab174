// Times the proved reading of a signature's 88 base64 characters beside an ordinary one in Rust, which looks each character up in a
// table. Both read the same 4,096 texts by turns. bench/timed builds and runs this.
use std::hint::black_box;
use std::time::Instant;

extern "C" {
    // A slice is passed as its first byte's address and its length, an array as its first byte's address.
    fn thawrushes_signature(text: *const u8, text_len: usize, out: *mut [u8; 64]) -> bool;
}

fn proved(text: &[u8], out: &mut [u8; 64]) -> bool {
    // The length is that of the text, and out, 64 bytes, does not overlap it.
    unsafe { thawrushes_signature(text.as_ptr(), text.len(), out) }
}

const LETTERS: &[u8; 64] = b"ABCDEFGHIJKLMNOPQRSTUVWXYZabcdefghijklmnopqrstuvwxyz0123456789+/";

// Each byte's value; 255 where it is no letter.
static VALUES: [u8; 256] = {
    let mut values = [255; 256];
    let mut i = 0;
    while i < 64 {
        values[LETTERS[i] as usize] = i as u8;
        i += 1;
    }
    values
};

fn ordinary(text: &[u8], out: &mut [u8; 64]) -> bool {
    let Some(letters) = text.strip_suffix(b"==") else {
        return false;
    };
    if letters.len() != 86 {
        return false;
    }
    let mut bytes = [0; 64];
    let (mut bits, mut held, mut n) = (0u32, 0, 0);
    for &c in letters {
        let value = VALUES[c as usize];
        if value == 255 {
            return false;
        }
        bits = bits << 6 | u32::from(value);
        held += 6;
        if held >= 8 {
            held -= 8;
            bytes[n] = (bits >> held) as u8;
            n += 1;
        }
    }
    if bits & 15 != 0 {
        return false;
    }
    *out = bytes;
    true
}

// Numbers that look random, always the same ones (xorshift).
struct Numbers(u64);

impl Numbers {
    fn below(&mut self, n: u64) -> u64 {
        self.0 ^= self.0 << 13;
        self.0 ^= self.0 >> 7;
        self.0 ^= self.0 << 17;
        (self.0 >> 20) % n
    }
}

fn good_text(numbers: &mut Numbers) -> Vec<u8> {
    let mut text: Vec<u8> = (0..85).map(|_| LETTERS[numbers.below(64) as usize]).collect();
    text.push(LETTERS[numbers.below(4) as usize * 16]);
    text.extend(b"==");
    text
}

// The two readings agree on a text: answer, bytes, and a buffer left alone where the answer is no.
fn agree(text: &[u8]) -> bool {
    let (mut ours, mut theirs) = ([170; 64], [170; 64]);
    let answer = proved(text, &mut ours);
    assert_eq!(answer, ordinary(text, &mut theirs), "{text:?}");
    assert_eq!(ours, theirs, "{text:?}");
    answer
}

// Good texts; each with a random byte at every place in turn; and each beginning of one.
fn compare(texts: &[Vec<u8>], numbers: &mut Numbers) {
    let mut good = 0;
    for text in texts {
        assert!(agree(text));
        for place in 0..text.len() {
            let mut changed = text.clone();
            changed[place] = numbers.below(256) as u8;
            good += usize::from(agree(&changed));
        }
    }
    for n in 0..88 {
        assert!(!agree(&texts[0][..n]));
    }
    println!("agree on {} good texts, {} with a random byte, {good} of them good, and 88 beginnings", texts.len(), texts.len() * 88);
}

// Nanoseconds for one text, over all of them.
fn time(read: fn(&[u8], &mut [u8; 64]) -> bool, texts: &[Vec<u8>]) -> f64 {
    let start = Instant::now();
    for text in texts {
        let mut out = [0; 64];
        assert!(read(black_box(text), &mut out));
        black_box(out);
    }
    start.elapsed().as_secs_f64() * 1e9 / texts.len() as f64
}

fn median(mut times: Vec<f64>) -> f64 {
    times.sort_by(f64::total_cmp);
    times[times.len() / 2]
}

fn main() {
    let mut numbers = Numbers(88_172_645_463_325_252);
    let texts: Vec<_> = (0..4096).map(|_| good_text(&mut numbers)).collect();
    compare(&texts, &mut numbers);
    let (mut ours, mut theirs) = (vec![], vec![]);
    for _ in 0..201 {
        ours.push(time(proved, &texts));
        theirs.push(time(ordinary, &texts));
    }
    let (ours, theirs) = (median(ours), median(theirs));
    println!("88 characters of base64: proved {ours:.0} ns, Rust {theirs:.0} ns, ratio {:.2}", ours / theirs);
}
