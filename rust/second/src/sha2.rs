//! What the two hashes of FIPS 180-4 have in common: all but the width of a word, the words they start from and mix in, and how
//! far they turn a word.

/// Defines a hash over bytes that come in parts: its type, and a function for parts that are all there. Asked for are
///
/// * the names of the two;
/// * `word`, and `length`, which is twice as wide and tells how long the text is;
/// * `load`, which makes a word of its bytes, the highest first: what is fast for one width is slow for the other;
/// * `start`, the eight words a hash starts with, and `round`, a word for each round;
/// * by how many bits the functions that FIPS 180-4 writes with a sigma turn a word to the right. The small ones shift it by the last.
macro_rules! sha2 {
    (
        $Hash:ident, $hash:ident, word: $Word:ident, length: $Length:ident, load: $load:ident,
        start: $START:ident, round: $ROUND:ident,
        big_0: [$a0:literal, $b0:literal, $c0:literal], big_1: [$a1:literal, $b1:literal, $c1:literal],
        small_0: [$d0:literal, $e0:literal, $f0:literal], small_1: [$d1:literal, $e1:literal, $f1:literal] $(,)?
    ) => {
        /// The bytes of a word.
        const WORD: usize = size_of::<$Word>();

        /// The bytes one round of rounds eats.
        const UNIT: usize = 16 * WORD;

        /// A hash in the making. Between two parts it keeps the eight words and the bytes that do not make a whole unit yet.
        #[derive(Clone)]
        pub struct $Hash {
            words: [$Word; 8],
            /// The first `count` of these wait for the rest of their unit.
            waiting: [u8; UNIT],
            count: usize,
            total: $Length,
        }

        impl Default for $Hash {
            fn default() -> Self {
                Self::new()
            }
        }

        impl $Hash {
            pub fn new() -> Self {
                $Hash { words: $START, waiting: [0; UNIT], count: 0, total: 0 }
            }

            /// Takes more bytes of the hashed text.
            pub fn add(&mut self, mut bytes: &[u8]) {
                self.total += bytes.len() as $Length;
                if self.count > 0 {
                    let (front, rest) = bytes.split_at(bytes.len().min(UNIT - self.count));
                    self.wait(front);
                    bytes = rest;
                    if self.count < UNIT {
                        return;
                    }
                    mix(&mut self.words, &self.waiting);
                    self.count = 0;
                }
                let mut units = bytes.chunks_exact(UNIT);
                for unit in &mut units {
                    mix(&mut self.words, unit);
                }
                self.wait(units.remainder());
            }

            /// Puts bytes to those that wait. They have room there.
            fn wait(&mut self, bytes: &[u8]) {
                self.waiting[self.count..self.count + bytes.len()].copy_from_slice(bytes);
                self.count += bytes.len();
            }

            /// Ends the text: a one bit, zero bits, the length in bits.
            pub fn finish(mut self) -> [u8; 8 * WORD] {
                let bits = (self.total * 8).to_be_bytes();
                let zeros = (2 * UNIT - 1 - bits.len() - self.count) % UNIT;
                self.add(&[0x80]);
                self.add(&[0; UNIT][..zeros]);
                self.add(&bits);
                let mut out = [0; 8 * WORD];
                for (place, word) in out.chunks_exact_mut(WORD).zip(self.words) {
                    place.copy_from_slice(&word.to_be_bytes());
                }
                out
            }
        }

        /// The hash of parts put one after the other.
        pub fn $hash<'a>(parts: impl IntoIterator<Item = &'a [u8]>) -> [u8; 8 * WORD] {
            let mut hash = $Hash::new();
            for part in parts {
                hash.add(part);
            }
            hash.finish()
        }

        /// One unit into the eight words.
        fn mix(words: &mut [$Word; 8], unit: &[u8]) {
            let mut schedule: [$Word; $ROUND.len()] = [0; $ROUND.len()];
            for (slot, bytes) in schedule.iter_mut().zip(unit.chunks_exact(WORD)) {
                *slot = $load(bytes);
            }
            for t in 16..schedule.len() {
                schedule[t] = small_1(schedule[t - 2])
                    .wrapping_add(schedule[t - 7])
                    .wrapping_add(small_0(schedule[t - 15]))
                    .wrapping_add(schedule[t - 16]);
            }
            let [mut a, mut b, mut c, mut d, mut e, mut f, mut g, mut h] = *words;
            for t in 0..schedule.len() {
                let first = h
                    .wrapping_add(big_1(e))
                    .wrapping_add(choice(e, f, g))
                    .wrapping_add($ROUND[t])
                    .wrapping_add(schedule[t]);
                let second = big_0(a).wrapping_add(majority(a, b, c));
                h = g;
                g = f;
                f = e;
                e = d.wrapping_add(first);
                d = c;
                c = b;
                b = a;
                a = first.wrapping_add(second);
            }
            for (word, more) in words.iter_mut().zip([a, b, c, d, e, f, g, h]) {
                *word = word.wrapping_add(more);
            }
        }

        /// Ch: each bit from the second or the third word, as the first says. FIPS 180-4 writes it in four steps, this is the same
        /// in three.
        fn choice(x: $Word, y: $Word, z: $Word) -> $Word {
            z ^ (x & (y ^ z))
        }

        /// Maj: each bit as most of the three words have it, in four steps for five.
        fn majority(x: $Word, y: $Word, z: $Word) -> $Word {
            (x & y) | (z & (x | y))
        }

        fn big_0(x: $Word) -> $Word {
            x.rotate_right($a0) ^ x.rotate_right($b0) ^ x.rotate_right($c0)
        }

        fn big_1(x: $Word) -> $Word {
            x.rotate_right($a1) ^ x.rotate_right($b1) ^ x.rotate_right($c1)
        }

        fn small_0(x: $Word) -> $Word {
            x.rotate_right($d0) ^ x.rotate_right($e0) ^ (x >> $f0)
        }

        fn small_1(x: $Word) -> $Word {
            x.rotate_right($d1) ^ x.rotate_right($e1) ^ (x >> $f1)
        }
    };
}

pub(crate) use sha2;

/// What the tests of both start from.
#[cfg(test)]
pub(crate) mod testing {
    pub fn hex(bytes: &[u8]) -> String {
        bytes.iter().map(|b| format!("{b:02x}")).collect()
    }

    /// Texts of these lengths have the same hash whole and in parts of these lengths.
    pub fn check_parts<const SIZE: usize>(hash: impl Fn(&[&[u8]]) -> [u8; SIZE], lengths: &[usize], steps: &[usize]) {
        let text: Vec<u8> = (0..1000u32).map(|i| (i * 7 % 251) as u8).collect();
        for &length in lengths {
            let whole = hash(&[&text[..length]]);
            for &step in steps {
                let parts: Vec<&[u8]> = text[..length].chunks(step).collect();
                assert_eq!(hash(&parts), whole, "length {length}, step {step}");
            }
        }
    }
}
