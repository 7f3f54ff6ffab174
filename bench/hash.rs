// Times the proved SHA-512 and SHA-256 beside ordinary ones in Rust: 64 MiB in blocks of 65,536 bytes, each hashed after the bytes of
// the hash before it. bench/hash.sh builds and runs this.
use std::time::Instant;

extern "C" {
    // A slice is passed as its first byte's address and its length.
    fn thawrushes_sha512_after(
        before: *const u8,
        before_len: usize,
        message: *const u8,
        message_len: usize,
        out: *mut u8,
        out_len: usize,
    ) -> bool;
    fn thawrushes_sha256_of_parts(
        first: *const u8,
        first_len: usize,
        second: *const u8,
        second_len: usize,
        out: *mut u8,
        out_len: usize,
    ) -> bool;
}

// An ordinary hash of the standard's, fed in parts, and the proved one, both of two parts: the hash before and a block.
macro_rules! hash {
    (
        $name:ident, $text:literal, $proved:ident, $word:ty, $length:ty, $rounds:literal,
        $big0:tt, $big1:tt, $small0:tt, $small1:tt, $abc:literal, $initial:expr, $constants:expr
    ) => {
        mod $name {
            use super::*;

            const WORD: usize = std::mem::size_of::<$word>();
            const BLOCK: usize = 16 * WORD;
            const SIZE: usize = 8 * WORD;
            const ROUND_WORDS: [$word; $rounds] = $constants;

            fn big(x: $word, n: [u32; 3]) -> $word {
                x.rotate_right(n[0]) ^ x.rotate_right(n[1]) ^ x.rotate_right(n[2])
            }

            fn small(x: $word, n: [u32; 3]) -> $word {
                x.rotate_right(n[0]) ^ x.rotate_right(n[1]) ^ (x >> n[2])
            }

            fn compress(state: &mut [$word; 8], block: &[u8]) {
                let mut w = [0; $rounds];
                for (word, bytes) in w.iter_mut().zip(block.chunks_exact(WORD)) {
                    *word = <$word>::from_be_bytes(bytes.try_into().unwrap());
                }
                for t in 16..$rounds {
                    w[t] = small(w[t - 2], $small1)
                        .wrapping_add(w[t - 7])
                        .wrapping_add(small(w[t - 15], $small0))
                        .wrapping_add(w[t - 16]);
                }
                let [mut a, mut b, mut c, mut d, mut e, mut f, mut g, mut h] = *state;
                for t in 0..$rounds {
                    let ch = (e & f) ^ (!e & g);
                    let t1 = h
                        .wrapping_add(big(e, $big1))
                        .wrapping_add(ch)
                        .wrapping_add(ROUND_WORDS[t])
                        .wrapping_add(w[t]);
                    let maj = (a & b) ^ (a & c) ^ (b & c);
                    let t2 = big(a, $big0).wrapping_add(maj);
                    h = g;
                    g = f;
                    f = e;
                    e = d.wrapping_add(t1);
                    d = c;
                    c = b;
                    b = a;
                    a = t1.wrapping_add(t2);
                }
                for (word, more) in state.iter_mut().zip([a, b, c, d, e, f, g, h]) {
                    *word = word.wrapping_add(more);
                }
            }

            struct Hash {
                state: [$word; 8],
                held: [u8; BLOCK],
                held_len: usize,
                total: $length,
            }

            impl Hash {
                fn new() -> Self {
                    Hash {
                        state: $initial,
                        held: [0; BLOCK],
                        held_len: 0,
                        total: 0,
                    }
                }

                fn update(&mut self, mut data: &[u8]) {
                    self.total += data.len() as $length;
                    if self.held_len > 0 {
                        let n = data.len().min(BLOCK - self.held_len);
                        self.held[self.held_len..self.held_len + n].copy_from_slice(&data[..n]);
                        self.held_len += n;
                        data = &data[n..];
                        if self.held_len < BLOCK {
                            return;
                        }
                        compress(&mut self.state, &self.held);
                        self.held_len = 0;
                    }
                    let mut blocks = data.chunks_exact(BLOCK);
                    for block in &mut blocks {
                        compress(&mut self.state, block);
                    }
                    let rest = blocks.remainder();
                    self.held[..rest.len()].copy_from_slice(rest);
                    self.held_len = rest.len();
                }

                fn finish(mut self) -> [u8; SIZE] {
                    let bits = self.total * 8;
                    self.update(&[128]);
                    while self.held_len != BLOCK - 2 * WORD {
                        self.update(&[0]);
                    }
                    self.update(&bits.to_be_bytes());
                    let mut out = [0; SIZE];
                    for (bytes, word) in out.chunks_exact_mut(WORD).zip(self.state) {
                        bytes.copy_from_slice(&word.to_be_bytes());
                    }
                    out
                }
            }

            fn ordinary(before: &[u8; SIZE], message: &[u8]) -> [u8; SIZE] {
                let mut hash = Hash::new();
                hash.update(before);
                hash.update(message);
                hash.finish()
            }

            fn proved(before: &[u8; SIZE], message: &[u8]) -> [u8; SIZE] {
                let mut out = [0; SIZE];
                // The three lengths are those of the three parts of memory, and out overlaps neither of the others.
                let done = unsafe {
                    $proved(
                        before.as_ptr(),
                        before.len(),
                        message.as_ptr(),
                        message.len(),
                        out.as_mut_ptr(),
                        out.len(),
                    )
                };
                assert!(done);
                out
            }

            // The standard's example, the hash of "abc", shows that the ordinary hash is the standard's.
            fn check_ordinary() {
                let mut hash = Hash::new();
                hash.update(b"abc");
                let hex: String = hash.finish().iter().map(|b| format!("{b:02x}")).collect();
                assert_eq!(hex, $abc);
            }

            // Both hashes of every message shorter than five blocks.
            fn check_equal() {
                let data = noise(6 * BLOCK);
                let before: [u8; SIZE] = data[5 * BLOCK..5 * BLOCK + SIZE].try_into().unwrap();
                for n in 0..5 * BLOCK {
                    assert_eq!(
                        proved(&before, &data[..n]),
                        ordinary(&before, &data[..n]),
                        "{n} bytes"
                    );
                }
            }

            fn chain(hash: fn(&[u8; SIZE], &[u8]) -> [u8; SIZE], data: &[u8]) -> [u8; SIZE] {
                let mut last = [0; SIZE];
                for block in data.chunks(65536) {
                    last = hash(&last, block);
                }
                last
            }

            pub fn time(data: &[u8], repetitions: usize) {
                check_ordinary();
                check_equal();
                let mut times = [Vec::new(), Vec::new()];
                for _ in 0..repetitions {
                    let mut ends = Vec::new();
                    for (times, hash) in times
                        .iter_mut()
                        .zip([proved as fn(&[u8; SIZE], &[u8]) -> [u8; SIZE], ordinary])
                    {
                        let start = Instant::now();
                        ends.push(chain(hash, data));
                        times.push(start.elapsed().as_secs_f64());
                    }
                    assert_eq!(ends[0], ends[1]);
                }
                report($text, repetitions, times);
            }
        }
    };
}

hash!(
    sha512,
    "SHA-512",
    thawrushes_sha512_after,
    u64,
    u128,
    80,
    [28, 34, 39],
    [14, 18, 41],
    [1, 8, 7],
    [19, 61, 6],
    "ddaf35a193617abacc417349ae20413112e6fa4e89a97ea20a9eeee64b55d39a\
     2192992a274fc1a836ba3c23a3feebbd454d4423643ce80e2a9ac94fa54ca49f",
    [
        0x6a09_e667_f3bc_c908,
        0xbb67_ae85_84ca_a73b,
        0x3c6e_f372_fe94_f82b,
        0xa54f_f53a_5f1d_36f1,
        0x510e_527f_ade6_82d1,
        0x9b05_688c_2b3e_6c1f,
        0x1f83_d9ab_fb41_bd6b,
        0x5be0_cd19_137e_2179,
    ],
    [
        0x428a_2f98_d728_ae22,
        0x7137_4491_23ef_65cd,
        0xb5c0_fbcf_ec4d_3b2f,
        0xe9b5_dba5_8189_dbbc,
        0x3956_c25b_f348_b538,
        0x59f1_11f1_b605_d019,
        0x923f_82a4_af19_4f9b,
        0xab1c_5ed5_da6d_8118,
        0xd807_aa98_a303_0242,
        0x1283_5b01_4570_6fbe,
        0x2431_85be_4ee4_b28c,
        0x550c_7dc3_d5ff_b4e2,
        0x72be_5d74_f27b_896f,
        0x80de_b1fe_3b16_96b1,
        0x9bdc_06a7_25c7_1235,
        0xc19b_f174_cf69_2694,
        0xe49b_69c1_9ef1_4ad2,
        0xefbe_4786_384f_25e3,
        0x0fc1_9dc6_8b8c_d5b5,
        0x240c_a1cc_77ac_9c65,
        0x2de9_2c6f_592b_0275,
        0x4a74_84aa_6ea6_e483,
        0x5cb0_a9dc_bd41_fbd4,
        0x76f9_88da_8311_53b5,
        0x983e_5152_ee66_dfab,
        0xa831_c66d_2db4_3210,
        0xb003_27c8_98fb_213f,
        0xbf59_7fc7_beef_0ee4,
        0xc6e0_0bf3_3da8_8fc2,
        0xd5a7_9147_930a_a725,
        0x06ca_6351_e003_826f,
        0x1429_2967_0a0e_6e70,
        0x27b7_0a85_46d2_2ffc,
        0x2e1b_2138_5c26_c926,
        0x4d2c_6dfc_5ac4_2aed,
        0x5338_0d13_9d95_b3df,
        0x650a_7354_8baf_63de,
        0x766a_0abb_3c77_b2a8,
        0x81c2_c92e_47ed_aee6,
        0x9272_2c85_1482_353b,
        0xa2bf_e8a1_4cf1_0364,
        0xa81a_664b_bc42_3001,
        0xc24b_8b70_d0f8_9791,
        0xc76c_51a3_0654_be30,
        0xd192_e819_d6ef_5218,
        0xd699_0624_5565_a910,
        0xf40e_3585_5771_202a,
        0x106a_a070_32bb_d1b8,
        0x19a4_c116_b8d2_d0c8,
        0x1e37_6c08_5141_ab53,
        0x2748_774c_df8e_eb99,
        0x34b0_bcb5_e19b_48a8,
        0x391c_0cb3_c5c9_5a63,
        0x4ed8_aa4a_e341_8acb,
        0x5b9c_ca4f_7763_e373,
        0x682e_6ff3_d6b2_b8a3,
        0x748f_82ee_5def_b2fc,
        0x78a5_636f_4317_2f60,
        0x84c8_7814_a1f0_ab72,
        0x8cc7_0208_1a64_39ec,
        0x90be_fffa_2363_1e28,
        0xa450_6ceb_de82_bde9,
        0xbef9_a3f7_b2c6_7915,
        0xc671_78f2_e372_532b,
        0xca27_3ece_ea26_619c,
        0xd186_b8c7_21c0_c207,
        0xeada_7dd6_cde0_eb1e,
        0xf57d_4f7f_ee6e_d178,
        0x06f0_67aa_7217_6fba,
        0x0a63_7dc5_a2c8_98a6,
        0x113f_9804_bef9_0dae,
        0x1b71_0b35_131c_471b,
        0x28db_77f5_2304_7d84,
        0x32ca_ab7b_40c7_2493,
        0x3c9e_be0a_15c9_bebc,
        0x431d_67c4_9c10_0d4c,
        0x4cc5_d4be_cb3e_42b6,
        0x597f_299c_fc65_7e2a,
        0x5fcb_6fab_3ad6_faec,
        0x6c44_198c_4a47_5817,
    ]
);

hash!(
    sha256,
    "SHA-256",
    thawrushes_sha256_of_parts,
    u32,
    u64,
    64,
    [2, 13, 22],
    [6, 11, 25],
    [7, 18, 3],
    [17, 19, 10],
    "ba7816bf8f01cfea414140de5dae2223b00361a396177a9cb410ff61f20015ad",
    [
        0x6a09_e667,
        0xbb67_ae85,
        0x3c6e_f372,
        0xa54f_f53a,
        0x510e_527f,
        0x9b05_688c,
        0x1f83_d9ab,
        0x5be0_cd19,
    ],
    [
        0x428a_2f98,
        0x7137_4491,
        0xb5c0_fbcf,
        0xe9b5_dba5,
        0x3956_c25b,
        0x59f1_11f1,
        0x923f_82a4,
        0xab1c_5ed5,
        0xd807_aa98,
        0x1283_5b01,
        0x2431_85be,
        0x550c_7dc3,
        0x72be_5d74,
        0x80de_b1fe,
        0x9bdc_06a7,
        0xc19b_f174,
        0xe49b_69c1,
        0xefbe_4786,
        0x0fc1_9dc6,
        0x240c_a1cc,
        0x2de9_2c6f,
        0x4a74_84aa,
        0x5cb0_a9dc,
        0x76f9_88da,
        0x983e_5152,
        0xa831_c66d,
        0xb003_27c8,
        0xbf59_7fc7,
        0xc6e0_0bf3,
        0xd5a7_9147,
        0x06ca_6351,
        0x1429_2967,
        0x27b7_0a85,
        0x2e1b_2138,
        0x4d2c_6dfc,
        0x5338_0d13,
        0x650a_7354,
        0x766a_0abb,
        0x81c2_c92e,
        0x9272_2c85,
        0xa2bf_e8a1,
        0xa81a_664b,
        0xc24b_8b70,
        0xc76c_51a3,
        0xd192_e819,
        0xd699_0624,
        0xf40e_3585,
        0x106a_a070,
        0x19a4_c116,
        0x1e37_6c08,
        0x2748_774c,
        0x34b0_bcb5,
        0x391c_0cb3,
        0x4ed8_aa4a,
        0x5b9c_ca4f,
        0x682e_6ff3,
        0x748f_82ee,
        0x78a5_636f,
        0x84c8_7814,
        0x8cc7_0208,
        0x90be_fffa,
        0xa450_6ceb,
        0xbef9_a3f7,
        0xc671_78f2,
    ]
);

// Bytes that look like nothing: a linear congruential generator's high bytes.
fn noise(n: usize) -> Vec<u8> {
    let mut x = 1u64;
    (0..n)
        .map(|_| {
            x = x
                .wrapping_mul(6364136223846793005)
                .wrapping_add(1442695040888963407);
            (x >> 56) as u8
        })
        .collect()
}

fn report(name: &str, repetitions: usize, times: [Vec<f64>; 2]) {
    let medians = times.map(|mut times| {
        times.sort_by(f64::total_cmp);
        times[repetitions / 2]
    });
    println!("{name}, 64 MiB, {repetitions} repetitions each, by turns; median seconds:");
    println!("proved   {:.4}", medians[0]);
    println!("ordinary {:.4}", medians[1]);
    println!("ratio    {:.3}", medians[0] / medians[1]);
}

fn main() {
    let data = noise(64 << 20);
    sha512::time(&data, 15);
    sha256::time(&data, 15);
}
