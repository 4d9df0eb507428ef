//! SHA-256 (FIPS 180-4), by which `build.rs` knows the files of the original: no crate is at hand.

/// The first 64 primes' cube roots: 32 bits of each one's fraction.
const ROUND: [u32; 64] = [
    0x428a2f98, 0x71374491, 0xb5c0fbcf, 0xe9b5dba5, 0x3956c25b, 0x59f111f1, 0x923f82a4, 0xab1c5ed5,
    0xd807aa98, 0x12835b01, 0x243185be, 0x550c7dc3, 0x72be5d74, 0x80deb1fe, 0x9bdc06a7, 0xc19bf174,
    0xe49b69c1, 0xefbe4786, 0x0fc19dc6, 0x240ca1cc, 0x2de92c6f, 0x4a7484aa, 0x5cb0a9dc, 0x76f988da,
    0x983e5152, 0xa831c66d, 0xb00327c8, 0xbf597fc7, 0xc6e00bf3, 0xd5a79147, 0x06ca6351, 0x14292967,
    0x27b70a85, 0x2e1b2138, 0x4d2c6dfc, 0x53380d13, 0x650a7354, 0x766a0abb, 0x81c2c92e, 0x92722c85,
    0xa2bfe8a1, 0xa81a664b, 0xc24b8b70, 0xc76c51a3, 0xd192e819, 0xd6990624, 0xf40e3585, 0x106aa070,
    0x19a4c116, 0x1e376c08, 0x2748774c, 0x34b0bcb5, 0x391c0cb3, 0x4ed8aa4a, 0x5b9cca4f, 0x682e6ff3,
    0x748f82ee, 0x78a5636f, 0x84c87814, 0x8cc70208, 0x90befffa, 0xa4506ceb, 0xbef9a3f7, 0xc67178f2,
];

const START: [u32; 8] = [
    0x6a09e667, 0xbb67ae85, 0x3c6ef372, 0xa54ff53a, 0x510e527f, 0x9b05688c, 0x1f83d9ab, 0x5be0cd19,
];

/// The sum in 64 hexadecimal digits, as `sha256sum` prints it.
pub fn sum(bytes: &[u8]) -> String {
    let mut padded = bytes.to_vec();
    padded.push(0x80);
    padded.resize(padded.len().next_multiple_of(64), 0);
    if padded.len() < bytes.len() + 9 {
        padded.resize(padded.len() + 64, 0);
    }
    let end = padded.len() - 8;
    padded[end..].copy_from_slice(&(bytes.len() as u64 * 8).to_be_bytes());
    let sum = padded.chunks(64).fold(START, block);
    sum.iter().map(|word| format!("{word:08x}")).collect()
}

fn block(sum: [u32; 8], bytes: &[u8]) -> [u32; 8] {
    let mut w = [0; 64];
    for (word, four) in w.iter_mut().zip(bytes.chunks(4)) {
        *word = u32::from_be_bytes(four.try_into().unwrap());
    }
    for i in 16..64 {
        let (a, b): (u32, u32) = (w[i - 15], w[i - 2]);
        let near = a.rotate_right(7) ^ a.rotate_right(18) ^ (a >> 3);
        let far = b.rotate_right(17) ^ b.rotate_right(19) ^ (b >> 10);
        w[i] = near.wrapping_add(far).wrapping_add(w[i - 16]).wrapping_add(w[i - 7]);
    }
    let mut s = sum;
    for i in 0..64 {
        let [a, b, c, _, e, f, g, h] = s;
        let choice = (e & f) ^ (!e & g);
        let most = (a & b) ^ (a & c) ^ (b & c);
        let one = (e.rotate_right(6) ^ e.rotate_right(11) ^ e.rotate_right(25))
            .wrapping_add(h)
            .wrapping_add(choice)
            .wrapping_add(ROUND[i])
            .wrapping_add(w[i]);
        let two = (a.rotate_right(2) ^ a.rotate_right(13) ^ a.rotate_right(22)).wrapping_add(most);
        s.rotate_right(1);
        s[0] = one.wrapping_add(two);
        s[4] = s[4].wrapping_add(one);
    }
    std::array::from_fn(|i| sum[i].wrapping_add(s[i]))
}
