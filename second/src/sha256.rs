//! SHA-256 in the order of FIPS 180-4.

pub type Digest = [u8; 32];

/// Section 4.2.2: the sixty-four round constants.
const K: [u32; 64] = [
    0x428a2f98, 0x71374491, 0xb5c0fbcf, 0xe9b5dba5, 0x3956c25b, 0x59f111f1, 0x923f82a4, 0xab1c5ed5,
    0xd807aa98, 0x12835b01, 0x243185be, 0x550c7dc3, 0x72be5d74, 0x80deb1fe, 0x9bdc06a7, 0xc19bf174,
    0xe49b69c1, 0xefbe4786, 0x0fc19dc6, 0x240ca1cc, 0x2de92c6f, 0x4a7484aa, 0x5cb0a9dc, 0x76f988da,
    0x983e5152, 0xa831c66d, 0xb00327c8, 0xbf597fc7, 0xc6e00bf3, 0xd5a79147, 0x06ca6351, 0x14292967,
    0x27b70a85, 0x2e1b2138, 0x4d2c6dfc, 0x53380d13, 0x650a7354, 0x766a0abb, 0x81c2c92e, 0x92722c85,
    0xa2bfe8a1, 0xa81a664b, 0xc24b8b70, 0xc76c51a3, 0xd192e819, 0xd6990624, 0xf40e3585, 0x106aa070,
    0x19a4c116, 0x1e376c08, 0x2748774c, 0x34b0bcb5, 0x391c0cb3, 0x4ed8aa4a, 0x5b9cca4f, 0x682e6ff3,
    0x748f82ee, 0x78a5636f, 0x84c87814, 0x8cc70208, 0x90befffa, 0xa4506ceb, 0xbef9a3f7, 0xc67178f2,
];

/// Section 5.3.3: the initial hash value.
const INITIAL: [u32; 8] = [
    0x6a09e667, 0xbb67ae85, 0x3c6ef372, 0xa54ff53a, 0x510e527f, 0x9b05688c, 0x1f83d9ab, 0x5be0cd19,
];

/// Section 4.1.2: the six functions.
fn ch(x: u32, y: u32, z: u32) -> u32 {
    (x & y) ^ (!x & z)
}

fn maj(x: u32, y: u32, z: u32) -> u32 {
    (x & y) ^ (x & z) ^ (y & z)
}

fn big_sigma_0(x: u32) -> u32 {
    x.rotate_right(2) ^ x.rotate_right(13) ^ x.rotate_right(22)
}

fn big_sigma_1(x: u32) -> u32 {
    x.rotate_right(6) ^ x.rotate_right(11) ^ x.rotate_right(25)
}

fn small_sigma_0(x: u32) -> u32 {
    x.rotate_right(7) ^ x.rotate_right(18) ^ (x >> 3)
}

fn small_sigma_1(x: u32) -> u32 {
    x.rotate_right(17) ^ x.rotate_right(19) ^ (x >> 10)
}

/// Section 5.1.1: a one bit, zero bits, and the length in bits as 64 bits.
fn padded(message: &[u8]) -> Vec<u8> {
    let mut out = Vec::with_capacity(message.len() + 72);
    out.extend_from_slice(message);
    out.push(0x80);
    while out.len() % 64 != 56 {
        out.push(0);
    }
    out.extend_from_slice(&(8 * message.len() as u64).to_be_bytes());
    out
}

/// Section 6.2.2, step 1: the message schedule.
fn schedule(block: &[u8]) -> [u32; 64] {
    let mut w = [0u32; 64];
    for (t, word) in block.chunks(4).enumerate() {
        w[t] = u32::from_be_bytes([word[0], word[1], word[2], word[3]]);
    }
    for t in 16..64 {
        w[t] = small_sigma_1(w[t - 2])
            .wrapping_add(w[t - 7])
            .wrapping_add(small_sigma_0(w[t - 15]))
            .wrapping_add(w[t - 16]);
    }
    w
}

/// Section 6.2.2, steps 2 to 4: one block into the hash value.
fn compress(hash: [u32; 8], block: &[u8]) -> [u32; 8] {
    let w = schedule(block);
    let [mut a, mut b, mut c, mut d, mut e, mut f, mut g, mut h] = hash;
    for t in 0..64 {
        let t1 = h
            .wrapping_add(big_sigma_1(e))
            .wrapping_add(ch(e, f, g))
            .wrapping_add(K[t])
            .wrapping_add(w[t]);
        let t2 = big_sigma_0(a).wrapping_add(maj(a, b, c));
        h = g;
        g = f;
        f = e;
        e = d.wrapping_add(t1);
        d = c;
        c = b;
        b = a;
        a = t1.wrapping_add(t2);
    }
    let worked = [a, b, c, d, e, f, g, h];
    std::array::from_fn(|i| hash[i].wrapping_add(worked[i]))
}

/// The digest of a message of any length.
pub fn digest(message: &[u8]) -> Digest {
    let hash = padded(message).chunks(64).fold(INITIAL, compress);
    let mut out = [0; 32];
    for (i, word) in hash.iter().enumerate() {
        out[4 * i..4 * i + 4].copy_from_slice(&word.to_be_bytes());
    }
    out
}

#[cfg(test)]
mod tests {
    use super::*;

    fn primes() -> impl Iterator<Item = u128> {
        (2u128..).filter(|n| (2..*n).all(|d| n % d != 0))
    }

    /// The greatest r with r to the power `e` at most `n`.
    fn root(n: u128, e: u32) -> u128 {
        let (mut low, mut high) = (0u128, 1u128 << 41);
        while high - low > 1 {
            let middle = (low + high) / 2;
            match middle.pow(e) <= n {
                true => low = middle,
                false => high = middle,
            }
        }
        low
    }

    #[test]
    fn constants_are_the_fractions_of_cube_roots() {
        for (k, prime) in K.iter().zip(primes()) {
            assert_eq!(*k, root(prime << 96, 3) as u32);
        }
    }

    #[test]
    fn initial_values_are_the_fractions_of_square_roots() {
        for (h, prime) in INITIAL.iter().zip(primes()) {
            assert_eq!(*h, root(prime << 64, 2) as u32);
        }
    }
}
