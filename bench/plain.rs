// SHA-256 in plain Rust, straight from FIPS 180-4, to compare with.
#![crate_type = "staticlib"]

static K: [u32; 64] = [
    0x428a2f98, 0x71374491, 0xb5c0fbcf, 0xe9b5dba5, 0x3956c25b, 0x59f111f1, 0x923f82a4, 0xab1c5ed5,
    0xd807aa98, 0x12835b01, 0x243185be, 0x550c7dc3, 0x72be5d74, 0x80deb1fe, 0x9bdc06a7, 0xc19bf174,
    0xe49b69c1, 0xefbe4786, 0x0fc19dc6, 0x240ca1cc, 0x2de92c6f, 0x4a7484aa, 0x5cb0a9dc, 0x76f988da,
    0x983e5152, 0xa831c66d, 0xb00327c8, 0xbf597fc7, 0xc6e00bf3, 0xd5a79147, 0x06ca6351, 0x14292967,
    0x27b70a85, 0x2e1b2138, 0x4d2c6dfc, 0x53380d13, 0x650a7354, 0x766a0abb, 0x81c2c92e, 0x92722c85,
    0xa2bfe8a1, 0xa81a664b, 0xc24b8b70, 0xc76c51a3, 0xd192e819, 0xd6990624, 0xf40e3585, 0x106aa070,
    0x19a4c116, 0x1e376c08, 0x2748774c, 0x34b0bcb5, 0x391c0cb3, 0x4ed8aa4a, 0x5b9cca4f, 0x682e6ff3,
    0x748f82ee, 0x78a5636f, 0x84c87814, 0x8cc70208, 0x90befffa, 0xa4506ceb, 0xbef9a3f7, 0xc67178f2,
];

fn compress(v: &mut [u32; 8], p: &[u8]) {
    let mut w = [0u32; 64];
    for t in 0..16 {
        w[t] = u32::from_be_bytes([p[4 * t], p[4 * t + 1], p[4 * t + 2], p[4 * t + 3]]);
    }
    for t in 16..64 {
        let (x, y) = (w[t - 15], w[t - 2]);
        w[t] = (y.rotate_right(17) ^ y.rotate_right(19) ^ (y >> 10))
            .wrapping_add(w[t - 7])
            .wrapping_add(x.rotate_right(7) ^ x.rotate_right(18) ^ (x >> 3))
            .wrapping_add(w[t - 16]);
    }
    let [mut a, mut b, mut c, mut d, mut e, mut f, mut g, mut h] = *v;
    for t in 0..64 {
        let t1 = h
            .wrapping_add(e.rotate_right(6) ^ e.rotate_right(11) ^ e.rotate_right(25))
            .wrapping_add((e & f) ^ (!e & g))
            .wrapping_add(K[t])
            .wrapping_add(w[t]);
        let t2 = (a.rotate_right(2) ^ a.rotate_right(13) ^ a.rotate_right(22)).wrapping_add((a & b) ^ (a & c) ^ (b & c));
        h = g; g = f; f = e; e = d.wrapping_add(t1); d = c; c = b; b = a; a = t1.wrapping_add(t2);
    }
    let x = [a, b, c, d, e, f, g, h];
    for i in 0..8 {
        v[i] = v[i].wrapping_add(x[i]);
    }
}

#[no_mangle]
pub unsafe extern "C" fn plain_rust(m: *const u8, n: usize, out: *mut u8) {
    let m = std::slice::from_raw_parts(m, n);
    let out = std::slice::from_raw_parts_mut(out, 32);
    let mut v = [0x6a09e667u32, 0xbb67ae85, 0x3c6ef372, 0xa54ff53a, 0x510e527f, 0x9b05688c, 0x1f83d9ab, 0x5be0cd19];
    let mut i = 0;
    while i + 64 <= n {
        compress(&mut v, &m[i..i + 64]);
        i += 64;
    }
    let mut t = [0u8; 128];
    let r = n - i;
    t[..r].copy_from_slice(&m[i..]);
    t[r] = 0x80;
    let end = if r < 56 { 64 } else { 128 };
    t[end - 8..end].copy_from_slice(&((n as u64) * 8).to_be_bytes());
    compress(&mut v, &t[..64]);
    if end == 128 {
        compress(&mut v, &t[64..]);
    }
    for j in 0..8 {
        out[4 * j..4 * j + 4].copy_from_slice(&v[j].to_be_bytes());
    }
}
