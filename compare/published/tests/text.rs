//! The files of `text/` are the published ones: each has the SHA-256 that `SHA256SUMS` names. Of what is compiled one line
//! tests a number for zero.

use std::{fs, path::Path};

#[test]
fn the_text_is_unchanged() {
    assert_eq!(
        sha256(b"abc"),
        "ba7816bf8f01cfea414140de5dae2223b00361a396177a9cb410ff61f20015ad"
    );

    let root = Path::new(env!("CARGO_MANIFEST_DIR"));
    let sums = fs::read_to_string(root.join("SHA256SUMS")).unwrap();
    let mut files = 0;
    for line in sums.lines() {
        let (sum, path) = line.split_once("  ").unwrap();
        assert_eq!(sha256(&fs::read(root.join(path)).unwrap()), sum, "{path}");
        files += 1;
    }
    assert_eq!(files, 9);
}

/// The line limit is a number type's zero test: of what is compiled only the test of a bulge may ask it.
#[test]
fn only_bulges_are_tested_for_zero() {
    let root = Path::new(env!("CARGO_MANIFEST_DIR"));
    let mut asked = Vec::new();
    for path in [
        "text/core/math/vector2.rs",
        "text/polyline/pline_seg.rs",
        "text/polyline/pline_vertex.rs",
        "text/polyline/pline_view.rs",
        "src/core/math/base_math.rs",
        "src/polyline/source.rs",
    ] {
        let text = fs::read_to_string(root.join(path)).unwrap();
        let mut function = String::new();
        for line in text.lines().map(str::trim) {
            if let Some((_, rest)) = line.split_once("fn ") {
                function = rest.split(['(', '<']).next().unwrap().to_string();
            }
            if !line.starts_with("//") && line.contains("fuzzy_eq_zero") {
                asked.push((path, function.clone(), line.to_string()));
            }
        }
    }
    let bulge_is_zero = (
        "text/polyline/pline_vertex.rs",
        "bulge_is_zero".to_string(),
        "self.bulge.fuzzy_eq_zero()".to_string(),
    );
    assert_eq!(asked, [bulge_is_zero]);
}

/// SHA-256 as FIPS 180-4 has it, in hex.
fn sha256(message: &[u8]) -> String {
    let primes: Vec<u64> = (2..312).filter(|n| (2..*n).all(|d| n % d != 0)).collect();
    let k: Vec<u32> = primes.iter().map(|p| fraction_bits(*p, 3)).collect();
    let mut state: Vec<u32> = primes[..8].iter().map(|p| fraction_bits(*p, 2)).collect();

    let mut padded = message.to_vec();
    padded.push(0x80);
    while padded.len() % 64 != 56 {
        padded.push(0);
    }
    padded.extend((message.len() as u64 * 8).to_be_bytes());

    for block in padded.chunks(64) {
        let mut w: Vec<u32> = block
            .chunks(4)
            .map(|b| u32::from_be_bytes(b.try_into().unwrap()))
            .collect();
        for i in 16..64 {
            let (a, b) = (w[i - 15], w[i - 2]);
            let s0 = a.rotate_right(7) ^ a.rotate_right(18) ^ (a >> 3);
            let s1 = b.rotate_right(17) ^ b.rotate_right(19) ^ (b >> 10);
            w.push(
                w[i - 16]
                    .wrapping_add(s0)
                    .wrapping_add(w[i - 7])
                    .wrapping_add(s1),
            );
        }
        let mut s = state.clone();
        for i in 0..64 {
            let s1 = s[4].rotate_right(6) ^ s[4].rotate_right(11) ^ s[4].rotate_right(25);
            let choice = (s[4] & s[5]) ^ (!s[4] & s[6]);
            let t1 = [s1, choice, k[i], w[i]]
                .iter()
                .fold(s[7], |t, x| t.wrapping_add(*x));
            let s0 = s[0].rotate_right(2) ^ s[0].rotate_right(13) ^ s[0].rotate_right(22);
            let majority = (s[0] & s[1]) ^ (s[0] & s[2]) ^ (s[1] & s[2]);
            s.rotate_right(1);
            s[4] = s[4].wrapping_add(t1);
            s[0] = t1.wrapping_add(s0).wrapping_add(majority);
        }
        for (total, word) in state.iter_mut().zip(s) {
            *total = total.wrapping_add(word);
        }
    }
    state.iter().map(|word| format!("{word:08x}")).collect()
}

/// The first 32 bits of the fraction of a number's square (2) or cube (3) root.
fn fraction_bits(number: u64, root: u32) -> u32 {
    // The greatest whole r with r^root <= number * 2^(32 * root).
    let target = u128::from(number) << (32 * root);
    let mut r: u128 = 0;
    for bit in (0..40).rev() {
        let next = r | (1 << bit);
        if next.checked_pow(root).is_some_and(|power| power <= target) {
            r = next;
        }
    }
    r as u32
}
