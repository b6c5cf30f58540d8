//! `rustc_hash` 2: the standard map with the Fx hash, as that crate computes it on 64-bit machines.

use std::collections::HashMap;
use std::hash::{BuildHasher, Hasher};

pub type FxHashMap<K, V> = HashMap<K, V, FxBuildHasher>;

/// One hasher for each look into a map; with the feature `counted` the looks are counted.
#[derive(Default, Clone, Copy)]
pub struct FxBuildHasher;

impl BuildHasher for FxBuildHasher {
    type Hasher = FxHasher;
    #[inline]
    fn build_hasher(&self) -> FxHasher {
        #[cfg(feature = "counted")]
        crate::looks::count();
        FxHasher::default()
    }
}

#[derive(Default, Clone, Copy)]
pub struct FxHasher {
    hash: u64,
}

const K: u64 = 0xf135_7aea_2e62_a9c5;
const ROTATE: u32 = 26;
const SEED1: u64 = 0x243f_6a88_85a3_08d3;
const SEED2: u64 = 0x1319_8a2e_0370_7344;
const PREVENT_TRIVIAL_ZERO_COLLAPSE: u64 = 0xa409_3822_299f_31d0;

impl FxHasher {
    #[inline]
    fn add(&mut self, word: u64) {
        self.hash = self.hash.wrapping_add(word).wrapping_mul(K);
    }
}

impl Hasher for FxHasher {
    #[inline]
    fn write(&mut self, bytes: &[u8]) {
        self.add(hash_bytes(bytes));
    }

    #[inline]
    fn write_u8(&mut self, number: u8) {
        self.add(number as u64);
    }

    #[inline]
    fn write_u32(&mut self, number: u32) {
        self.add(number as u64);
    }

    #[inline]
    fn write_u64(&mut self, number: u64) {
        self.add(number);
    }

    #[inline]
    fn write_usize(&mut self, number: usize) {
        self.add(number as u64);
    }

    #[inline]
    fn finish(&self) -> u64 {
        self.hash.rotate_left(ROTATE)
    }
}

#[inline]
fn multiply_mix(x: u64, y: u64) -> u64 {
    let full = x as u128 * y as u128;
    full as u64 ^ (full >> 64) as u64
}

#[inline]
fn word(bytes: &[u8], at: usize) -> u64 {
    u64::from_le_bytes(bytes[at..at + 8].try_into().expect("eight bytes"))
}

#[inline]
fn half_word(bytes: &[u8], at: usize) -> u64 {
    u32::from_le_bytes(bytes[at..at + 4].try_into().expect("four bytes")) as u64
}

#[inline]
fn hash_bytes(bytes: &[u8]) -> u64 {
    let length = bytes.len();
    let (mut s0, mut s1) = (SEED1, SEED2);
    match length {
        0 => {}
        1..=3 => {
            s0 ^= bytes[0] as u64;
            s1 ^= (bytes[length - 1] as u64) << 8 | bytes[length / 2] as u64;
        }
        4..=7 => {
            s0 ^= half_word(bytes, 0);
            s1 ^= half_word(bytes, length - 4);
        }
        8..=16 => {
            s0 ^= word(bytes, 0);
            s1 ^= word(bytes, length - 8);
        }
        _ => {
            for at in (0..length - 16).step_by(16) {
                let mixed =
                    multiply_mix(s0 ^ word(bytes, at), PREVENT_TRIVIAL_ZERO_COLLAPSE ^ word(bytes, at + 8));
                s0 = s1;
                s1 = mixed;
            }
            s0 ^= word(bytes, length - 16);
            s1 ^= word(bytes, length - 8);
        }
    }
    multiply_mix(s0, s1) ^ length as u64
}
