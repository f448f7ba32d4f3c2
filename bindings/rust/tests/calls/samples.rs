//! The settings, lists and words of the tests, the same in every run.

use crate::school;
use saxweylur::Setting;

pub fn setting(p: u64, k: u64, t: u64, n: u64) -> Setting {
    Setting { p, k, t, n }
}

/// Accepted settings: many p and n, each k, the smallest and the largest t.
pub fn settings() -> Vec<Setting> {
    let mut all = Vec::new();
    for p in [2, 3, 6, 7, 16, 37, 127, 128, 929, 65521, 65536] {
        for k in 1..=8 {
            for n in [1, 2, 7, 31, 4096, 1048576] {
                if let Ok(t) = school::choose(p, k, n) {
                    all.push(setting(p, k, t, n));
                    all.push(setting(p, k, 63 / (2 * k - 1), n));
                }
            }
        }
    }
    all
}

/// Element i is c 75^i modulo 65,537, that modulo p.
pub fn list(p: u64, c: u64, len: usize) -> Vec<u16> {
    let powers = std::iter::successors(Some(c % 65537), |x| Some(x * 75 % 65537));
    powers.map(|x| (x % p) as u16).take(len).collect()
}

/// The largest coefficients.
pub fn top(s: Setting, len: usize) -> Vec<u16> {
    vec![(s.p - 1) as u16; len]
}

pub fn word(s: Setting, c: u64) -> u64 {
    let parts = list(65536, c, 4);
    let word = parts.iter().fold(0, |w, &x| (w << 16) + u64::from(x));
    word % school::limit(s)
}

/// A list with one element changed.
pub fn with<T: Clone>(list: &[T], index: usize, element: T) -> Vec<T> {
    let mut changed = list.to_vec();
    changed[index] = element;
    changed
}
