//! Saxweylur for Rust: arithmetic on polynomials with coefficients modulo p that are packed into
//! one 64-bit word, a coefficient to every t bits.
//!
//! Each function is a safe call of one function of `include/saxweylur.h`, where its promise stands
//! in full, and of the archive `libexports.a`. The archive's functions are proved; these calls of
//! them are tested and not proved.
//!
//! A refused call leaves `out` as it was. Any other writes the elements that are named, and leaves
//! those after them as they were. "Setting" in an order of refusals is 1 to 6.

mod raw;
mod refusal;

pub use crate::refusal::Refusal;

use crate::raw::{LaneReply, Reply};

/// The four numbers that most calls begin with. Any may be given; a call refuses those that make
/// no setting.
#[derive(Debug, Clone, Copy, PartialEq, Eq)]
pub struct Setting {
    /// The modulus.
    pub p: u64,
    /// Coefficients per packed polynomial.
    pub k: u64,
    /// Bits per place; q is 2^t.
    pub t: u64,
    /// Products added before a reduction.
    pub n: u64,
}

/// The smallest width t with which p, k, t, n is accepted. Refusals: 1, 2, 3, 7.
pub fn choose(p: u64, k: u64, n: u64) -> Result<u64, Refusal> {
    // SAFETY: the function takes any numbers and no pointer.
    answer(unsafe { raw::sax_choose(p, k, n) })
}

/// The word of exactly k coefficients, the sum of `coefficients[i]` q^i. Refusals: setting, 9, 8.
pub fn pack(s: Setting, coefficients: &[u16]) -> Result<u64, Refusal> {
    let (list, len) = (coefficients.as_ptr(), coefficients.len());
    // SAFETY: pointer and length are those of a slice, which is borrowed until the call returns,
    // and the function keeps no pointer.
    answer(unsafe { raw::sax_pack(s.p, s.k, s.t, s.n, list, len) })
}

/// Writes the 2k-1 fields of a word, the lowest first, and answers how many these are. Refusals:
/// setting, 11, 10.
pub fn unpack(s: Setting, word: u64, out: &mut [u64]) -> Result<usize, Refusal> {
    let (fields, len) = (out.as_mut_ptr(), out.len());
    // SAFETY: pointer and length are those of a slice that is borrowed for writing until the call
    // returns, and the function keeps no pointer.
    count(unsafe { raw::sax_unpack(s.p, s.k, s.t, s.n, word, fields, len) })
}

/// The word whose fields are the old ones modulo p. Refusals: setting, 11.
pub fn reduce(s: Setting, word: u64) -> Result<u64, Refusal> {
    // SAFETY: the function takes any numbers and no pointer.
    answer(unsafe { raw::sax_reduce(s.p, s.k, s.t, s.n, word) })
}

/// Writes the correction table of p and t and answers its size, 8 + p^2 bytes. Refusals: setting,
/// 14, 10.
pub fn build_table(s: Setting, out: &mut [u8]) -> Result<usize, Refusal> {
    let (table, len) = (out.as_mut_ptr(), out.len());
    // SAFETY: as in `unpack`.
    count(unsafe { raw::sax_build_table(s.p, s.k, s.t, s.n, table, len) })
}

/// Writes the reduced word of each word and answers how many these are. The table is compared in
/// whole on each call; bytes after it are not looked at. Refusals: setting, 14, 15, 10, 11.
pub fn reduce_by_table(
    s: Setting,
    table: &[u8],
    words: &[u64],
    out: &mut [u64],
) -> Result<usize, Refusal> {
    // SAFETY: each pointer and length are those of a slice that is borrowed until the call
    // returns. `out` is borrowed for writing, so it overlaps no input. The function keeps no
    // pointer.
    count(unsafe {
        raw::sax_reduce_by_table(
            s.p,
            s.k,
            s.t,
            s.n,
            table.as_ptr(),
            table.len(),
            words.as_ptr(),
            words.len(),
            out.as_mut_ptr(),
            out.len(),
        )
    })
}

/// Writes the product of two lists, coefficient j the sum of `a[i] b[j-i]` modulo p, and answers
/// its length: that of both less 1, or 0 where a list is empty. Refusals: setting, 9, 8, 10. It
/// takes some 130 KiB of stack.
pub fn product(s: Setting, a: &[u16], b: &[u16], out: &mut [u16]) -> Result<usize, Refusal> {
    // SAFETY: as in `reduce_by_table`; the inputs may overlap each other.
    count(unsafe {
        raw::sax_product(
            s.p,
            s.k,
            s.t,
            s.n,
            a.as_ptr(),
            a.len(),
            b.as_ptr(),
            b.len(),
            out.as_mut_ptr(),
            out.len(),
        )
    })
}

/// Writes the 2k-1 coefficients, modulo p, of the sum of the products of all pairs, k coefficients
/// of `xs` and k of `ys` to a pair, and answers the number of reductions, pairs / n rounded up. The
/// running record under it is fed `size` pairs at a time, or all at once where that is 0; nothing
/// else depends on `size`. Refusals: setting, 9, 13, 8, 10.
pub fn sum(
    s: Setting,
    xs: &[u16],
    ys: &[u16],
    size: usize,
    out: &mut [u16],
) -> Result<u64, Refusal> {
    // SAFETY: as in `reduce_by_table`; the inputs may overlap each other.
    answer(unsafe {
        raw::sax_sum(
            s.p,
            s.k,
            s.t,
            s.n,
            xs.as_ptr(),
            xs.len(),
            ys.as_ptr(),
            ys.len(),
            size,
            out.as_mut_ptr(),
            out.len(),
        )
    })
}

/// The sum of the products of at most n pairs in the double lane: the word, unreduced. Refusals:
/// setting, 16, 9, 13, 8.
pub fn lane_sum(s: Setting, xs: &[u16], ys: &[u16]) -> Result<f64, Refusal> {
    let (x, y) = (xs.as_ptr(), ys.as_ptr());
    // SAFETY: as in `pack`; the inputs may overlap each other.
    lane_answer(unsafe { raw::sax_lane_sum(s.p, s.k, s.t, s.n, x, xs.len(), y, ys.len()) })
}

/// What `reduce` gives for a word, in the double lane. Refusals: setting, 16, 11, the last for each
/// double that is no whole number from 0 to 2^((2k-1)t) - 1, and for -0.0.
pub fn lane_reduce(s: Setting, word: f64) -> Result<f64, Refusal> {
    // SAFETY: the function takes any numbers and no pointer.
    lane_answer(unsafe { raw::sax_lane_reduce(s.p, s.k, s.t, s.n, word) })
}

// The assertions are the archive's promise. They are for whoever links another one.
fn answer(r: Reply) -> Result<u64, Refusal> {
    debug_assert!(r.number != 0 || r.place == 0, "a place and no refusal");
    debug_assert!(r.number == 0 || r.value == 0, "a value beside a refusal");
    refused(r.number, r.place).map_or(Ok(r.value), Err)
}

fn lane_answer(r: LaneReply) -> Result<f64, Refusal> {
    debug_assert!(r.number != 0 || r.place == 0, "a place and no refusal");
    debug_assert!(
        r.number == 0 || r.value.to_bits() == 0,
        "a value beside a refusal"
    );
    refused(r.number, r.place).map_or(Ok(r.value), Err)
}

// A count is at most a slice's length, so nothing is cut off.
fn count(r: Reply) -> Result<usize, Refusal> {
    answer(r).map(|value| value as usize)
}

fn refused(number: u64, place: u64) -> Option<Refusal> {
    (number != 0).then_some(Refusal { number, place })
}
