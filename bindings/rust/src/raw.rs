//! The functions of include/saxweylur.h, as C has them.

#[repr(C)]
pub struct Reply {
    pub number: u64,
    pub place: u64,
    pub value: u64,
}

#[repr(C)]
pub struct LaneReply {
    pub number: u64,
    pub place: u64,
    pub value: f64,
}

extern "C" {
    pub fn sax_choose(p: u64, k: u64, n: u64) -> Reply;
    pub fn sax_pack(p: u64, k: u64, t: u64, n: u64, coefficients: *const u16, len: usize) -> Reply;
    pub fn sax_unpack(
        p: u64,
        k: u64,
        t: u64,
        n: u64,
        word: u64,
        out: *mut u64,
        out_len: usize,
    ) -> Reply;
    pub fn sax_reduce(p: u64, k: u64, t: u64, n: u64, word: u64) -> Reply;
    pub fn sax_build_table(p: u64, k: u64, t: u64, n: u64, out: *mut u8, out_len: usize) -> Reply;
    pub fn sax_reduce_by_table(
        p: u64,
        k: u64,
        t: u64,
        n: u64,
        table: *const u8,
        table_len: usize,
        words: *const u64,
        words_len: usize,
        out: *mut u64,
        out_len: usize,
    ) -> Reply;
    pub fn sax_product(
        p: u64,
        k: u64,
        t: u64,
        n: u64,
        a: *const u16,
        a_len: usize,
        b: *const u16,
        b_len: usize,
        out: *mut u16,
        out_len: usize,
    ) -> Reply;
    pub fn sax_sum(
        p: u64,
        k: u64,
        t: u64,
        n: u64,
        xs: *const u16,
        xs_len: usize,
        ys: *const u16,
        ys_len: usize,
        size: usize,
        out: *mut u16,
        out_len: usize,
    ) -> Reply;
    pub fn sax_lane_sum(
        p: u64,
        k: u64,
        t: u64,
        n: u64,
        xs: *const u16,
        xs_len: usize,
        ys: *const u16,
        ys_len: usize,
    ) -> LaneReply;
    pub fn sax_lane_reduce(p: u64, k: u64, t: u64, n: u64, word: f64) -> LaneReply;
}
