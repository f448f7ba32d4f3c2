//! One call and its comparison, for each function, and the count of calls. The methods return what
//! the definitions say, for `meant`.

use crate::school::{self, Says};
use saxweylur::{Refusal, Setting};
use std::fmt::Debug;

/// Elements in front of and behind an output, which no call may touch.
const GUARD: usize = 16;
const PRINTED: u64 = 10;

pub struct Tally {
    right: u64,
    wrong: u64,
    last_right: bool,
    /// Bit i of a call: number i was met, bit 0 for no refusal.
    met: [u32; 10],
    ended: bool,
}

/// What each call can give, in the order of the methods below; 18 is given by none.
const SETTING: &[u64] = &[1, 2, 3, 4, 5, 6];
const CAN: [(&[u64], &[u64]); 10] = [
    (&[], &[0, 1, 2, 3, 7]),
    (SETTING, &[0, 9, 8]),
    (SETTING, &[0, 11, 10]),
    (SETTING, &[0, 11]),
    (SETTING, &[0, 14, 10]),
    (SETTING, &[0, 14, 15, 10, 11]),
    (SETTING, &[0, 9, 8, 10]),
    (SETTING, &[0, 9, 13, 8, 10]),
    (SETTING, &[0, 16, 9, 13, 8]),
    (SETTING, &[0, 16, 11]),
];

/// The beginning of a list, for a line.
fn brief<T: Debug>(xs: &[T]) -> String {
    format!("{:?} ({})", &xs[..xs.len().min(8)], xs.len())
}

/// Old contents of an output with its guards, no two neighbours alike.
fn old<T>(out_len: usize, element: impl Fn(usize) -> T) -> Vec<T> {
    (0..GUARD + out_len + GUARD).map(element).collect()
}

fn old16(i: usize) -> u16 {
    60000 + (i % 5000) as u16
}

fn old64(i: usize) -> u64 {
    u64::MAX - i as u64
}

/// The output between its guards.
fn inner<T>(buffer: &mut [T]) -> &mut [T] {
    let end = buffer.len() - GUARD;
    &mut buffer[GUARD..end]
}

impl Tally {
    pub fn new() -> Self {
        Tally {
            right: 0,
            wrong: 0,
            last_right: true,
            met: [0; 10],
            ended: false,
        }
    }

    fn count<T>(&mut self, call: usize, want: &Says<T>, right: bool, say: impl Fn() -> String) {
        let number = want.as_ref().err().map_or(0, |r| r.number);
        self.met[call] |= 1 << number;
        self.last_right = right;
        if right {
            self.right += 1;
            return;
        }
        self.wrong += 1;
        if self.wrong <= PRINTED {
            println!("wrong: {}", say());
        }
    }

    /// That the last call was the case it was meant to be; another case shows nothing.
    pub fn meant<T>(&mut self, want: Says<T>, number: u64, place: usize) {
        let place = place as u64;
        let refusal = want.err().unwrap_or(Refusal {
            number: 0,
            place: 0,
        });
        if refusal == (Refusal { number, place }) {
            return;
        }
        if self.last_right {
            self.right -= 1;
            self.wrong += 1;
            self.last_right = false;
        }
        if self.wrong <= PRINTED {
            println!("wrong: a case meant for {number}, place {place}, is {refusal}");
        }
    }

    /// The number of wrong calls.
    pub fn end(mut self) -> u64 {
        for (call, (first, rest)) in CAN.iter().enumerate() {
            let can = first.iter().chain(*rest).fold(0, |bits, i| bits | 1 << i);
            if self.met[call] != can {
                println!("wrong: call {call} was not met in each of its refusals");
                self.wrong += 1;
            }
        }
        self.ended = true;
        self.wrong
    }

    pub fn choose(&mut self, p: u64, k: u64, n: u64) -> Says<u64> {
        let want = school::choose(p, k, n);
        let got = saxweylur::choose(p, k, n);
        self.count(0, &want, got == want, || {
            format!("choose {p} {k} {n}: {got:?} for {want:?}")
        });
        want
    }

    pub fn pack(&mut self, s: Setting, xs: &[u16]) -> Says<u64> {
        let want = school::pack(s, xs);
        let got = saxweylur::pack(s, xs);
        self.count(1, &want, got == want, || {
            format!("pack {s:?} {}: {got:?} for {want:?}", brief(xs))
        });
        want
    }

    pub fn unpack(&mut self, s: Setting, word: u64, out_len: usize) -> Says<usize> {
        let mut left = old(out_len, old64);
        let mut after = left.clone();
        let want = school::unpack(s, word, inner(&mut left));
        let got = saxweylur::unpack(s, word, inner(&mut after));
        self.count(2, &want, got == want && after == left, || {
            format!("unpack {s:?} {word} into {out_len}: {got:?} for {want:?}")
        });
        want
    }

    pub fn reduce(&mut self, s: Setting, word: u64) -> Says<u64> {
        let want = school::reduce(s, word);
        let got = saxweylur::reduce(s, word);
        self.count(3, &want, got == want, || {
            format!("reduce {s:?} {word}: {got:?} for {want:?}")
        });
        want
    }

    pub fn build_table(&mut self, s: Setting, out_len: usize) -> Says<usize> {
        let mut left = old(out_len, |i| 200 + (i % 50) as u8);
        let mut after = left.clone();
        let want = school::build_table(s, inner(&mut left));
        let got = saxweylur::build_table(s, inner(&mut after));
        self.count(4, &want, got == want && after == left, || {
            format!("build_table {s:?} into {out_len}: {got:?} for {want:?}")
        });
        want
    }

    pub fn reduce_by_table(
        &mut self,
        s: Setting,
        table: &[u8],
        words: &[u64],
        out_len: usize,
    ) -> Says<usize> {
        let mut left = old(out_len, old64);
        let mut after = left.clone();
        let want = school::reduce_by_table(s, table, words, inner(&mut left));
        let got = saxweylur::reduce_by_table(s, table, words, inner(&mut after));
        self.count(5, &want, got == want && after == left, || {
            let (table, words) = (brief(table), brief(words));
            format!("reduce_by_table {s:?} {table} {words} into {out_len}: {got:?} for {want:?}")
        });
        want
    }

    pub fn product(&mut self, s: Setting, a: &[u16], b: &[u16], out_len: usize) -> Says<usize> {
        let mut left = old(out_len, old16);
        let mut after = left.clone();
        let want = school::product(s, a, b, inner(&mut left));
        let got = saxweylur::product(s, a, b, inner(&mut after));
        self.count(6, &want, got == want && after == left, || {
            let (a, b) = (brief(a), brief(b));
            format!("product {s:?} {a} {b} into {out_len}: {got:?} for {want:?}")
        });
        want
    }

    pub fn sum(
        &mut self,
        s: Setting,
        (xs, ys): (&[u16], &[u16]),
        size: usize,
        out_len: usize,
    ) -> Says<u64> {
        let mut left = old(out_len, old16);
        let mut after = left.clone();
        let want = school::sum(s, xs, ys, inner(&mut left));
        let got = saxweylur::sum(s, xs, ys, size, inner(&mut after));
        self.count(7, &want, got == want && after == left, || {
            let (xs, ys) = (brief(xs), brief(ys));
            format!("sum {s:?} {xs} {ys} by {size} into {out_len}: {got:?} for {want:?}")
        });
        want
    }

    pub fn lane_sum(&mut self, s: Setting, xs: &[u16], ys: &[u16]) -> Says<f64> {
        let want = school::lane_sum(s, xs, ys);
        let got = saxweylur::lane_sum(s, xs, ys);
        self.count(
            8,
            &want,
            got.map(f64::to_bits) == want.map(f64::to_bits),
            || {
                format!(
                    "lane_sum {s:?} {} {}: {got:?} for {want:?}",
                    brief(xs),
                    brief(ys)
                )
            },
        );
        want
    }

    pub fn lane_reduce(&mut self, s: Setting, word: f64) -> Says<f64> {
        let want = school::lane_reduce(s, word);
        let got = saxweylur::lane_reduce(s, word);
        self.count(
            9,
            &want,
            got.map(f64::to_bits) == want.map(f64::to_bits),
            || format!("lane_reduce {s:?} {word:?}: {got:?} for {want:?}"),
        );
        want
    }
}

/// The line is printed also where a call has panicked, which makes that call a wrong one.
impl Drop for Tally {
    fn drop(&mut self) {
        let wrong = self.wrong + u64::from(!self.ended);
        println!("rust: {} calls right, {} wrong", self.right, wrong);
    }
}
