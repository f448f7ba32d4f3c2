//! Tables, and reduction by them.

use crate::samples::{setting, settings, with, word};
use crate::school::{limit, table};
use crate::tally::Tally;
use saxweylur::Setting;

pub fn run(t: &mut Tally) {
    let printed = [0, 0, 0, 13, 1, 0, 3, 4, 0, 1, 2, 2, 0, 1, 1, 2, 0];
    let want = t.reduce_by_table(setting(3, 2, 4, 1), &printed, &[1122], 1);
    t.meant(want, 0, 0);
    let every_p = (2..=128).map(|p| setting(p, 1, 14 + p % 50, 1));
    for s in settings().into_iter().chain(every_p) {
        if s.p > 127 {
            without(t, s);
        } else {
            builds(t, s);
            reduces(t, s);
        }
    }
}

fn without(t: &mut Tally, s: Setting) {
    for len in [0, 20000] {
        let want = t.build_table(s, len);
        t.meant(want, 14, 0);
        let want = t.reduce_by_table(s, &table(127, s.t)[..len.min(16137)], &[0, 1], 1);
        t.meant(want, 14, 0);
    }
}

fn builds(t: &mut Tally, s: Setting) {
    let size = (8 + s.p * s.p) as usize;
    for (len, number) in [(0, 10), (size - 1, 10), (size, 0), (size + 99, 0)] {
        let want = t.build_table(s, len);
        t.meant(want, number, 0);
    }
}

fn reduces(t: &mut Tally, s: Setting) {
    let fits = table(s.p, s.t);
    let words: Vec<u64> = (0..9).map(|c| word(s, 77 * c + s.t)).collect();
    let longer = [&fits[..], &[251; 9]].concat();
    for (given, words, len, number) in [
        (&fits, &words[..], 9, 0),
        (&longer, &words[..], 12, 0),
        (&fits, &words[..0], 0, 0),
        (&fits, &words[..0], 4, 0),
        (&fits, &words[..], 8, 10),
        (&fits, &words[..], 0, 10),
    ] {
        let want = t.reduce_by_table(s, given, words, len);
        t.meant(want, number, 0);
    }
    bad_words(t, s, &fits, &words);
    stale(t, s, &fits, &words);
}

fn bad_words(t: &mut Tally, s: Setting, fits: &[u8], words: &[u64]) {
    for i in [0, 4, 8] {
        let bad = with(&with(words, 8, u64::MAX), i, limit(s));
        let want = t.reduce_by_table(s, fits, &bad, 11);
        t.meant(want, 11, i);
        let want = t.reduce_by_table(s, fits, &bad, 8);
        t.meant(want, 10, 0);
    }
}

fn stale(t: &mut Tally, s: Setting, fits: &[u8], words: &[u64]) {
    let last = fits.len() - 1;
    for at in (0..12).chain([last / 2, last]) {
        let at = at.min(last);
        let changed = with(fits, at, fits[at] ^ 1);
        for (words, len) in [(words, 9), (words, 0), (&words[..0], 0)] {
            let want = t.reduce_by_table(s, &changed, words, len);
            t.meant(want, 15, at);
            let want = t.reduce_by_table(s, &fits[..at], words, len);
            t.meant(want, 15, at);
        }
    }
    let other = table(s.p, if s.t == 63 { 1 } else { s.t + 1 });
    let want = t.reduce_by_table(s, &other, words, 9);
    t.meant(want, 15, 7);
}
