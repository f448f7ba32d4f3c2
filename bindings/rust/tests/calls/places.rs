//! Pack, unpack and reduce.

use crate::samples::{list, setting, settings, top, with, word};
use crate::school::{limit, places};
use crate::tally::Tally;
use saxweylur::Setting;

pub fn run(t: &mut Tally) {
    let s = setting(3, 2, 4, 1);
    assert_eq!(t.pack(s, &[1, 2]), Ok(33));
    assert_eq!(t.pack(s, &[2, 2]), Ok(34));
    assert_eq!(t.unpack(s, 1122, 3), Ok(3));
    assert_eq!(t.reduce(s, 1122), Ok(258));
    for s in settings() {
        packs(t, s);
        words(t, s);
    }
}

fn packs(t: &mut Tally, s: Setting) {
    let k = s.k as usize;
    let xs = list(s.p, 12345, k + 1);
    for (len, number) in [(0, 9), (k - 1, 9), (k, 0), (k + 1, 9)] {
        let want = t.pack(s, &xs[..len]);
        t.meant(want, number, 0);
    }
    let _ = t.pack(s, &top(s, k));
    if s.p == 65536 {
        return;
    }
    for i in 0..k {
        let bad = with(&xs, i, s.p as u16);
        let want = t.pack(s, &bad[..k]);
        t.meant(want, 8, i);
        let want = t.pack(s, &bad);
        t.meant(want, 9, 0);
        let want = t.pack(s, &with(&bad, k - 1, 65535)[..k]);
        t.meant(want, 8, i);
    }
}

fn words(t: &mut Tally, s: Setting) {
    let (fields, limit) = (places(s), limit(s));
    for w in [0, 1, limit - 1, word(s, 1), word(s, 22), word(s, 333)] {
        for (len, number) in [(0, 10), (fields - 1, 10), (fields, 0), (fields + 7, 0)] {
            let want = t.unpack(s, w, len);
            t.meant(want, number, 0);
        }
        let _ = t.reduce(s, w);
    }
    for w in [limit, limit | 1, u64::MAX] {
        for len in [0, fields, 20] {
            let want = t.unpack(s, w, len);
            t.meant(want, 11, 0);
        }
        let want = t.reduce(s, w);
        t.meant(want, 11, 0);
    }
}
