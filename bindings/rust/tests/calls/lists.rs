//! Products and sums.

use crate::samples::{list, setting, settings, top, with};
use crate::school::places;
use crate::tally::Tally;
use saxweylur::Setting;

const SIZES: [usize; 5] = [0, 1, 2, 64, usize::MAX];

pub fn run(t: &mut Tally) {
    for s in settings() {
        products(t, s);
        bad_products(t, s);
        sums(t, s);
        bad_sums(t, s);
    }
    long_products(t, setting(2, 8, 4, 1));
    long_products(t, setting(929, 2, 21, 1));
    long_products(t, setting(65536, 1, 52, 1048576));
    full_sums(t, setting(929, 1, 63, 1048576), 0);
    full_sums(t, setting(3, 2, 5, 2), 1000);
    for size in SIZES {
        let three = (&[1, 2, 1, 2, 1, 2][..], &[2; 6][..]);
        assert_eq!(t.sum(setting(3, 2, 5, 2), three, size, 3), Ok(2));
    }
}

/// Into a buffer that is too short, just long enough, and longer.
fn product(t: &mut Tally, s: Setting, a: &[u16], b: &[u16]) {
    let empty = a.is_empty() || b.is_empty();
    let len = if empty { 0 } else { a.len() + b.len() - 1 };
    for (out_len, number) in [(len, 0), (len + 9, 0)] {
        let want = t.product(s, a, b, out_len);
        t.meant(want, number, 0);
    }
    if !empty {
        let want = t.product(s, a, b, len - 1);
        t.meant(want, 10, 0);
    }
}

fn products(t: &mut Tally, s: Setting) {
    let k = s.k as usize;
    let (a, b) = (list(s.p, 4321, 40), list(s.p, 987, 40));
    for (la, lb) in [
        (0, 0),
        (0, 3),
        (3, 0),
        (1, 1),
        (k, k),
        (k + 1, 2 * k),
        (33, 7),
        (5, 40),
    ] {
        product(t, s, &a[..la], &b[..lb]);
    }
    product(t, s, &a[..30], &a[1..]);
    product(t, s, &top(s, 40), &top(s, 40));
}

fn bad_products(t: &mut Tally, s: Setting) {
    let (a, b) = (list(s.p, 55, 4097), list(s.p, 66, 4097));
    for (a, b) in [
        (&a[..], &b[..9]),
        (&a[..9], &b),
        (&a, &b[..0]),
        (&a[..0], &b),
    ] {
        let want = t.product(s, a, b, 0);
        t.meant(want, 9, 0);
    }
    if s.p == 65536 {
        return;
    }
    for i in [0, 4, 8] {
        let (x, y) = (with(&a, i, s.p as u16), with(&b, i, 65535));
        let cases = [
            (&x[..9], &b[..9], 17, 8, i),
            (&a[..5], &y[..9], 13, 8, 5 + i),
            (&x[..9], &y[..9], 0, 8, i),
            (&a[..0], &y[..9], 0, 8, i),
            (&x[..9], &b[..0], 3, 8, i),
            (&x, &y[..9], 9000, 9, 0),
        ];
        for (a, b, out_len, number, place) in cases {
            let want = t.product(s, a, b, out_len);
            t.meant(want, number, place);
        }
    }
}

fn long_products(t: &mut Tally, s: Setting) {
    let (a, b) = (list(s.p, 11, 4096), list(s.p, 22, 4096));
    product(t, s, &a[..256], &b[..256]);
    product(t, s, &a[..257], &b[..255]);
    product(t, s, &a, &b[..1]);
    let want = t.product(s, &a, &b, 8191);
    t.meant(want, 0, 0);
    let want = t.product(s, &top(s, 4096), &top(s, 4096), 8200);
    t.meant(want, 0, 0);
}

fn sums(t: &mut Tally, s: Setting) {
    let (k, fields) = (s.k as usize, places(s));
    let (xs, ys) = (list(s.p, 314, 65 * k), list(s.p, 2718, 65 * k));
    for count in [0, 1, s.n - 1, s.n, s.n + 1, 2 * s.n, 65] {
        if count > 65 {
            continue;
        }
        let (x, y) = (&xs[..k * count as usize], &ys[..k * count as usize]);
        for size in SIZES {
            for (len, number) in [(fields - 1, 10), (fields, 0), (fields + 8, 0)] {
                let want = t.sum(s, (x, y), size, len);
                t.meant(want, number, 0);
            }
        }
    }
    let _ = t.sum(s, (&xs, &xs), 3, fields);
    let _ = t.sum(s, (&top(s, 65 * k), &top(s, 65 * k)), 4, fields);
}

fn bad_sums(t: &mut Tally, s: Setting) {
    let k = s.k as usize;
    let (xs, ys) = (list(s.p, 31, 7 * k), list(s.p, 27, 7 * k));
    let last = 7 * k - 1;
    for size in SIZES {
        let mut shapes = vec![
            (&xs[..], &ys[k..]),
            (&xs[k..], &ys[..]),
            (&xs[..0], &ys[..k]),
        ];
        if k > 1 {
            shapes.push((&xs[1..], &ys[1..]));
        }
        for lists in shapes {
            let want = t.sum(s, lists, size, 0);
            t.meant(want, 9, 0);
        }
        if s.p == 65536 {
            continue;
        }
        for i in [0, 3, last] {
            let (x, y) = (with(&xs, i, s.p as u16), with(&ys, i, 65535));
            for (x, y, place) in [(&x, &y, i), (&xs, &y, 7 * k + i), (&x, &ys, i)] {
                let want = t.sum(s, (x, y), size, 15);
                t.meant(want, 8, place);
                let want = t.sum(s, (x, y), size, 0);
                t.meant(want, 8, place);
                let want = t.sum(s, (x, &y[k..]), size, 15);
                t.meant(want, 9, 0);
            }
        }
    }
}

/// 1,000,000 pairs and one more, which is 13, after 9 and before 8 and 10.
fn full_sums(t: &mut Tally, s: Setting, size: usize) {
    let k = s.k as usize;
    let (xs, ys) = (list(s.p, 5, k * 1_000_001), list(s.p, 6, k * 1_000_001));
    let bad = with(&xs, 4, 65535);
    let cases = [
        (&xs[k..], &ys[k..], 15, 0, 0),
        (&xs, &ys, 15, 13, 0),
        (&xs, &ys, 0, 13, 0),
        (&bad, &ys, 15, 13, 0),
        (&xs, &ys[k..], 15, 9, 0),
        (&ys[k..], &bad[..k * 1_000_000], 0, 8, k * 1_000_000 + 4),
    ];
    for (x, y, out_len, number, place) in cases {
        let want = t.sum(s, (x, y), size, out_len);
        t.meant(want, number, place);
    }
}
