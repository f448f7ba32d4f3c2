//! The double lane.

use crate::samples::{list, setting, settings, top, with, word};
use crate::school::{self, limit};
use crate::tally::Tally;
use saxweylur::Setting;

pub fn run(t: &mut Tally) {
    widths(t);
    for s in settings() {
        let s = Setting {
            t: s.t.min(52 / (2 * s.k - 1)),
            ..s
        };
        if school::setting(s).is_ok() {
            sums(t, s);
            reductions(t, s);
        }
    }
    for word in 0..500 {
        let _ = t.lane_reduce(setting(49, 1, 52, 1), f64::from(word));
    }
}

/// Either side of 16, before all that follows it; k = 7 and 8 have settings on one side only.
fn widths(t: &mut Tally) {
    for k in 1..=8 {
        let width = 52 / (2 * k - 1);
        for (s, number) in [
            (setting(2, k, width, 1), 0),
            (setting(2, k, width + 1, 1), 16),
        ] {
            if school::setting(s).is_err() {
                continue;
            }
            let zeros = &[0; 8][..k as usize];
            let want = t.lane_sum(s, zeros, zeros);
            t.meant(want, number, 0);
            let want = t.lane_reduce(s, 1.0);
            t.meant(want, number, 0);
            if number == 16 {
                let want = t.lane_sum(s, &[65535; 3], &[65535; 2]);
                t.meant(want, 16, 0);
                let want = t.lane_reduce(s, -1.0);
                t.meant(want, 16, 0);
            }
        }
    }
}

fn sums(t: &mut Tally, s: Setting) {
    let (k, most) = (s.k as usize, s.n.min(100) as usize);
    let (xs, ys) = (list(s.p, 8, k * (most + 1)), list(s.p, 9, k * (most + 1)));
    for count in [0, 1, most] {
        let end = k * count;
        let _ = t.lane_sum(s, &xs[..end], &ys[..end]);
        let _ = t.lane_sum(s, &xs[..end], &xs[..end]);
        let _ = t.lane_sum(s, &top(s, end), &top(s, end));
    }
    let mut shapes = vec![(&xs[..], &ys[k..]), (&xs[..0], &ys[..k])];
    if k > 1 {
        shapes.push((&xs[1..], &ys[1..]));
    }
    for (x, y) in shapes {
        let want = t.lane_sum(s, x, y);
        t.meant(want, 9, 0);
    }
    if most as u64 == s.n {
        for first in [0, 65535] {
            let want = t.lane_sum(s, &with(&xs, 0, first), &ys);
            t.meant(want, 13, 0);
        }
    }
    if s.p < 65536 {
        bad_sums(t, s, &xs[..k], &ys[..k]);
    }
}

fn bad_sums(t: &mut Tally, s: Setting, xs: &[u16], ys: &[u16]) {
    let k = xs.len();
    for i in 0..k {
        let (x, y) = (with(xs, i, s.p as u16), with(ys, i, 65535));
        for (x, y, place) in [(&x[..], &y[..], i), (&x, ys, i), (xs, &y, k + i)] {
            let want = t.lane_sum(s, x, y);
            t.meant(want, 8, place);
            let want = t.lane_sum(s, x, &y[..0]);
            t.meant(want, 9, 0);
        }
    }
}

/// Multiples of p and their neighbours, where a quotient that is off by one would show.
fn reductions(t: &mut Tally, s: Setting) {
    let top = limit(s) - 1;
    for w in [0, 1, 2, top, word(s, 1), word(s, 22), word(s, 333)] {
        let multiple = w / s.p * s.p;
        for w in [w, multiple, multiple.saturating_sub(1)] {
            let _ = t.lane_reduce(s, w as f64);
        }
    }
    let (max, limit, least) = (f64::MAX, limit(s) as f64, f64::from_bits(1));
    let improper = [
        f64::NAN,
        -f64::NAN,
        f64::INFINITY,
        f64::NEG_INFINITY,
        max,
        -max,
    ]
    .into_iter()
    .chain([-0.0, -1.0, 0.5, 1.5, -0.5, least, -least, f64::MIN_POSITIVE])
    .chain([limit, -limit, limit + 1.0, limit - 0.5, 2f64.powi(64)]);
    for w in improper {
        let want = t.lane_reduce(s, w);
        t.meant(want, 11, 0);
    }
}
