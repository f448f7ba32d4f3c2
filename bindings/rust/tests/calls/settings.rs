//! Choose, and the refusals 1 to 6 of every call that takes a setting.

use crate::samples::{setting, settings};
use crate::school;
use crate::tally::Tally;
use saxweylur::Setting;

const MAX: u64 = u64::MAX;

pub fn run(t: &mut Tally) {
    choose(t);
    orders(t);
    for p in [1, 2, 65536, 65537] {
        for k in [0, 1, 8, 9] {
            for width in [0, 1, 4, 5, 63, 64] {
                for n in [0, 1, 1048576, 1048577] {
                    both(t, setting(p, k, width, n), None);
                }
            }
        }
    }
    for s in settings() {
        around_width(t, s);
    }
}

fn choose(t: &mut Tally) {
    let numbers = [
        0, 1, 2, 3, 7, 8, 9, 37, 38, 929, 65536, 65537, 1048576, 1048577, MAX,
    ];
    for p in numbers {
        for k in numbers {
            for n in numbers {
                let _ = t.choose(p, k, n);
            }
        }
    }
    for (p, k, n, width) in [
        (3, 4, 31, 9),
        (929, 2, 1, 21),
        (2, 8, 1, 4),
        (65536, 1, 1, 32),
    ] {
        let want = t.choose(p, k, n);
        assert_eq!(want, Ok(width), "a case that is not the document's");
    }
    for (p, k, n) in [(3, 4, 32), (929, 2, 2), (2, 8, 2), (38, 3, 1)] {
        let want = t.choose(p, k, n);
        t.meant(want, 7, 0);
    }
}

/// Two neighbours in the order at once, and the largest numbers.
fn orders(t: &mut Tally) {
    let cases = [
        (setting(1, 0, 5, 2), 1),
        (setting(3, 9, 5, 0), 2),
        (setting(3, 2, 0, 0), 3),
        (setting(3, 2, 0, 2), 4),
        (setting(3, 2, 64, 2), 4),
        (setting(929, 2, 22, 1048576), 5),
        (setting(2, 8, 8, 1), 6),
        (setting(MAX, 2, 5, 2), 1),
        (setting(3, MAX, 5, 2), 2),
        (setting(3, 2, 5, MAX), 3),
        (setting(3, 2, MAX, 2), 4),
        (setting(MAX, MAX, MAX, MAX), 1),
    ];
    for (s, number) in cases {
        both(t, s, Some(number));
    }
}

fn around_width(t: &mut Tally, s: Setting) {
    for width in s.t - 1..=s.t + 1 {
        good(t, setting(s.p, s.k, width, s.n), None);
    }
    let most = ((1 << s.t) - 1) / (s.k * (s.p - 1) * (s.p - 1));
    if (1..1048576).contains(&most) {
        good(t, setting(s.p, s.k, s.t, most), None);
        good(t, setting(s.p, s.k, s.t, most + 1), Some(5));
    }
}

fn both(t: &mut Tally, s: Setting, number: Option<u64>) {
    good(t, s, number);
    bad(t, s, number);
}

macro_rules! each {
    ($t:ident, $number:ident, $($call:expr),* $(,)?) => {
        $(
            let want = $call;
            if let Some(number) = $number {
                $t.meant(want, number, 0);
            }
        )*
    };
}

/// Every call that takes a setting, with the rest of its arguments as they should be.
fn good(t: &mut Tally, s: Setting, number: Option<u64>) {
    let zeros = &[0; 8][..s.k.min(8) as usize];
    let has_table = (2..=127).contains(&s.p) && (1..=63).contains(&s.t);
    let table = if has_table {
        school::table(s.p, s.t)
    } else {
        Vec::new()
    };
    each!(
        t,
        number,
        t.pack(s, zeros),
        t.unpack(s, 1, 15),
        t.reduce(s, 1),
        t.build_table(s, 16137),
        t.reduce_by_table(s, &table, &[0, 1], 2),
        t.product(s, &[0; 3], &[1; 2], 4),
        t.sum(s, (zeros, zeros), 0, 15),
        t.lane_sum(s, zeros, zeros),
        t.lane_reduce(s, 1.0),
    );
}

/// The same calls, wrong in everything else too: the setting comes first.
fn bad(t: &mut Tally, s: Setting, number: Option<u64>) {
    let (x, y) = (&[65535; 3], &[65535; 4]);
    each!(
        t,
        number,
        t.pack(s, &[]),
        t.unpack(s, MAX, 0),
        t.reduce(s, MAX),
        t.build_table(s, 0),
        t.reduce_by_table(s, &[0; 3], &[MAX; 2], 1),
        t.product(s, x, y, 0),
        t.sum(s, (x, y), usize::MAX, 0),
        t.lane_sum(s, x, y),
        t.lane_reduce(s, -0.0),
        t.lane_reduce(s, -1.0),
    );
}
