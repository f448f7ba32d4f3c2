//! What each call has to give, by the plain definition on whole numbers. An `out` comes with the
//! old contents and is left as it has to be.

use saxweylur::{Refusal, Setting};

pub type Says<T> = Result<T, Refusal>;

fn refuse<T>(number: u64, place: usize) -> Says<T> {
    let place = place as u64;
    Err(Refusal { number, place })
}

fn check(causes: &[(u64, bool)]) -> Says<()> {
    match causes.iter().find(|(_, holds)| *holds) {
        Some((number, _)) => refuse(*number, 0),
        None => Ok(()),
    }
}

pub fn setting(s: Setting) -> Says<()> {
    check(&[
        (1, !(2..=65536).contains(&s.p)),
        (2, !(1..=8).contains(&s.k)),
        (3, !(1..=1048576).contains(&s.n)),
        (4, !(1..=63).contains(&s.t)),
    ])?;
    check(&[
        (5, 1 << s.t <= s.n * s.k * (s.p - 1) * (s.p - 1)),
        (6, (2 * s.k - 1) * s.t >= 64),
    ])
}

pub fn choose(p: u64, k: u64, n: u64) -> Says<u64> {
    for t in 1..=63 {
        match setting(Setting { p, k, t, n }) {
            Ok(()) => return Ok(t),
            Err(r) if r.number <= 3 => return Err(r),
            Err(_) => {}
        }
    }
    refuse(7, 0)
}

pub fn places(s: Setting) -> usize {
    2 * s.k as usize - 1
}

pub fn limit(s: Setting) -> u64 {
    1 << ((2 * s.k - 1) * s.t)
}

fn coefficients(p: u64, xs: &[u16], ys: &[u16]) -> Says<()> {
    match xs.iter().chain(ys).position(|&x| u64::from(x) >= p) {
        Some(place) => refuse(8, place),
        None => Ok(()),
    }
}

fn word_of(s: Setting, fields: impl Iterator<Item = u64>) -> u64 {
    fields
        .zip(0..)
        .map(|(x, i): (u64, u64)| x << (i * s.t))
        .sum()
}

fn fields(s: Setting, word: u64) -> impl Iterator<Item = u64> {
    (0..2 * s.k - 1).map(move |i| (word >> (i * s.t)) % (1 << s.t))
}

pub fn pack(s: Setting, xs: &[u16]) -> Says<u64> {
    setting(s)?;
    check(&[(9, xs.len() as u64 != s.k)])?;
    coefficients(s.p, xs, &[])?;
    Ok(word_of(s, xs.iter().map(|&x| x.into())))
}

pub fn unpack(s: Setting, word: u64, out: &mut [u64]) -> Says<usize> {
    setting(s)?;
    check(&[(11, word >= limit(s)), (10, out.len() < places(s))])?;
    out.iter_mut()
        .zip(fields(s, word))
        .for_each(|(o, x)| *o = x);
    Ok(places(s))
}

pub fn reduce(s: Setting, word: u64) -> Says<u64> {
    setting(s)?;
    check(&[(11, word >= limit(s))])?;
    Ok(word_of(s, fields(s, word).map(|x| x % s.p)))
}

pub fn table(p: u64, t: u64) -> Vec<u8> {
    let mut bytes = (p as u32 * p as u32 + 4).to_be_bytes().to_vec();
    bytes.push(1);
    bytes.extend((p as u16).to_be_bytes());
    bytes.push(t as u8);
    let q = (1u64 << t) % p;
    bytes.extend((0..p * p).map(|i| ((i % p + p - q * (i / p) % p) % p) as u8));
    bytes
}

pub fn build_table(s: Setting, out: &mut [u8]) -> Says<usize> {
    setting(s)?;
    check(&[(14, s.p > 127)])?;
    let bytes = table(s.p, s.t);
    check(&[(10, out.len() < bytes.len())])?;
    out[..bytes.len()].copy_from_slice(&bytes);
    Ok(bytes.len())
}

pub fn reduce_by_table(s: Setting, given: &[u8], words: &[u64], out: &mut [u64]) -> Says<usize> {
    setting(s)?;
    check(&[(14, s.p > 127)])?;
    let bytes = table(s.p, s.t);
    let alike = given.iter().zip(&bytes).take_while(|(x, y)| x == y).count();
    if alike < bytes.len() {
        return refuse(15, alike);
    }
    check(&[(10, out.len() < words.len())])?;
    if let Some(place) = words.iter().position(|&word| word >= limit(s)) {
        return refuse(11, place);
    }
    for (o, &word) in out.iter_mut().zip(words) {
        *o = reduce(s, word)?;
    }
    Ok(words.len())
}

/// Adds the product of two lists to sums.
fn add_product(p: u64, a: &[u16], b: &[u16], sums: &mut [u64]) {
    for (i, &x) in a.iter().enumerate() {
        for (j, &y) in b.iter().enumerate() {
            sums[i + j] = (sums[i + j] + u64::from(x) * u64::from(y)) % p;
        }
    }
}

fn write(sums: &[u64], out: &mut [u16]) {
    out.iter_mut().zip(sums).for_each(|(o, &x)| *o = x as u16);
}

pub fn product(s: Setting, a: &[u16], b: &[u16], out: &mut [u16]) -> Says<usize> {
    setting(s)?;
    check(&[(9, a.len() > 4096 || b.len() > 4096)])?;
    coefficients(s.p, a, b)?;
    let length = if a.is_empty() || b.is_empty() {
        0
    } else {
        a.len() + b.len() - 1
    };
    check(&[(10, out.len() < length)])?;
    let mut sums = vec![0; length];
    add_product(s.p, a, b, &mut sums);
    write(&sums, out);
    Ok(length)
}

fn pairs(s: Setting, xs: &[u16], ys: &[u16], most: u64) -> Says<u64> {
    let (len, k) = (xs.len() as u64, s.k);
    check(&[
        (9, xs.len() != ys.len() || len % k != 0),
        (13, len / k > most),
    ])?;
    coefficients(s.p, xs, ys)?;
    Ok(len / k)
}

fn sums(s: Setting, p: u64, xs: &[u16], ys: &[u16]) -> Vec<u64> {
    let mut sums = vec![0; places(s)];
    let k = s.k as usize;
    for (x, y) in xs.chunks(k).zip(ys.chunks(k)) {
        add_product(p, x, y, &mut sums);
    }
    sums
}

pub fn sum(s: Setting, xs: &[u16], ys: &[u16], out: &mut [u16]) -> Says<u64> {
    setting(s)?;
    let count = pairs(s, xs, ys, 1_000_000)?;
    check(&[(10, out.len() < places(s))])?;
    write(&sums(s, s.p, xs, ys), out);
    Ok((count + s.n - 1) / s.n)
}

fn lane(s: Setting) -> Says<()> {
    setting(s)?;
    check(&[(16, (2 * s.k - 1) * s.t >= 53)])
}

pub fn lane_sum(s: Setting, xs: &[u16], ys: &[u16]) -> Says<f64> {
    lane(s)?;
    pairs(s, xs, ys, s.n)?;
    // Modulo q, which the sums of an accepted setting are below.
    Ok(word_of(s, sums(s, 1 << s.t, xs, ys).into_iter()) as f64)
}

pub fn lane_reduce(s: Setting, word: f64) -> Says<f64> {
    lane(s)?;
    let proper = word.is_sign_positive() && word < limit(s) as f64 && word.fract() == 0.0;
    check(&[(11, !proper)])?;
    reduce(s, word as u64).map(|reduced| reduced as f64)
}
