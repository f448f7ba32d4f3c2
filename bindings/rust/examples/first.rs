//! A first program: a width is chosen, pairs of polynomials are multiplied and added up, a table is
//! built and used, and a refusal is read.

use saxweylur::{build_table, choose, pack, reduce_by_table, sum, Refusal, Setting};

fn main() -> Result<(), Refusal> {
    let (p, k, n) = (3, 2, 2);
    let t = choose(p, k, n)?;
    println!("width: {t}");
    let s = Setting { p, k, t, n };

    // Three times the pair 1 + 2x, 2 + 2x, modulo 3, of which a word takes n = 2 products.
    let mut coefficients = [0; 3];
    let reductions = sum(s, &[1, 2, 1, 2, 1, 2], &[2; 6], 0, &mut coefficients)?;
    println!("sum: {coefficients:?}, {reductions} reductions");

    // A table is built once and may be kept; each use tests whether it is the setting's.
    let mut table = [0; 17];
    build_table(s, &mut table)?;
    let mut reduced = [0; 2];
    reduce_by_table(s, &table, &[4290, 2145], &mut reduced)?;
    println!("reduced: {reduced:?}");

    // 3 is no coefficient modulo 3.
    match pack(s, &[1, 3]) {
        Ok(word) => println!("pack: {word}"),
        Err(refusal) => println!("pack: refused with {refusal}"),
    }
    Ok(())
}
