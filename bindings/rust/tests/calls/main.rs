//! Every call of the crate, held to its plain definition in `school`. One test runs all groups, so
//! that one line says how many calls were right.

mod lane;
mod lists;
mod places;
mod samples;
mod school;
mod settings;
mod tables;
mod tally;

use tally::Tally;

#[test]
fn all_calls() {
    let mut tally = Tally::new();
    settings::run(&mut tally);
    places::run(&mut tally);
    tables::run(&mut tally);
    lists::run(&mut tally);
    lane::run(&mut tally);
    assert_eq!(tally.end(), 0, "calls were wrong");
}
