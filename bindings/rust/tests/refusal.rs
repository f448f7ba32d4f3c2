//! What a refusal shows of itself.

use saxweylur::Refusal;
use std::error::Error;

fn shown(number: u64, place: u64) -> String {
    Refusal { number, place }.to_string()
}

#[test]
fn names_of_the_numbers() {
    assert_eq!(shown(1, 0), "1 Modulus, place 0");
    assert_eq!(shown(8, 3), "8 Coefficient, place 3");
    assert_eq!(shown(14, 0), "14 No table, place 0");
    assert_eq!(shown(18, 0), "18 Overflow, place 0");
}

#[test]
fn numbers_without_a_name() {
    for number in [0, 19, 99, u64::MAX] {
        let expected = format!("{number} (a number without a name), place 7");
        assert_eq!(shown(number, 7), expected);
    }
}

fn refused() -> Result<(), Box<dyn Error>> {
    let (number, place) = (5, 0);
    Err(Refusal { number, place })?
}

#[test]
fn is_an_error() {
    assert_eq!(refused().unwrap_err().to_string(), "5 Narrow, place 0");
}
