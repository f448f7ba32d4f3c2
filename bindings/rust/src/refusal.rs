use std::error::Error;
use std::fmt;

/// Why a call was refused: a number of `docs/REFUSALS.md`, and where.
#[derive(Debug, Clone, Copy, PartialEq, Eq)]
pub struct Refusal {
    pub number: u64,
    /// The index of the first bad coefficient or word of a list, or of the first byte in which a
    /// table differs; else 0.
    pub place: u64,
}

/// The names, from number 1 on.
const NAMES: [&str; 18] = [
    "Modulus",
    "Length",
    "Batch",
    "Width",
    "Narrow",
    "Room",
    "None",
    "Coefficient",
    "Shape",
    "Short",
    "Word",
    "Record",
    "Full",
    "No table",
    "Stale",
    "Lane",
    "Job",
    "Overflow",
];

impl Refusal {
    /// The number's name, for the numbers that this crate knows.
    pub fn name(&self) -> Option<&'static str> {
        let index = usize::try_from(self.number).ok()?.checked_sub(1)?;
        NAMES.get(index).copied()
    }
}

impl fmt::Display for Refusal {
    fn fmt(&self, f: &mut fmt::Formatter<'_>) -> fmt::Result {
        let name = self.name().unwrap_or("(a number without a name)");
        write!(f, "{} {}, place {}", self.number, name, self.place)
    }
}

impl Error for Refusal {}
