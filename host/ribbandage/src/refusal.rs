//! Refusals: number, place, and a sentence for each number.
use std::fmt;

/// Why a table or a tape was refused, and where: the record, or what the sentence says.
#[derive(Clone, Copy, Debug, PartialEq, Eq)]
pub struct Refusal {
    pub number: u32,
    pub place: usize,
}

impl Refusal {
    /// The refusal's number in plain words.
    pub fn sentence(&self) -> &'static str {
        match self.number {
            1 => "the table has no words, is not whole records, or has over 4096 of them",
            2 | 22 => "a record of another kind is due here",
            3 => "the table ends early",
            4 | 24 => "a word that has no meaning in this record is not 0",
            5 | 25 => "a field is outside its range, or names a slot, array or function that does not exist",
            6 | 26 => "there are records after the last function",
            7 => "this is nested too deep",
            8 => "a slot that is not visible is read or set, or one that was declared before is declared again",
            9 => "a parameter or a loop's slot is set",
            10 => "this needs a value of the other type, number or boolean",
            11 => "a function that is not the last one stores into an array",
            12 | 30 => "this function takes over 1,000,000,000 steps",
            13 => "the output is too short for so many records",
            21 => "the tape has no words, is not whole records, or has over 131072 of them",
            23 => "the tape ends early",
            27 => "a ninth FOR lies within eight, an END has no FOR, or RET stands in a loop",
            28 => "there are too few operands here, too many, or some are left over",
            29 => "a slot is used here that must not be",
            31 => "the exposed function takes another number of arguments",
            32 => "the memory is not as long as the arrays together",
            _ => "refused",
        }
    }

    /// Whether the place is a record of the table or tape.
    pub fn at_record(&self) -> bool {
        !matches!(self.number, 1 | 3 | 13 | 21 | 23 | 31 | 32)
    }
}

impl fmt::Display for Refusal {
    fn fmt(&self, f: &mut fmt::Formatter<'_>) -> fmt::Result {
        write!(f, "refusal {}: {}", self.number, self.sentence())?;
        match self.number {
            3 | 23 => write!(f, " (after {} records)", self.place),
            13 => write!(f, " ({})", self.place),
            _ if self.at_record() => write!(f, ", at record {}", self.place),
            _ => Ok(()),
        }
    }
}

impl std::error::Error for Refusal {}
