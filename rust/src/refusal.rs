//! A refusal: its number, and a sentence that a person can act on.

use std::fmt;

/// Why a call was refused. A refused call has changed nothing. Also why a slice stopped; there, what was
/// finished before stays: see [`Slice::stopped`](crate::Slice::stopped).
#[derive(Clone, Copy, Debug, PartialEq, Eq, Hash)]
pub struct Refusal {
    number: u32,
}

impl Refusal {
    /// The number in the table of refusals.
    pub fn number(self) -> u32 {
        self.number
    }

    /// The answer of a C function, as [`raw`](crate::raw) gives it: 0 is acceptance, every other
    /// number a refusal, or the stop of a slice.
    pub fn of(answer: u32) -> Result<(), Refusal> {
        match answer {
            0 => Ok(()),
            number => Err(Refusal { number }),
        }
    }

    fn sentence(self) -> &'static str {
        match self.number {
            1 => "the width or the height is 0 or above 2,048",
            2 => "there is no such kind for this map",
            3 => "the chamfer weights break 1 ≤ d1 ≤ 255, d1 ≤ d2 ≤ 2·d1",
            4 => "a list has a length that does not fit the call",
            5 => "a picture byte is neither 0 nor 1, or a cost is above 1,000,000 and not the mark",
            6 => "no cell is bored, every cost is the mark, or every scratch word of a slice's row is",
            7 => "an end of the lane is not on the board",
            8 => "the pitch or the radius is not a multiple of 1/64 mm from 1/64 mm to 64 mm",
            9 => "the changeover's columns are not i < u ≤ 2,047, or a value is above 17,000,000",
            // The C functions never answer the next two; the bench file's program does.
            10 => "the file's length is not a multiple of 4, or is over 16,384 bytes",
            11 => "a coordinate in the file is above 63",
            12 => "the line is above the width and the height together",
            13 => "a scratch word of a slice's row is neither a row of the board nor the mark",
            // Only an archive of a later edition than this crate answers another number.
            _ => "the archive knows the reason, this edition of the wrapper does not",
        }
    }
}

impl fmt::Display for Refusal {
    fn fmt(&self, f: &mut fmt::Formatter) -> fmt::Result {
        write!(f, "refused {}: {}", self.number, self.sentence())
    }
}

impl std::error::Error for Refusal {}

#[cfg(test)]
mod tests {
    use super::Refusal;

    #[test]
    fn acceptance_is_no_refusal() {
        assert_eq!(Refusal::of(0), Ok(()));
    }

    #[test]
    fn each_number_has_a_sentence_of_its_own() {
        // 14 is the first that the table does not have.
        let sentences: Vec<_> = (1..=14).map(|number| Refusal { number }.sentence()).collect();
        for (at, sentence) in sentences.iter().enumerate() {
            assert!(!sentences[..at].contains(sentence), "{sentence}");
        }
    }

    #[test]
    fn a_refusal_shows_its_number() {
        let refusal = Refusal::of(7).unwrap_err();
        assert_eq!(refusal.number(), 7);
        assert_eq!(refusal.to_string(), "refused 7: an end of the lane is not on the board");
    }
}
