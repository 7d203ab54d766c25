//! Refusals, and the question that each stands for.

use std::error::Error;
use std::fmt;

/// Makes the enum and its table out of one list.
macro_rules! refusals {
    ($($name:ident $code:literal $question:literal)*) => {
        /// Why a call was refused: the first question that was answered "no".
        /// The layout and every lent buffer or table are then as they were.
        #[derive(Clone, Copy, Debug, PartialEq, Eq, Hash)]
        pub enum Refusal {
            $(#[doc = $question] $name,)*
            /// A code that this crate does not know.
            Unknown(u8),
        }

        /// Every refusal that has a question.
        pub(crate) const REFUSALS: &[Refusal] = &[$(Refusal::$name),*];

        impl Refusal {
            /// The refusal code (document 01: the number of the question).
            pub fn code(self) -> u8 {
                match self {
                    $(Refusal::$name => $code,)*
                    Refusal::Unknown(code) => code,
                }
            }

            /// The question that was answered "no".
            pub fn question(self) -> &'static str {
                match self {
                    $(Refusal::$name => $question,)*
                    Refusal::Unknown(_) => "unknown",
                }
            }

            /// The refusal with a code other than 0.
            fn from_code(code: u8) -> Refusal {
                match code {
                    $($code => Refusal::$name,)*
                    _ => Refusal::Unknown(code),
                }
            }
        }
    };
}

refusals! {
    ChartTooLong 1 "is the chart at most 8,192 bytes long?"
    ChartFields 2 "does the chart divide exactly into fields, each header and body complete?"
    ChartTags 3 "are the tags 44, 4C, 52, or 44, 4C, 52, 57, each once, in that sequence?"
    ChartVertices 4 "is the body of field 44 one byte, at most 64?"
    ChartOddEdges 5 "has the body of field 4C an even length?"
    ChartEdgeEnds 6 "are the ends of each edge below n and different?"
    ChartEdgeTwice 7 "is each edge written only once, either way round?"
    ChartOrder 8 "has the body of field 52 n bytes, holding each vertex once?"
    InvalidLayout 11 "is the layout valid?"
    NoSuchVertex 12 "is each named vertex below n?"
    SameVertex 13 "do the two vertices differ?"
    EdgeIsThere 14 "is there no edge between the two vertices yet?"
    NoSuchEdge 15 "is there an edge between the two vertices?"
    NoRoom 16 "is there room for another (there are 64 vertices already)?"
    LimitOutOfRange 17 "is the limit from 1 to 1000?"
    BufferTooShort 18 "is the lent buffer long enough?"
    WriteBufferTooShort 19 "has the buffer as many bytes as are written?"
    Graph6Size 20 "does the graph6 start with a size from 0 to 64, in its shortest form?"
    Graph6Data 21 "has the graph6 as many bytes as its size asks for, each from 63 to 126?"
    Graph6Padding 22 "are the padding bits of the graph6 all 0?"
    TableTooShort 23 "has the table an entry for each edge?"
    ChartWeights 24 "has the body of field 57 one byte for each edge?"
    WeightOutOfRange 25 "is each weight a whole number from 1 to 255?"
    Graph6Weights 26 "does each edge weigh 1 (a graph6 has no weights)?"
}

/// The value, unless the code says that the call was refused.
pub(crate) fn accepted<T>(code: u8, value: T) -> Result<T, Refusal> {
    match code {
        0 => Ok(value),
        _ => Err(Refusal::from_code(code)),
    }
}

impl fmt::Display for Refusal {
    fn fmt(&self, f: &mut fmt::Formatter) -> fmt::Result {
        write!(f, "refused with {}: {} No.", self.code(), self.question())
    }
}

impl Error for Refusal {}

#[cfg(test)]
mod tests {
    use super::*;

    #[test]
    fn codes_and_refusals_belong_together() {
        for &refusal in REFUSALS {
            assert_eq!(accepted(refusal.code(), ()), Err(refusal));
        }
        assert_eq!(accepted(0, 7), Ok(7));
        assert_eq!(accepted(9, ()), Err(Refusal::Unknown(9)));
        assert_eq!(Refusal::Unknown(9).code(), 9);
    }

    #[test]
    fn the_question_is_said() {
        let said = Refusal::SameVertex.to_string();
        assert_eq!(said, "refused with 13: do the two vertices differ? No.");
    }
}
