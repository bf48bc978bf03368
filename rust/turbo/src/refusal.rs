use std::fmt;

/// Why a call was refused, by the numbers of document 01's table and of document 02. Of the refusals that apply a call tells the least: they
/// stand here in their order, which is that of their numbers but for 15 after 2, 17 and 18 after 5, and 16 after 6, and of two values the one with
/// the lower index comes first.
///
/// A later version may know more numbers.
#[derive(Clone, Copy, Debug, PartialEq, Eq, Hash, PartialOrd, Ord)]
#[non_exhaustive]
pub enum Refusal {
    Text,
    Shape,
    Polynomial,
    Branch,
    Length,
    Lists,
    /// A number of a receiver's setting is out of range.
    Setting,
    /// A sample is infinite or not a number.
    Sample,
    /// A channel value is out of range: the first such one stands at this index of its list, counted from 0.
    Value { index: usize },
    /// The same of an a-priori value.
    Apriori { index: usize },
    Bit,
    Pattern,
    Mask,
    Iterations,
    Coder,
    NoPath,
    ForcedPosition,
    NoTail,
}

impl Refusal {
    pub fn number(self) -> u32 {
        match self {
            Refusal::Text => 1,
            Refusal::Shape => 2,
            Refusal::Polynomial => 15,
            Refusal::Branch => 3,
            Refusal::Length => 4,
            Refusal::Lists => 5,
            Refusal::Setting => 17,
            Refusal::Sample => 18,
            Refusal::Value { .. } => 6,
            Refusal::Apriori { .. } => 16,
            Refusal::Bit => 7,
            Refusal::Pattern => 8,
            Refusal::Mask => 9,
            Refusal::Iterations => 10,
            Refusal::Coder => 11,
            Refusal::NoPath => 12,
            Refusal::ForcedPosition => 13,
            Refusal::NoTail => 14,
        }
    }

    /// The refusal that a call of [`raw`](crate::raw) tells by its number and the index beside it; for a call without an index any will do, since
    /// it counts with 6 and 16 alone. There is none for 0, which is no refusal, and above 18.
    pub fn from_reply(number: u32, index: u64) -> Option<Refusal> {
        // An index of a list that was lent is a `usize`.
        let index = index as usize;
        Some(match number {
            1 => Refusal::Text,
            2 => Refusal::Shape,
            15 => Refusal::Polynomial,
            3 => Refusal::Branch,
            4 => Refusal::Length,
            5 => Refusal::Lists,
            17 => Refusal::Setting,
            18 => Refusal::Sample,
            6 => Refusal::Value { index },
            16 => Refusal::Apriori { index },
            7 => Refusal::Bit,
            8 => Refusal::Pattern,
            9 => Refusal::Mask,
            10 => Refusal::Iterations,
            11 => Refusal::Coder,
            12 => Refusal::NoPath,
            13 => Refusal::ForcedPosition,
            14 => Refusal::NoTail,
            _ => return None,
        })
    }

    /// What to look at.
    pub fn sentence(self) -> String {
        let sentence = match self {
            Refusal::Text => "the sheet's text breaks a rule",
            Refusal::Shape => "the table must have 1 to 16 states, 1 to 4 outputs and two branches a state; an end must be 0, 1 or 2",
            Refusal::Polynomial => "memory must be 1 to 4, both tap numbers below 2^(memory+1), the feedback number odd; f1 and f2 below K",
            Refusal::Branch => "a next state is not below the number of states, or a word not below 2^outputs",
            Refusal::Length => "sections must be 1 to 4096; message bits at least 1, tail sections 0 to 4, and both together at most 4096",
            Refusal::Lists => "a list is not of its exact length",
            Refusal::Setting => "amplitude, ratio and scale must each be a number within 0..1024",
            Refusal::Sample => "a sample is infinite or not a number",
            Refusal::Value { index } => return format!("the channel value at index {index}, counted from 0, is outside -1023..1023"),
            Refusal::Apriori { index } => return format!("the a-priori value at index {index}, counted from 0, is outside -8191..8191"),
            Refusal::Bit => "a message bit is neither 0 nor 1",
            Refusal::Pattern => "the pattern must have each of 0..K-1 exactly once",
            Refusal::Mask => "there must be 1 to 16 masks, each at most 7",
            Refusal::Iterations => "iterations must be 1 to 32",
            Refusal::Coder => "a frame's table must be systematic with two outputs",
            Refusal::NoPath => "no path of that length ends as it must: at zero in state 0, as a ring in the state in which it started",
            Refusal::ForcedPosition => "every path has the same bit at some message position, so it has no margin",
            Refusal::NoTail => "no inputs of the tail lead a coder back to state 0, or no state is one that a ring's inputs return to itself",
        };
        sentence.to_string()
    }
}

impl fmt::Display for Refusal {
    fn fmt(&self, f: &mut fmt::Formatter<'_>) -> fmt::Result {
        write!(f, "refused {}: {}", self.number(), self.sentence())
    }
}

impl std::error::Error for Refusal {}
