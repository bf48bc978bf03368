/// From which states to which the paths of a coder lead. Only a coder that ends at zero has a tail.
#[derive(Clone, Copy, Debug, Default, PartialEq, Eq, Hash)]
pub enum End {
    /// From state 0 to state 0: the tail leads back.
    #[default]
    Zero,
    /// From state 0 to any state.
    Open,
    /// From any state back to the same one. The coder starts in the lowest state that its own inputs return to itself; the decoder takes the best
    /// over all states.
    Ring,
}

impl End {
    /// The number by which the calls of [`raw`](crate::raw) are told it.
    pub fn number(self) -> u32 {
        match self {
            End::Zero => 0,
            End::Open => 1,
            End::Ring => 2,
        }
    }
}
