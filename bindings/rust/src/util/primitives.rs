//! IDs of states and patterns.

const MAX: usize = (i32::MAX - 1) as usize;

/// The ID of a pattern: its index in the list of patterns from which a regex was built.
#[derive(Clone, Copy, Debug, Default, PartialEq, Eq, Hash, PartialOrd, Ord)]
pub struct PatternID(pub(crate) u32);

/// The ID of a state of an NFA.
#[derive(Clone, Copy, Debug, Default, PartialEq, Eq, Hash, PartialOrd, Ord)]
pub struct StateID(pub(crate) u32);

impl PatternID {
    /// The first pattern.
    pub const ZERO: PatternID = PatternID(0);

    /// Returns the ID of this number, if it is below 2^31 - 1.
    pub fn new(id: usize) -> Option<PatternID> {
        (id <= MAX).then_some(PatternID(id as u32))
    }

    /// Returns the ID of this number.
    ///
    /// # Panics
    ///
    /// If the number is not below 2^31 - 1.
    pub fn must(id: usize) -> PatternID {
        PatternID::new(id).expect("the number of a pattern is below 2^31 - 1")
    }

    /// Returns the ID as an index.
    pub fn as_usize(self) -> usize {
        self.0 as usize
    }
}

impl StateID {
    /// The first state.
    pub const ZERO: StateID = StateID(0);

    /// Returns the ID of this number, if it is below 2^31 - 1.
    pub fn new(id: usize) -> Option<StateID> {
        (id <= MAX).then_some(StateID(id as u32))
    }

    /// Returns the ID of this number.
    ///
    /// # Panics
    ///
    /// If the number is not below 2^31 - 1.
    pub fn must(id: usize) -> StateID {
        StateID::new(id).expect("the number of a state is below 2^31 - 1")
    }

    /// Returns the ID as an index.
    pub fn as_usize(self) -> usize {
        self.0 as usize
    }
}
