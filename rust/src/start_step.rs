//! The steps of the test for START.

/// The first step that fails of the test for START, in the order in which it takes
/// them. START is taken exactly where it is [`StartStep::None`], and refused with 10
/// otherwise: that is proved.
#[derive(Clone, Copy, Debug, PartialEq, Eq, PartialOrd, Ord, Hash)]
pub enum StartStep {
    /// None fails.
    None = 0,
    /// The thread is not there, its code is not 2, or its Due is Now.
    State = 1,
    /// The processor is held.
    Processor = 2,
    /// The source of a live immediate connection into the thread holds it back: it
    /// has code 2 or 3 and an equal DispatchTime; or the thread's own DispatchTime
    /// is Now, and the source is Active, has code 0 or 1 and a Period that divides
    /// Now.
    Connections = 3,
    /// The length is not in Min to Max.
    Length = 4,
}

impl StartStep {
    /// All of them, each at its number.
    pub const ALL: [StartStep; 5] = [
        StartStep::None,
        StartStep::State,
        StartStep::Processor,
        StartStep::Connections,
        StartStep::Length,
    ];

    /// What the library told: no other numbers are there.
    pub(crate) fn told(number: usize) -> StartStep {
        let step = StartStep::ALL.get(number);
        *step.expect("the test has four steps, and 0 for none")
    }

    /// Its number in document 02.
    pub fn number(self) -> u32 {
        self as u32
    }

    /// What it looks at, in a word.
    pub fn word(self) -> &'static str {
        match self {
            StartStep::None => "none",
            StartStep::State => "state",
            StartStep::Processor => "processor",
            StartStep::Connections => "connections",
            StartStep::Length => "length",
        }
    }

    /// Whether START is taken.
    pub fn is_taken(self) -> bool {
        self == StartStep::None
    }
}
