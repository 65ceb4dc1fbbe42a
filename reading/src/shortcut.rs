//! The shortcuts that ruined our log, as switches of this reading. None is on in a run that is compared.

#[derive(Clone, Copy, Debug, PartialEq, Eq)]
pub enum Shortcut {
    /// Junk returned as 32 zero bytes.
    JunkAsZeros,
    /// Taking the edge first and sealing afterwards.
    EdgeThenSeal,
    /// Believing "unwritten" from an old tail that was dropped unsealed: a read's answer is taken to speak of the layout in force.
    BelieveOldTail,
    /// Units that do not test epochs, so that sealing shuts nobody out.
    NoEpochTest,
    /// A dropped unit put back into an old range.
    PutBack,
    /// Writing tail before head.
    TailBeforeHead,
    /// Filling without looking at what the head holds.
    FillBlind,
}

impl Shortcut {
    pub const ALL: [Shortcut; 7] = [
        Shortcut::JunkAsZeros,
        Shortcut::EdgeThenSeal,
        Shortcut::BelieveOldTail,
        Shortcut::NoEpochTest,
        Shortcut::PutBack,
        Shortcut::TailBeforeHead,
        Shortcut::FillBlind,
    ];
}
