//! The answer numbers of document 01, "Answer numbers", but for the one that #101 retired, and those of landed requests.

/// Why a call refused, by the order in which the cases are judged.
#[derive(Clone, Copy, Debug, PartialEq, Eq)]
pub enum Refusal {
    ImageLength,
    BlockCheck,
    BlockLayout,
    TableAsAWhole,
    /// In the place of 5 to 9 where a mailslot message is read or written (#105).
    MessageShape,
    FilterTooLong,
    FilterShape,
    UnknownClause,
    DuplicateClause,
    ClauseValue,
    GuidLength,
    GuidNotHeld,
    DnsDomainEmpty,
    DnsDomainNotHeld,
    SidShape,
    SidNotHeld,
    SidOfAnotherContext,
    UserPartEmpty,
    BufferTooShort,
}

impl Refusal {
    /// The documents' number for this case.
    pub fn number(self) -> u8 {
        match self {
            Refusal::ImageLength => 1,
            Refusal::BlockCheck => 2,
            Refusal::BlockLayout => 3,
            Refusal::TableAsAWhole => 4,
            Refusal::MessageShape => 41,
            Refusal::FilterTooLong => 5,
            Refusal::FilterShape => 6,
            Refusal::UnknownClause => 7,
            Refusal::DuplicateClause => 8,
            Refusal::ClauseValue => 9,
            Refusal::GuidLength => 11,
            Refusal::GuidNotHeld => 12,
            Refusal::DnsDomainEmpty => 13,
            Refusal::DnsDomainNotHeld => 14,
            Refusal::SidShape => 15,
            Refusal::SidNotHeld => 16,
            Refusal::SidOfAnotherContext => 17,
            Refusal::UserPartEmpty => 18,
            Refusal::BufferTooShort => 19,
        }
    }
}

/// The number for a call that answered.
pub const ANSWERED: u8 = 0;

/// The number for a call's result, refused or answered.
pub fn number_of<T>(result: &Result<T, Refusal>) -> u8 {
    match result {
        Ok(_) => ANSWERED,
        Err(refusal) => refusal.number(),
    }
}

/// An error unless the rule holds.
pub fn require(rule_holds: bool, otherwise: Refusal) -> Result<(), Refusal> {
    if rule_holds {
        Ok(())
    } else {
        Err(otherwise)
    }
}
