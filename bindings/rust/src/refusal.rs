//! Why a call refuses.

use std::error::Error;
use std::fmt;

/// Why a call refuses, by document 01's number.
#[derive(Clone, Copy, Debug, PartialEq, Eq)]
#[repr(u8)]
pub enum Refusal {
    /// The image is not 2 to 128 whole blocks of 512 octets.
    ImageLength = 1,
    /// A block does not store its own check.
    BlockCheck = 2,
    /// A block or record is not laid out by the rules.
    BlockLayout = 3,
    /// The blocks do not agree: counts, doubles, references.
    TableWhole = 4,
    /// The filter has more than [`FILTER_MOST`](crate::FILTER_MOST) octets.
    FilterLength = 5,
    /// The filter is not equalities in ANDs, or there is no clause to write.
    FilterShape = 6,
    /// A clause has another name than the eight.
    UnknownClause = 7,
    /// Two clauses have one name.
    DuplicateClause = 8,
    /// NtVer, AAC or User has no such value.
    ClauseValue = 9,
    /// DomainGuid is not of 16 octets.
    GuidLength = 11,
    /// No context has the DomainGuid.
    GuidNotHeld = 12,
    /// DnsDomain is present and empty.
    DnsNameEmpty = 13,
    /// No context has the DnsDomain.
    DnsNameNotHeld = 14,
    /// DomainSid is no SID.
    SidShape = 15,
    /// No context has the DomainSid.
    SidNotHeld = 16,
    /// Another context than the one used has the DomainSid.
    SidOfAnother = 17,
    /// The user's name has an empty label, which an EX reply cannot hold.
    UserLabelEmpty = 18,
    /// The buffer is too short for what would be written.
    NoRoom = 19,
    /// The reply ends too early.
    ReplyCut = 31,
    /// The reply's opcode is of another form.
    ReplyOpcode = 32,
    /// A UTF-16 text is broken, or a name is broken, overlong or winding.
    ReplyText = 33,
    /// A fixed field of the reply has another value.
    ReplyFixed = 34,
    /// Octets follow the reply's end.
    ReplyLeftOver = 35,
    /// It is no mailslot message, or one that breaks a limit.
    MailslotShape = 41,
}

/// Each refusal, with its meaning.
const MEANINGS: [(Refusal, &str); 24] = [
    (Refusal::ImageLength, "the image is not 2 to 128 whole blocks"),
    (Refusal::BlockCheck, "a block's check is wrong"),
    (Refusal::BlockLayout, "a block's layout is wrong"),
    (Refusal::TableWhole, "the table's blocks do not agree"),
    (Refusal::FilterLength, "the filter is too long"),
    (Refusal::FilterShape, "the filter is not equalities in ANDs"),
    (Refusal::UnknownClause, "a clause has an unknown name"),
    (Refusal::DuplicateClause, "two clauses have one name"),
    (Refusal::ClauseValue, "NtVer, AAC or User has no such value"),
    (Refusal::GuidLength, "DomainGuid is not of 16 octets"),
    (Refusal::GuidNotHeld, "no context has the DomainGuid"),
    (Refusal::DnsNameEmpty, "DnsDomain is empty"),
    (Refusal::DnsNameNotHeld, "no context has the DnsDomain"),
    (Refusal::SidShape, "DomainSid is no SID"),
    (Refusal::SidNotHeld, "no context has the DomainSid"),
    (Refusal::SidOfAnother, "another context has the DomainSid"),
    (Refusal::UserLabelEmpty, "the user's name has an empty label"),
    (Refusal::NoRoom, "the buffer is too short"),
    (Refusal::ReplyCut, "the reply is cut short"),
    (Refusal::ReplyOpcode, "the reply's opcode is of another form"),
    (Refusal::ReplyText, "a text or name of the reply is broken"),
    (Refusal::ReplyFixed, "a fixed field of the reply has another value"),
    (Refusal::ReplyLeftOver, "octets follow the reply's end"),
    (Refusal::MailslotShape, "it is no mailslot message"),
];

impl Refusal {
    /// Document 01's number of it.
    pub fn number(self) -> u8 {
        self as u8
    }

    /// The refusal of a number that a call returned; 0 is none.
    pub(crate) fn of(number: u8) -> Result<(), Refusal> {
        if number == 0 {
            return Ok(());
        }
        let found = MEANINGS.iter().find(|(refusal, _)| refusal.number() == number);
        Err(found.expect("a proved call returns document 01's numbers alone").0)
    }
}

impl fmt::Display for Refusal {
    fn fmt(&self, out: &mut fmt::Formatter<'_>) -> fmt::Result {
        let found = MEANINGS.iter().find(|(refusal, _)| refusal == self);
        let meaning = found.expect("every refusal has a meaning").1;
        write!(out, "{meaning} ({})", self.number())
    }
}

impl Error for Refusal {}
