//! What a table holds: blocks of records, each with the place it was read from.

use std::fmt;

pub const BODY_LENGTH: usize = 504;
pub const MOST_BLOCKS: usize = 128;

/// The number of a naming context. Contexts and sites are counted apart.
#[derive(Clone, Copy, Debug, PartialEq, Eq, PartialOrd, Ord)]
pub struct ContextNumber(pub u16);

/// The number of a site.
#[derive(Clone, Copy, Debug, PartialEq, Eq, PartialOrd, Ord)]
pub struct SiteNumber(pub u16);

#[derive(Clone, Debug)]
pub struct Server {
    pub roles: u32,
    pub state: u32,
    pub address: [u8; 4],
    pub own_site: SiteNumber,
    pub default_context: ContextNumber,
    pub netbios_name: Vec<u8>,
    pub host_name: Vec<u8>,
}

/// A SID of revision 1, the only one that a table may hold.
#[derive(Clone, Debug, PartialEq, Eq, PartialOrd, Ord)]
pub struct Sid {
    /// Six octets in the image.
    pub authority: u64,
    pub subauthorities: Vec<u32>,
}

#[derive(Clone, Debug)]
pub struct Context {
    pub number: ContextNumber,
    pub application: bool,
    pub guid: [u8; 16],
    pub sid: Option<Sid>,
    /// Empty is offered to an application context alone.
    pub netbios_name: Vec<u8>,
    pub dns_name: Vec<u8>,
}

#[derive(Clone, Debug)]
pub struct Account {
    pub context: ContextNumber,
    pub control: u32,
    pub name: Vec<u8>,
}

#[derive(Clone, Debug)]
pub struct Site {
    pub number: SiteNumber,
    pub name: Vec<u8>,
    pub next_closest: Option<SiteNumber>,
}

#[derive(Clone, Debug)]
pub struct Subnet {
    pub address: [u8; 4],
    pub prefix: u8,
    pub site: Option<SiteNumber>,
}

#[derive(Clone, Debug)]
pub enum Record {
    Server(Server),
    Forest(Vec<u8>),
    Context(Context),
    Account(Account),
    Site(Site),
    Subnet(Subnet),
}

impl Record {
    /// The kind of block that holds such records.
    pub fn kind(&self) -> Kind {
        match self {
            Record::Server(_) => Kind::Server,
            Record::Forest(_) => Kind::Forest,
            Record::Context(_) => Kind::Context,
            Record::Account(_) => Kind::Accounts,
            Record::Site(_) => Kind::Sites,
            Record::Subnet(_) => Kind::Subnets,
        }
    }
}

/// A kind of block, by document 01's number.
#[derive(Clone, Copy, Debug, PartialEq, Eq)]
pub enum Kind {
    Server = 1,
    Forest,
    Context,
    Accounts,
    Sites,
    Subnets,
}

impl Kind {
    pub const ALL: [Kind; 6] = [Kind::Server, Kind::Forest, Kind::Context, Kind::Accounts, Kind::Sites, Kind::Subnets];

    pub fn from_octet(octet: u8) -> Option<Kind> {
        Kind::ALL.into_iter().find(|kind| kind.octet() == octet)
    }

    pub fn octet(self) -> u8 {
        self as u8
    }

    pub fn record_length(self) -> usize {
        match self {
            Kind::Server | Kind::Forest | Kind::Context => BODY_LENGTH,
            Kind::Accounts => 84,
            Kind::Sites => 72,
            Kind::Subnets => 12,
        }
    }

    /// How many records a block of this kind has room for.
    pub fn capacity(self) -> usize {
        BODY_LENGTH / self.record_length()
    }
}

/// Where a record stands, or a fault: a line of a text, or a block or record of an image.
#[derive(Clone, Copy, Debug, PartialEq, Eq)]
pub enum Place {
    /// From 1.
    Line(usize),
    Image,
    /// From 0, as blocks count their own places.
    Block(usize),
    Record {
        block: usize,
        slot: usize,
    },
}

impl fmt::Display for Place {
    fn fmt(&self, formatter: &mut fmt::Formatter) -> fmt::Result {
        match self {
            Place::Line(number) => write!(formatter, "line {number}"),
            Place::Image => write!(formatter, "the image"),
            Place::Block(block) => write!(formatter, "block {block}"),
            Place::Record { block, slot } => write!(formatter, "record {slot} of block {block}"),
        }
    }
}

/// What is wrong, and where.
#[derive(Clone, Debug, PartialEq, Eq)]
pub struct Fault {
    pub place: Place,
    pub message: String,
}

impl Fault {
    /// A message may repeat words of a text: it stays one line whatever they hold.
    pub fn new(place: Place, message: impl Into<String>) -> Fault {
        Fault { place, message: message.into().replace(char::is_control, "?") }
    }
}

impl fmt::Display for Fault {
    fn fmt(&self, formatter: &mut fmt::Formatter) -> fmt::Result {
        write!(formatter, "{}: {}", self.place, self.message)
    }
}

#[derive(Clone, Debug)]
pub struct Entry {
    pub place: Place,
    pub record: Record,
}

/// A block and its records by slot; slots after those listed are unused too.
#[derive(Clone, Debug)]
pub struct Block {
    pub kind: Kind,
    pub slots: Vec<Option<Entry>>,
}

#[derive(Clone, Debug)]
pub struct Table {
    pub blocks: Vec<Block>,
    /// Where something is missed that stands nowhere.
    pub end: Place,
}

impl Table {
    /// The records in use, in table order.
    pub fn entries(&self) -> impl Iterator<Item = &Entry> {
        self.blocks.iter().flat_map(|block| block.slots.iter().flatten())
    }
}
