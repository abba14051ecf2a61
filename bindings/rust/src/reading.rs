//! Received replies: their fields, and the texts of their names.

use crate::ffi;
use crate::filter::stretch_of;
use crate::{Form, Refusal, Stretch};

pub use crate::ffi::TEXT_MOST;

/// A name of a reply.
#[derive(Clone, Copy, Debug, PartialEq, Eq)]
pub struct Name {
    /// Where it starts in the reply.
    pub start: usize,
    /// How many octets its text has.
    pub length: usize,
    /// How many pointers lead through it.
    pub pointers: usize,
}

impl Name {
    /// Its text in the reply that it was read from.
    pub fn text(&self, reply: &[u8]) -> Result<Text, Refusal> {
        name_text(reply, self.start)
    }
}

/// The text of a name: its labels joined by dots.
#[derive(Clone, Copy, Debug, PartialEq, Eq)]
pub struct Text {
    octets: [u8; TEXT_MOST],
    length: usize,
}

impl Text {
    /// Its octets.
    pub fn octets(&self) -> &[u8] {
        &self.octets[..self.length]
    }
}

/// The text of the name that starts at an offset of a reply, or 31 or 33 where there is none.
pub fn name_text(reply: &[u8], start: usize) -> Result<Text, Refusal> {
    let (number, octets, length) = ffi::name_text(reply, start);
    Refusal::of(number)?;
    Ok(Text { octets, length })
}

/// The fields of an NT40 reply. Texts are UTF-16LE, without the zero unit.
#[derive(Clone, Copy, Debug, PartialEq, Eq)]
pub struct Nt40Fields {
    /// What the answer says.
    pub opcode: u16,
    /// The server's NetBIOS name.
    pub server: Stretch,
    /// The user's name.
    pub user: Stretch,
    /// The context's NetBIOS name.
    pub domain: Stretch,
    /// The version bits of the reply.
    pub version: u32,
}

/// The fields of a RESPONSE reply. Texts are UTF-16LE, without the zero unit.
#[derive(Clone, Copy, Debug, PartialEq, Eq)]
pub struct ResponseFields {
    /// What the answer says.
    pub opcode: u16,
    /// The server's NetBIOS name.
    pub server: Stretch,
    /// The user's name.
    pub user: Stretch,
    /// The context's NetBIOS name.
    pub domain: Stretch,
    /// The context's GUID, 16 octets.
    pub guid: Stretch,
    /// The forest's DNS name.
    pub forest: Name,
    /// The context's DNS name.
    pub context: Name,
    /// The server's DNS name.
    pub host: Name,
    /// The server's IPv4 address, 4 octets in dotted order.
    pub address: Stretch,
    /// What the server is.
    pub flags: u32,
    /// The version bits of the reply.
    pub version: u32,
}

/// The fields of an EX reply.
#[derive(Clone, Copy, Debug, PartialEq, Eq)]
pub struct ExFields {
    /// What the answer says.
    pub opcode: u16,
    /// What the server is.
    pub flags: u32,
    /// The context's GUID, 16 octets.
    pub guid: Stretch,
    /// The forest's DNS name.
    pub forest: Name,
    /// The context's DNS name.
    pub context: Name,
    /// The server's DNS name.
    pub host: Name,
    /// The context's NetBIOS name.
    pub context_netbios: Name,
    /// The server's NetBIOS name.
    pub server_netbios: Name,
    /// The user's name.
    pub user: Name,
    /// The server's site.
    pub own_site: Name,
    /// The client's site.
    pub client_site: Name,
    /// The server's IPv4 address, 4 octets in dotted order, where the version asked for it.
    pub address: Option<Stretch>,
    /// The site next closest to the client's, where it is present.
    pub next_site: Option<Name>,
    /// The version bits of the reply.
    pub version: u32,
}

impl ExFields {
    /// The names by their places, the next closest site last.
    pub fn names(&self) -> impl Iterator<Item = Name> {
        let first = [self.forest, self.context, self.host, self.context_netbios, self.server_netbios];
        first.into_iter().chain([self.user, self.own_site, self.client_site]).chain(self.next_site)
    }
}

/// The fields of a reply in its form.
#[derive(Clone, Copy, Debug, PartialEq, Eq)]
pub enum Fields {
    /// Of the form NT40.
    Nt40(Nt40Fields),
    /// Of the form RESPONSE.
    Response(ResponseFields),
    /// Of the form EX.
    Ex(ExFields),
}

/// A reply that was read.
#[derive(Clone, Copy, Debug, PartialEq, Eq)]
pub struct Reading {
    /// How many octets the reply has.
    pub length: usize,
    /// Its fields.
    pub fields: Fields,
}

/// Reads a received reply in its form, or refuses it by 31 to 35. The version is what the ping asked for; it decides only in an EX.
pub fn read_reply(reply: &[u8], form: Form, version: u32) -> Result<Reading, Refusal> {
    let (number, members) = match form {
        Form::Nt40 => ffi::read_nt40(reply),
        Form::Response => ffi::read_response(reply),
        Form::Ex => ffi::read_ex(reply, version),
    };
    Refusal::of(number)?;
    let fields = match form {
        Form::Nt40 => Fields::Nt40(nt40_fields(&members)),
        Form::Response => Fields::Response(response_fields(&members)),
        Form::Ex => Fields::Ex(ex_fields(&members)),
    };
    Ok(Reading { length: members.length, fields })
}

/// A text that every reply of the form has.
fn text_of(members: ffi::Stretch) -> Stretch {
    stretch_of(members).expect("the form has this text")
}

fn present_name(members: ffi::Name) -> Option<Name> {
    match members.present {
        0 => None,
        _ => Some(Name { start: members.start, length: members.length, pointers: members.pointers }),
    }
}

/// A name that every reply of the form has.
fn name_of(members: ffi::Name) -> Name {
    present_name(members).expect("the form has this name")
}

/// Octets that start at an offset, where they are present.
fn octets_at(present: usize, start: usize, length: usize) -> Option<Stretch> {
    (present != 0).then_some(Stretch { start, length })
}

fn guid_of(members: &ffi::Reading) -> Stretch {
    octets_at(members.has_guid, members.guid, 16).expect("the form has a GUID")
}

fn address_of(members: &ffi::Reading) -> Option<Stretch> {
    octets_at(members.has_address, members.address, 4)
}

fn nt40_fields(members: &ffi::Reading) -> Nt40Fields {
    Nt40Fields {
        opcode: members.opcode as u16,
        server: text_of(members.server),
        user: text_of(members.user),
        domain: text_of(members.domain),
        version: members.version as u32,
    }
}

fn response_fields(members: &ffi::Reading) -> ResponseFields {
    ResponseFields {
        opcode: members.opcode as u16,
        server: text_of(members.server),
        user: text_of(members.user),
        domain: text_of(members.domain),
        guid: guid_of(members),
        forest: name_of(members.names[0]),
        context: name_of(members.names[1]),
        host: name_of(members.names[2]),
        address: address_of(members).expect("the form has an address"),
        flags: members.flags as u32,
        version: members.version as u32,
    }
}

fn ex_fields(members: &ffi::Reading) -> ExFields {
    ExFields {
        opcode: members.opcode as u16,
        flags: members.flags as u32,
        guid: guid_of(members),
        forest: name_of(members.names[0]),
        context: name_of(members.names[1]),
        host: name_of(members.names[2]),
        context_netbios: name_of(members.names[3]),
        server_netbios: name_of(members.names[4]),
        user: name_of(members.names[5]),
        own_site: name_of(members.names[6]),
        client_site: name_of(members.names[7]),
        address: address_of(members),
        next_site: present_name(members.names[8]),
        version: members.version as u32,
    }
}
