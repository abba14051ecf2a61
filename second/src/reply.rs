//! The answering call and the octets of the three reply forms (document 01, "Reply octets").

use crate::answers::Refusal;
use crate::choose::{choose, Choice, ClientAddress, Form};
use crate::filter::{judge_values, take_apart, Clauses};
use crate::octets::utf16_octets;
use crate::table::{read_table, ContextNumber, Table};

/// The versions that end a reply, by its form.
const VERSION_OF_NT40: u32 = 1;
const VERSION_OF_RESPONSE: u32 = 3;
const VERSION_OF_EX: u32 = 5;
const VERSION_WITH_NAME_8: u32 = 0x15;
/// Size octet, address family and port before the server's address, and the zeros after it.
const ADDRESS_SIZE: [u8; 1] = [0x10];
const ADDRESS_FAMILY: [u8; 4] = [0x02, 0x00, 0x00, 0x00];
const ADDRESS_PADDING: [u8; 8] = [0; 8];
const NULL_GUID: [u8; 16] = [0; 16];
const TOKEN: [u8; 2] = [0xFF, 0xFF];

/// What the answering call returns where it answered.
#[derive(Debug, PartialEq, Eq)]
pub struct Answer {
    pub length: usize,
    pub context: ContextNumber,
    pub form: Form,
}

/// Answers one ping into the lent buffer. A refusal leaves the buffer as it was.
pub fn answer_ping(image: &[u8], client: ClientAddress, filter: &[u8], buffer: &mut [u8]) -> Result<Answer, Refusal> {
    answer_over(&read_table(image)?, client, filter, buffer)
}

/// The same over a table that was read before.
pub fn answer_over(table: &Table, client: ClientAddress, filter: &[u8], buffer: &mut [u8]) -> Result<Answer, Refusal> {
    let clauses = take_apart(filter)?;
    let version = judge_values(&clauses)?;
    answer_clauses(table, client, &clauses, version, buffer)
}

/// Answers clauses whose values were judged, be they of a filter or of a mailslot message.
pub fn answer_clauses(
    table: &Table,
    client: ClientAddress,
    clauses: &Clauses,
    version: u32,
    buffer: &mut [u8],
) -> Result<Answer, Refusal> {
    let choice = choose(table, client, clauses, version)?;
    let reply = reply_octets(table, &choice);
    // The length is known before the first octet goes into the buffer, so that 19 writes nothing.
    let place = buffer.get_mut(..reply.len()).ok_or(Refusal::BufferTooShort)?;
    place.copy_from_slice(&reply);
    Ok(Answer { length: reply.len(), context: choice.context.number, form: choice.form })
}

fn reply_octets(table: &Table, choice: &Choice) -> Vec<u8> {
    let mut writer = Writer::default();
    writer.octets(&choice.opcode.to_le_bytes());
    let version = match choice.form {
        Form::Nt40 => write_nt40(&mut writer, table, choice),
        Form::Response => write_response(&mut writer, table, choice),
        Form::Ex => write_ex(&mut writer, table, choice),
    };
    writer.octets(&version.to_le_bytes());
    writer.octets(&TOKEN);
    writer.octets(&TOKEN);
    writer.written
}

fn write_nt40(writer: &mut Writer, table: &Table, choice: &Choice) -> u32 {
    writer.text16(Some(table.server.netbios_name));
    writer.text16(choice.user);
    writer.text16(Some(choice.context.netbios_name));
    VERSION_OF_NT40
}

fn write_response<'a>(writer: &mut Writer<'a>, table: &Table<'a>, choice: &Choice<'a>) -> u32 {
    writer.text16(Some(table.server.netbios_name));
    writer.text16(choice.user);
    writer.text16(Some(choice.context.netbios_name));
    writer.octets(choice.context.guid);
    writer.octets(&NULL_GUID);
    writer.name(Some(table.forest_name));
    writer.name(Some(choice.context.dns_name));
    writer.name(Some(table.server.host_name));
    writer.octets(table.server.address);
    writer.octets(&choice.flags.to_le_bytes());
    VERSION_OF_RESPONSE
}

fn write_ex<'a>(writer: &mut Writer<'a>, table: &Table<'a>, choice: &Choice<'a>) -> u32 {
    writer.octets(&[0, 0]);
    writer.octets(&choice.flags.to_le_bytes());
    writer.octets(choice.context.guid);
    let names = [
        Some(table.forest_name),
        Some(choice.context.dns_name),
        Some(table.server.host_name),
        Some(choice.context.netbios_name),
        Some(table.server.netbios_name),
        choice.user,
        Some(table.own_site.name),
        choice.client_site.map(|site| site.name),
    ];
    for text in names {
        writer.name(text);
    }
    if choice.with_address {
        writer.octets(&ADDRESS_SIZE);
        writer.octets(&ADDRESS_FAMILY);
        writer.octets(table.server.address);
        writer.octets(&ADDRESS_PADDING);
    }
    match choice.next_closest_site {
        Some(site) => {
            writer.name(Some(site.name));
            VERSION_WITH_NAME_8
        }
        None => VERSION_OF_EX,
    }
}

/// A tail of a name, and the offset of the label that it starts with.
struct Tail<'a> {
    offset: usize,
    text: &'a [u8],
}

#[derive(Default)]
struct Writer<'a> {
    written: Vec<u8>,
    /// The tails at all labels written literally in the names before the one at hand.
    tails: Vec<Tail<'a>>,
}

impl<'a> Writer<'a> {
    fn octets(&mut self, octets: &[u8]) {
        self.written.extend_from_slice(octets);
    }

    /// A text of UTF-16LE units and a zero unit. Every text that comes here was judged to be UTF-8 before.
    fn text16(&mut self, text: Option<&[u8]>) {
        let units = utf16_octets(text.unwrap_or_default()).unwrap_or_default();
        self.octets(&units);
        self.octets(&[0, 0]);
    }

    /// A name: labels, and a zero octet or a pointer to the lowest place where the rest already stands.
    fn name(&mut self, text: Option<&'a [u8]>) {
        let mut rest = text.unwrap_or_default();
        let mut own_tails = Vec::new();
        while !rest.is_empty() {
            if let Some(offset) = self.offset_of_tail(rest) {
                self.pointer(offset);
                break;
            }
            own_tails.push(Tail { offset: self.written.len(), text: rest });
            rest = self.label(rest);
        }
        if rest.is_empty() {
            self.octets(&[0]);
        }
        self.tails.extend(own_tails);
    }

    fn offset_of_tail(&self, text: &[u8]) -> Option<usize> {
        self.tails.iter().filter(|tail| tail.text == text).map(|tail| tail.offset).min()
    }

    /// Writes the part before the first dot and gives back the part after it. Labels have at most 63 octets.
    fn label(&mut self, text: &'a [u8]) -> &'a [u8] {
        let mut parts = text.splitn(2, |&octet| octet == b'.');
        let label = parts.next().unwrap_or_default();
        self.octets(&[label.len() as u8]);
        self.octets(label);
        parts.next().unwrap_or_default()
    }

    /// A pointer's two octets. A reply has fewer than 16,384 octets, so that every offset fits its 14 bits.
    fn pointer(&mut self, offset: usize) {
        self.octets(&[0xC0 | (offset >> 8) as u8, offset as u8]);
    }
}
