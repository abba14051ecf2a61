//! The reader of replies (document 01, "Reading a reply"). It goes from the first octet to the last and refuses at
//! the first one that fits no rule. It shares no constant with the writer, so that a mistake in either shows.

use std::ops::RangeInclusive;

use crate::choose::Form;
use crate::octets::{u16_at, u16_big_endian_at, u32_at};

const OPCODES: RangeInclusive<u16> = 19..=21;
const OPCODES_EX: RangeInclusive<u16> = 23..=25;

const VERSION_NT40: u32 = 1;
const VERSION_RESPONSE: u32 = 3;
const VERSION_EX: u32 = 5;
const VERSION_EX_NAME_8: u32 = 0x15;
/// The version and the two tokens after it, counted from a reply's end.
const END_LENGTH: usize = 8;
const TOKEN: &[u8] = &[0xFF, 0xFF];

/// Bits of v: an EX reply to it has the server's address, and may have name 8.
const ASKS_ADDRESS: u32 = 0x8;
const ASKS_NAME_8: u32 = 0x10;

const GUID_LENGTH: usize = 16;
const NULL_GUID: &[u8] = &[0; GUID_LENGTH];
/// EX's second number.
const SECOND_NUMBER: &[u8] = &[0, 0];
const ADDRESS_SIZE: &[u8] = &[0x10];
const ADDRESS_FAMILY: &[u8] = &[0x02, 0, 0, 0];
const ADDRESS_LENGTH: usize = 4;
const ADDRESS_END: &[u8] = &[0; 8];

const HIGH_SURROGATES: RangeInclusive<u16> = 0xD800..=0xDBFF;
const LOW_SURROGATES: RangeInclusive<u16> = 0xDC00..=0xDFFF;

const TOP_BITS: u8 = 0b1100_0000;
const TOP_OF_LABEL: u8 = 0b0000_0000;
const TOP_OF_POINTER: u8 = 0b1100_0000;
const AIM_BITS: u16 = 0x3FFF;
/// Of a name written out, its final zero counted.
const LONGEST_NAME: usize = 255;
const MOST_POINTERS: usize = 16;

#[derive(Clone, Copy, Debug, PartialEq, Eq)]
pub enum ReadRefusal {
    CutShort,
    Opcode,
    BrokenText,
    FixedField,
    LeftOver,
}

impl ReadRefusal {
    /// Document 01's number for this case.
    pub fn number(self) -> u8 {
        match self {
            ReadRefusal::CutShort => 31,
            ReadRefusal::Opcode => 32,
            ReadRefusal::BrokenText => 33,
            ReadRefusal::FixedField => 34,
            ReadRefusal::LeftOver => 35,
        }
    }
}

#[derive(Debug, Default, PartialEq, Eq)]
pub struct Name<'a> {
    pub labels: Vec<&'a [u8]>,
    pub pointers: usize,
}

impl Name<'_> {
    /// The labels joined by dots.
    pub fn text(&self) -> Vec<u8> {
        self.labels.join(&b'.')
    }
}

/// A reply's fields, by its form.
#[derive(Debug, PartialEq, Eq)]
pub enum Fields<'a> {
    Nt40 { texts: [&'a [u8]; 3] },
    Response { texts: [&'a [u8]; 3], guid: &'a [u8], names: [Name<'a>; 3], address: &'a [u8], flags: u32 },
    Ex { flags: u32, guid: &'a [u8], names: [Name<'a>; 8], address: Option<&'a [u8]>, name_8: Option<Name<'a>> },
}

#[derive(Debug, PartialEq, Eq)]
pub struct Reply<'a> {
    pub opcode: u16,
    pub fields: Fields<'a>,
    pub version: u32,
}

/// Reads a whole reply of the form told, asked for with the version bits told.
pub fn read_reply(form: Form, version_asked: u32, octets: &[u8]) -> Result<Reply<'_>, ReadRefusal> {
    let mut reader = Reader { octets, at: 0 };
    let opcode = reader.opcode(form)?;
    let fields = match form {
        Form::Nt40 => Fields::Nt40 { texts: reader.three_texts()? },
        Form::Response => reader.response_fields()?,
        Form::Ex => reader.ex_fields(version_asked)?,
    };
    let version = reader.version(&fields, version_asked)?;
    reader.fixed(TOKEN)?;
    reader.fixed(TOKEN)?;
    if reader.at == octets.len() {
        Ok(Reply { opcode, fields, version })
    } else {
        Err(ReadRefusal::LeftOver)
    }
}

/// One step along a name.
enum Step<'a> {
    End,
    Label(&'a [u8]),
    Pointer(usize),
}

struct Reader<'a> {
    octets: &'a [u8],
    at: usize,
}

impl<'a> Reader<'a> {
    /// The next octets, all of them or 31.
    fn take(&mut self, count: usize) -> Result<&'a [u8], ReadRefusal> {
        let taken = self.octets.get(self.at..self.at + count).ok_or(ReadRefusal::CutShort)?;
        self.at += count;
        Ok(taken)
    }

    fn number_u16(&mut self) -> Result<u16, ReadRefusal> {
        u16_at(self.take(2)?, 0).ok_or(ReadRefusal::CutShort)
    }

    fn number_u32(&mut self) -> Result<u32, ReadRefusal> {
        u32_at(self.take(4)?, 0).ok_or(ReadRefusal::CutShort)
    }

    /// A field that must hold these octets: 31 where it is not all there, else 34 where it differs.
    fn fixed(&mut self, expected: &[u8]) -> Result<(), ReadRefusal> {
        if self.take(expected.len())? == expected {
            Ok(())
        } else {
            Err(ReadRefusal::FixedField)
        }
    }

    fn opcode(&mut self, form: Form) -> Result<u16, ReadRefusal> {
        let opcode = self.number_u16()?;
        let opcodes = match form {
            Form::Nt40 | Form::Response => OPCODES,
            Form::Ex => OPCODES_EX,
        };
        if opcodes.contains(&opcode) {
            Ok(opcode)
        } else {
            Err(ReadRefusal::Opcode)
        }
    }

    fn three_texts(&mut self) -> Result<[&'a [u8]; 3], ReadRefusal> {
        Ok([self.text16()?, self.text16()?, self.text16()?])
    }

    fn response_fields(&mut self) -> Result<Fields<'a>, ReadRefusal> {
        let texts = self.three_texts()?;
        let guid = self.take(GUID_LENGTH)?;
        self.fixed(NULL_GUID)?;
        let names = [self.name()?, self.name()?, self.name()?];
        Ok(Fields::Response { texts, guid, names, address: self.take(ADDRESS_LENGTH)?, flags: self.number_u32()? })
    }

    fn ex_fields(&mut self, version_asked: u32) -> Result<Fields<'a>, ReadRefusal> {
        self.fixed(SECOND_NUMBER)?;
        let flags = self.number_u32()?;
        let guid = self.take(GUID_LENGTH)?;
        let names = [
            self.name()?,
            self.name()?,
            self.name()?,
            self.name()?,
            self.name()?,
            self.name()?,
            self.name()?,
            self.name()?,
        ];
        let address = if version_asked & ASKS_ADDRESS != 0 { Some(self.server_address()?) } else { None };
        let name_8 = if self.has_name_8() { Some(self.name()?) } else { None };
        Ok(Fields::Ex { flags, guid, names, address, name_8 })
    }

    fn server_address(&mut self) -> Result<&'a [u8], ReadRefusal> {
        self.fixed(ADDRESS_SIZE)?;
        self.fixed(ADDRESS_FAMILY)?;
        let address = self.take(ADDRESS_LENGTH)?;
        self.fixed(ADDRESS_END)?;
        Ok(address)
    }

    /// Name 8 shows itself by the version eight octets from the end alone.
    fn has_name_8(&self) -> bool {
        let version_at = self.octets.len().checked_sub(END_LENGTH);
        version_at.and_then(|at| u32_at(self.octets, at)) == Some(VERSION_EX_NAME_8)
    }

    fn version(&mut self, fields: &Fields, version_asked: u32) -> Result<u32, ReadRefusal> {
        let (expected, may_stand) = match fields {
            Fields::Nt40 { .. } => (VERSION_NT40, true),
            Fields::Response { .. } => (VERSION_RESPONSE, true),
            Fields::Ex { name_8: None, .. } => (VERSION_EX, true),
            Fields::Ex { name_8: Some(_), .. } => (VERSION_EX_NAME_8, version_asked & ASKS_NAME_8 != 0),
        };
        let version = self.number_u32()?;
        if version == expected && may_stand {
            Ok(version)
        } else {
            Err(ReadRefusal::FixedField)
        }
    }

    /// A UTF-16 text up to its zero unit. A high surrogate is judged at the unit after it.
    fn text16(&mut self) -> Result<&'a [u8], ReadRefusal> {
        let start = self.at;
        let mut after_high = false;
        loop {
            let unit = self.number_u16()?;
            if LOW_SURROGATES.contains(&unit) != after_high {
                return Err(ReadRefusal::BrokenText);
            }
            if unit == 0 {
                return Ok(self.octets.get(start..self.at - 2).unwrap_or_default());
            }
            after_high = HIGH_SURROGATES.contains(&unit);
        }
    }

    /// A name. Its field ends with the first zero octet or pointer; any fault after a pointer is 33.
    fn name(&mut self) -> Result<Name<'a>, ReadRefusal> {
        let mut name = Name::default();
        let mut offset = self.at;
        let mut run_start = self.at;
        let mut field_end = None;
        loop {
            let fault_here = |fault| {
                if name.pointers == 0 {
                    fault
                } else {
                    ReadRefusal::BrokenText
                }
            };
            match step_at(self.octets, offset, run_start, &name).map_err(fault_here)? {
                Step::End => {
                    self.at = field_end.unwrap_or(offset + 1);
                    return Ok(name);
                }
                Step::Label(label) => {
                    offset += 1 + label.len();
                    name.labels.push(label);
                }
                Step::Pointer(aim) => {
                    field_end = field_end.or(Some(offset + 2));
                    name.pointers += 1;
                    run_start = aim;
                    offset = aim;
                }
            }
        }
    }
}

/// One step along a name, by the top two bits of the octet there.
fn step_at<'a>(octets: &'a [u8], offset: usize, run_start: usize, name: &Name) -> Result<Step<'a>, ReadRefusal> {
    let first = *octets.get(offset).ok_or(ReadRefusal::CutShort)?;
    match first & TOP_BITS {
        TOP_OF_LABEL if first == 0 => Ok(Step::End),
        TOP_OF_LABEL => label_at(octets, offset, usize::from(first), name),
        TOP_OF_POINTER => pointer_at(octets, offset, run_start, name),
        _ => Err(ReadRefusal::BrokenText),
    }
}

/// A label. Too long a name is judged at the length octet, so before the label is known to be all there.
fn label_at<'a>(octets: &'a [u8], offset: usize, length: usize, name: &Name) -> Result<Step<'a>, ReadRefusal> {
    let written_out: usize = name.labels.iter().map(|label| 1 + label.len()).sum();
    if written_out + 1 + length + 1 > LONGEST_NAME {
        return Err(ReadRefusal::BrokenText);
    }
    let label = octets.get(offset + 1..offset + 1 + length);
    label.map(Step::Label).ok_or(ReadRefusal::CutShort)
}

fn pointer_at<'a>(octets: &[u8], offset: usize, run_start: usize, name: &Name) -> Result<Step<'a>, ReadRefusal> {
    let pointer = u16_big_endian_at(octets, offset).ok_or(ReadRefusal::CutShort)?;
    let aim = usize::from(pointer & AIM_BITS);
    if aim < run_start && name.pointers < MOST_POINTERS {
        Ok(Step::Pointer(aim))
    } else {
        Err(ReadRefusal::BrokenText)
    }
}
