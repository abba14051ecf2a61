//! Table images: blocks, their checks, and judgement 1 to 4 (document 01, "The table image" and "Answer numbers").

use crate::layout::{read_record, record_octets};
use crate::rules::judge_record;
use crate::table::{Block, Entry, Fault, Kind, Place, Table, BODY_LENGTH, MOST_BLOCKS};
use crate::whole::judge_whole;
use std::fmt;

const BLOCK_LENGTH: usize = 512;
const HEADER_LENGTH: usize = 4;
const CHECKED_LENGTH: usize = HEADER_LENGTH + BODY_LENGTH;
const FEWEST_BLOCKS: usize = 2;
const VERSION: u8 = 1;

/// An image that is not accepted: document 01's number and the first rule that fails.
#[derive(Clone, Debug, PartialEq, Eq)]
pub struct Refusal {
    pub number: u8,
    fault: Fault,
}

impl fmt::Display for Refusal {
    fn fmt(&self, formatter: &mut fmt::Formatter) -> fmt::Result {
        write!(formatter, "refused with {}: {}", self.number, self.fault)
    }
}

/// The image of a table whose records judge_record accepts.
pub fn write_image(table: &Table) -> Vec<u8> {
    table.blocks.iter().enumerate().flat_map(|(place, block)| block_octets(place, block)).collect()
}

fn block_octets(place: usize, block: &Block) -> Vec<u8> {
    let mut octets = vec![block.kind.octet(), VERSION];
    octets.extend_from_slice(&(place as u16).to_le_bytes());
    for slot in &block.slots {
        match slot {
            Some(entry) => octets.extend(record_octets(&entry.record)),
            None => octets.resize(octets.len() + block.kind.record_length(), 0),
        }
    }
    octets.resize(CHECKED_LENGTH, 0);
    octets.extend_from_slice(&block_check(&octets));
    octets
}

/// The four octets that guard those before them; u16 sums are taken modulo 65,536.
pub fn block_check(octets: &[u8]) -> [u8; 4] {
    let (mut a, mut b) = (1u16, 0u16);
    for octet in octets {
        a = a.wrapping_add(u16::from(*octet));
        b = b.wrapping_add(a);
    }
    let ([a0, a1], [b0, b1]) = (a.to_le_bytes(), b.to_le_bytes());
    [a0, a1, b0, b1]
}

/// The table that an accepted image holds. 1, 2, 3 and 4 are each judged over the whole image.
pub fn read_image(image: &[u8]) -> Result<Table, Refusal> {
    let refuse = |number| move |fault| Refusal { number, fault };
    judge_length(image).map_err(refuse(1))?;
    let octets: Vec<&[u8]> = image.chunks(BLOCK_LENGTH).collect();
    judge_checks(&octets).map_err(refuse(2))?;
    let blocks = octets.iter().enumerate().map(|(place, block)| read_block(place, block));
    let blocks = blocks.collect::<Result<Vec<Block>, Fault>>().map_err(refuse(3))?;
    let table = Table { blocks, end: Place::Image };
    judge_whole(&table).map_err(refuse(4))?;
    Ok(table)
}

fn judge_length(image: &[u8]) -> Result<(), Fault> {
    let length = image.len();
    let whole_blocks = length.is_multiple_of(BLOCK_LENGTH);
    match whole_blocks && (FEWEST_BLOCKS..=MOST_BLOCKS).contains(&(length / BLOCK_LENGTH)) {
        true => Ok(()),
        false => Err(Fault::new(Place::Image, format!("{length} octets; expected 2 to 128 blocks of 512"))),
    }
}

fn judge_checks(blocks: &[&[u8]]) -> Result<(), Fault> {
    for (place, block) in blocks.iter().enumerate() {
        let (checked, stored) = block.split_at(CHECKED_LENGTH);
        let check = block_check(checked);
        if check != stored {
            let message = format!("check {}; expected {}", hex(stored), hex(&check));
            return Err(Fault::new(Place::Block(place), message));
        }
    }
    Ok(())
}

fn hex(octets: &[u8]) -> String {
    octets.iter().map(|octet| format!("{octet:02x}")).collect()
}

fn read_block(place: usize, octets: &[u8]) -> Result<Block, Fault> {
    let kind = read_header(place, octets).map_err(|message| Fault::new(Place::Block(place), message))?;
    let records = octets[HEADER_LENGTH..CHECKED_LENGTH].chunks(kind.record_length()).enumerate();
    let slots = records.map(|(slot, octets)| read_slot(kind, place_of(kind, place, slot), octets));
    Ok(Block { kind, slots: slots.collect::<Result<Vec<Option<Entry>>, Fault>>()? })
}

fn read_header(place: usize, octets: &[u8]) -> Result<Kind, String> {
    let kind = Kind::from_octet(octets[0]).ok_or_else(|| format!("kind {}; expected 1 to 6", octets[0]))?;
    let alone = [(0, Kind::Server), (1, Kind::Forest)];
    if alone.iter().any(|(at, only)| (place == *at) != (kind == *only)) {
        return Err(format!("kind {}; expected 1 at block 0, 2 at block 1, 3 to 6 after them", octets[0]));
    }
    if octets[1] != VERSION {
        return Err(format!("version {}; expected {VERSION}", octets[1]));
    }
    let own = usize::from(u16::from_le_bytes([octets[2], octets[3]]));
    match own == place {
        true => Ok(kind),
        false => Err(format!("own place {own}; expected {place}")),
    }
}

fn place_of(kind: Kind, block: usize, slot: usize) -> Place {
    match kind.capacity() {
        1 => Place::Block(block),
        _ => Place::Record { block, slot },
    }
}

/// A record of zeros is unused where a block has several; of the others zeros are refused by their own rules.
fn read_slot(kind: Kind, place: Place, octets: &[u8]) -> Result<Option<Entry>, Fault> {
    if kind.capacity() > 1 && octets.iter().all(|octet| *octet == 0) {
        return Ok(None);
    }
    let fault = |message| Fault::new(place, message);
    let record = read_record(kind, octets).map_err(fault)?;
    judge_record(&record).map_err(fault)?;
    match record_octets(&record).iter().zip(octets).position(|(named, found)| named != found) {
        None => Ok(Some(Entry { place, record })),
        Some(at) => Err(fault(format!("octet {at} of the record is {}; expected 0", octets[at]))),
    }
}
