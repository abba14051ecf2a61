//! Subnets for the lines of #102, and the smallest table that holds them.

use crate::image::{ContextBlock, Image, Record, ServerBlock};

/// How many subnets a block holds, and how many a table can: its other four blocks are server, forest, context and site.
pub const PER_BLOCK: usize = 42;
pub const MOST: usize = 124 * PER_BLOCK;

#[derive(Clone, Copy, PartialEq, Eq)]
pub struct Net {
    pub address: u32,
    pub prefix: u8,
    pub site: u16,
}

impl Net {
    /// The subnet of this prefix that an address lies in.
    pub fn around(address: u32, prefix: u8, site: u16) -> Net {
        let mask = u32::MAX.checked_shl(32 - u32::from(prefix)).unwrap_or(0);
        Net { address: address & mask, prefix, site }
    }

    pub fn of_site(self, site: u16) -> Net {
        Net { site, ..self }
    }

    pub fn last_address(self) -> u32 {
        self.address | u32::MAX.checked_shr(u32::from(self.prefix)).unwrap_or(0)
    }

    pub fn record(self) -> Record {
        Record::subnet(self.address.to_be_bytes(), self.prefix, 1, self.site)
    }
}

/// A table with so many sites and no subnets, its names as short as can be, so that many replies take little room.
pub fn small_table(sites: u16) -> Image {
    let server = ServerBlock {
        roles: 0x800,
        own_site: sites.min(3),
        netbios_name: b"e",
        host_name: b"e",
        ..ServerBlock::default()
    };
    let mut image = Image::with_server(&server, b"e");
    image.push_context(&ContextBlock { netbios_name: b"e", dns_name: b"e", ..ContextBlock::default() });
    // Every other site has a next one, so that name 8 tells sites apart too.
    let next_closest = |number: u16| if number % 2 == 1 && sites > 1 { number % sites + 1 } else { 0 };
    let record = |number: u16| Record::site(number, &[b'a' + number as u8 - 1], next_closest(number));
    let records: Vec<Record> = (1..=sites).map(record).collect();
    image.push_records(5, &records);
    image
}

/// The same with these subnets, each block filled before the next one.
pub fn with_nets(sites: u16, nets: &[Net]) -> Image {
    let mut image = small_table(sites);
    for block in nets.chunks(PER_BLOCK) {
        let records: Vec<Record> = block.iter().map(|net| net.record()).collect();
        image.push_records(6, &records);
    }
    image
}

/// As many subnets as a table can hold, nine around one address of each of 579 /24s, in mixed order.
pub fn full_table() -> Vec<Net> {
    let nets = (0..MOST as u32).map(|place| {
        let group = place / 9 * 211 % 579;
        let inside = 0x0A00_0000 | group << 8 | (group * 37) & 0xFF;
        Net::around(inside, 24 + (place * 5 % 9) as u8, (place % 8) as u16)
    });
    nets.collect()
}
