//! Builds table images, good and bad, for the generator and the tests. The table reader does not use it.

use crate::table::{block_check, BLOCK_LENGTH, CHECKED_LENGTH};

/// An image in the making: blocks whose checks are put in last.
#[derive(Clone)]
pub struct Image {
    pub blocks: Vec<[u8; BLOCK_LENGTH]>,
}

/// What a server block holds; the default is document 01's base table.
#[derive(Clone, Copy)]
pub struct ServerBlock<'a> {
    pub roles: u32,
    pub state: u32,
    pub address: [u8; 4],
    pub own_site: u16,
    pub default_context: u16,
    pub netbios_name: &'a [u8],
    pub host_name: &'a [u8],
}

impl Default for ServerBlock<'_> {
    fn default() -> Self {
        ServerBlock {
            roles: 0,
            state: 6,
            address: [0; 4],
            own_site: 1,
            default_context: 1,
            netbios_name: b"DC1",
            host_name: b"dc1.corp.example",
        }
    }
}

/// What a context block holds; the default is the base table's context.
#[derive(Clone, Copy)]
pub struct ContextBlock<'a> {
    pub number: u16,
    pub application: u8,
    pub guid: [u8; 16],
    pub sid: Option<&'a [u8]>,
    pub netbios_name: &'a [u8],
    pub dns_name: &'a [u8],
}

impl Default for ContextBlock<'_> {
    fn default() -> Self {
        ContextBlock {
            number: 1,
            application: 0,
            guid: guid(1),
            sid: None,
            netbios_name: b"CORP",
            dns_name: b"corp.example",
        }
    }
}

/// A GUID whose octets count up from its first one.
pub fn guid(first: u8) -> [u8; 16] {
    std::array::from_fn(|place| first.wrapping_add(place as u8))
}

/// One record of a block of kind 4, 5 or 6.
#[derive(Clone)]
pub struct Record {
    octets: Vec<u8>,
}

impl Record {
    pub fn account(context: u16, control: u32, name: &[u8]) -> Record {
        let mut octets = vec![0; 84];
        put(&mut octets, 0, &context.to_le_bytes());
        put(&mut octets, 4, &control.to_le_bytes());
        put_text(&mut octets, 8, name);
        Record { octets }
    }

    pub fn site(number: u16, name: &[u8], next_closest: u16) -> Record {
        let mut octets = vec![0; 72];
        put(&mut octets, 0, &number.to_le_bytes());
        put_text(&mut octets, 2, name);
        put(&mut octets, 66, &next_closest.to_le_bytes());
        Record { octets }
    }

    pub fn subnet(address: [u8; 4], prefix: u8, in_use: u8, site: u16) -> Record {
        let mut octets = vec![0; 12];
        put(&mut octets, 0, &address);
        put(&mut octets, 4, &[prefix, in_use]);
        put(&mut octets, 6, &site.to_le_bytes());
        Record { octets }
    }

    pub fn unused(length: usize) -> Record {
        Record { octets: vec![0; length] }
    }
}

/// Puts octets at a place; what would lie past the end is left out.
fn put(octets: &mut [u8], at: usize, source: &[u8]) {
    for (place, octet) in octets.iter_mut().skip(at).zip(source) {
        *place = *octet;
    }
}

fn put_text(octets: &mut [u8], at: usize, text: &[u8]) {
    put(octets, at, &[text.len() as u8]);
    put(octets, at + 1, text);
}

/// Makes the check of every whole block anew.
pub fn put_checks(image: &mut [u8]) {
    for block in image.chunks_exact_mut(BLOCK_LENGTH) {
        let (a, b) = block_check(&block[..CHECKED_LENGTH]);
        put(block, CHECKED_LENGTH, &a.to_le_bytes());
        put(block, CHECKED_LENGTH + 2, &b.to_le_bytes());
    }
}

impl Image {
    /// An image with a server and a forest block and nothing else.
    pub fn with_server(server: &ServerBlock, forest_name: &[u8]) -> Image {
        let mut image = Image { blocks: Vec::new() };
        let mut body = vec![0; 504];
        put(&mut body, 0, &server.roles.to_le_bytes());
        put(&mut body, 4, &server.state.to_le_bytes());
        put(&mut body, 8, &server.address);
        put(&mut body, 12, &server.own_site.to_le_bytes());
        put(&mut body, 14, &server.default_context.to_le_bytes());
        put_text(&mut body, 16, server.netbios_name);
        put_text(&mut body, 32, server.host_name);
        image.push(1, &body);
        let mut body = vec![0; 504];
        put_text(&mut body, 0, forest_name);
        image.push(2, &body);
        image
    }

    /// The smallest table that is accepted: this server, and forest, context and site of the base table.
    pub fn small(server: &ServerBlock) -> Image {
        let mut image = Image::with_server(server, b"example");
        image.push_context(&ContextBlock::default());
        image.push_records(5, &[Record::site(1, b"HQ", 0)]);
        image
    }

    /// The base table of document 01, "Sample answers": server, forest, context, accounts, sites.
    pub fn base() -> Image {
        let mut image = Image::with_server(&ServerBlock::default(), b"example");
        image.push_context(&ContextBlock::default());
        image.push_records(4, &[Record::account(1, 0x10, b"ann")]);
        image.push_records(5, &[Record::site(1, b"HQ", 0)]);
        image
    }

    /// A block of any kind after those there, its body filled with zeros to the end.
    pub fn push(&mut self, kind: u8, body: &[u8]) {
        let mut block = [0; BLOCK_LENGTH];
        put(&mut block, 0, &[kind, 1]);
        put(&mut block, 2, &(self.blocks.len() as u16).to_le_bytes());
        put(&mut block, 4, body);
        self.blocks.push(block);
    }

    pub fn push_context(&mut self, context: &ContextBlock) {
        let mut body = vec![0; 504];
        put(&mut body, 0, &context.number.to_le_bytes());
        put(&mut body, 2, &[context.application, u8::from(context.sid.is_some())]);
        put(&mut body, 4, &context.guid);
        put(&mut body, 20, context.sid.unwrap_or_default());
        put_text(&mut body, 88, context.netbios_name);
        put_text(&mut body, 104, context.dns_name);
        self.push(3, &body);
    }

    pub fn push_records(&mut self, kind: u8, records: &[Record]) {
        let body: Vec<u8> = records.iter().flat_map(|record| record.octets.clone()).collect();
        self.push(kind, &body);
    }

    /// The first block of a kind with an unused record of a length, and that record's place among the block's records.
    pub fn free_place(&self, kind: u8, length: usize) -> Option<(usize, usize)> {
        let of_kind = self.blocks.iter().enumerate().filter(|(_, block)| block[0] == kind);
        let mut free = of_kind.filter_map(|(place, block)| {
            let mut records = block[4..CHECKED_LENGTH].chunks(length);
            records.position(|record| record.iter().all(|&octet| octet == 0)).map(|record| (place, record))
        });
        free.next()
    }

    pub fn set_record(&mut self, block: usize, place: usize, record: &Record) {
        self.set_all(block, place * record.octets.len(), &record.octets);
    }

    /// Sets one octet of a block's body.
    pub fn set(&mut self, block: usize, at: usize, octet: u8) {
        self.set_all(block, at, &[octet]);
    }

    pub fn set_all(&mut self, block: usize, at: usize, octets: &[u8]) {
        if let Some(block) = self.blocks.get_mut(block) {
            put(block, at + 4, octets);
        }
    }

    /// Sets a text with its length octet; its room is cleared first, and holds no more of it than fits.
    pub fn set_text(&mut self, block: usize, at: usize, room: usize, text: &[u8]) {
        self.set_all(block, at + 1, &vec![0; room]);
        self.set(block, at, text.len() as u8);
        self.set_all(block, at + 1, &text[..text.len().min(room)]);
    }

    /// Sets one octet of a block, counted from its own start.
    pub fn set_header(&mut self, block: usize, at: usize, octet: u8) {
        if let Some(block) = self.blocks.get_mut(block) {
            put(block, at, &[octet]);
        }
    }

    /// The image without one block, those after it moved up to their new places.
    pub fn without_block(&self, left_out: usize) -> Image {
        let mut image = Image { blocks: Vec::new() };
        for (place, block) in self.blocks.iter().enumerate() {
            if place != left_out {
                image.push(block[0], &block[4..CHECKED_LENGTH]);
            }
        }
        image
    }

    /// All blocks with their checks made.
    pub fn octets(&self) -> Vec<u8> {
        let mut octets = self.blocks.concat();
        put_checks(&mut octets);
        octets
    }
}
