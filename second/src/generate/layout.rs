//! Tables that break, or only just keep, each rule on the layout of a block.
//!
//! Most have two or three blocks. With a good layout they give 4, for want of a context or a site, so that 3 and 4
//! tell a broken rule from a kept one.

use super::chance::Chance;
use super::requests::Requests;
use super::texts::{bad_account_names, dns_texts, good_account_texts, label_texts, more_dns_texts, more_label_texts};
use crate::image::{ContextBlock, Image, Record, ServerBlock};

pub fn add_layouts(requests: &mut Requests, chance: &mut Chance) {
    add_second_blocks(requests);
    add_headers(requests);
    add_server(requests, chance);
    add_forest(requests, chance);
    add_context(requests, chance);
    add_sids(requests, chance);
    add_accounts(requests, chance);
    add_sites(requests, chance);
    add_subnets(requests, chance);
}

fn two_blocks() -> Image {
    Image::with_server(&ServerBlock::default(), b"example")
}

fn with_context() -> Image {
    let mut image = two_blocks();
    image.push_context(&ContextBlock::default());
    image
}

fn with_records(kind: u8, records: &[Record]) -> Image {
    let mut image = two_blocks();
    image.push_records(kind, records);
    image
}

/// The image after one octet of a body is set.
fn add_set(requests: &mut Requests, image: &Image, block: usize, at: usize, octet: u8) {
    let mut changed = image.clone();
    changed.set(block, at, octet);
    requests.table(&changed);
}

/// Each of these body octets set to something else than zero, one at a time.
fn add_not_zero(
    requests: &mut Requests,
    chance: &mut Chance,
    image: &Image,
    block: usize,
    places: impl Iterator<Item = usize>,
) {
    for at in places {
        add_set(requests, image, block, at, chance.octet_not_zero());
    }
}

fn add_texts(requests: &mut Requests, image: &Image, block: usize, at: usize, room: usize, texts: &[Vec<u8>]) {
    for text in texts {
        let mut changed = image.clone();
        changed.set_text(block, at, room, text);
        requests.table(&changed);
    }
}

fn add_second_blocks(requests: &mut Requests) {
    requests.note("a good server or forest block a second time, at another place");
    for (kind, copied) in [(1, 0), (2, 1)] {
        let mut image = two_blocks();
        let body = image.blocks[copied][4..508].to_vec();
        image.push(kind, &body);
        requests.table(&image);
    }
}

fn add_headers(requests: &mut Requests) {
    requests.note("kind, version and own place of each block");
    let headers: [(usize, &[u8]); 4] = [(0, &[0, 1, 2, 4, 7]), (1, &[0, 2]), (2, &[0, 1, 2, 3]), (3, &[1])];
    for (block, image) in [(0, two_blocks()), (1, two_blocks()), (2, with_context())] {
        for (at, octets) in headers {
            for &octet in octets.iter().filter(|octet| image.blocks[block][at] != **octet) {
                let mut changed = image.clone();
                changed.set_header(block, at, octet);
                requests.table(&changed);
            }
        }
    }
}

fn add_server(requests: &mut Requests, chance: &mut Chance) {
    requests.note("the server block");
    let image = two_blocks();
    add_not_zero(requests, chance, &image, 0, [20, 31, 49, 285, 286, 400, 503].into_iter());
    // The highest bits that have a meaning, and those around them.
    for bit in [11, 12, 13, 16, 23, 24, 31, 32 + 3, 32 + 4, 32 + 7, 32 + 8, 32 + 16, 32 + 31] {
        add_set(requests, &image, 0, bit / 8, 1 << (bit % 8));
    }
    add_set(requests, &image, 0, 12, 0);
    add_set(requests, &image, 0, 14, 0);
    add_set(requests, &image, 0, 13, 1);
    add_set(requests, &image, 0, 8, 255);
    add_texts(requests, &image, 0, 16, 15, &label_texts(15));
    add_texts(requests, &image, 0, 16, 15, &more_label_texts());
    add_texts(requests, &image, 0, 32, 253, &dns_texts());
    add_texts(requests, &image, 0, 32, 253, &more_dns_texts());
}

fn add_forest(requests: &mut Requests, chance: &mut Chance) {
    requests.note("the forest block");
    let image = two_blocks();
    add_not_zero(requests, chance, &image, 1, [8, 100, 253, 254, 400, 503].into_iter());
    add_texts(requests, &image, 1, 0, 253, &dns_texts());
}

fn add_context(requests: &mut Requests, chance: &mut Chance) {
    requests.note("a context block");
    let image = with_context();
    add_not_zero(requests, chance, &image, 2, [93, 103, 117, 357, 358, 431, 503].into_iter());
    add_set(requests, &image, 2, 0, 0);
    add_set(requests, &image, 2, 1, 1);
    for octet in [1, 2, 255] {
        add_set(requests, &image, 2, 2, octet);
        add_set(requests, &image, 2, 3, octet);
    }
    add_guids(requests, &image);
    add_texts(requests, &image, 2, 88, 15, &label_texts(15));
    add_texts(requests, &image, 2, 104, 253, &dns_texts());
    let mut application = image.clone();
    application.set(2, 2, 1);
    add_texts(requests, &application, 2, 88, 15, &[Vec::new(), b"A.".to_vec()]);
    application.set_text(2, 88, 15, b"");
    add_not_zero(requests, chance, &application, 2, [89, 103].into_iter());
}

fn add_guids(requests: &mut Requests, image: &Image) {
    let mut zeros = image.clone();
    zeros.set_all(2, 4, &[0; 16]);
    requests.table(&zeros);
    for at in [4, 19] {
        add_set(requests, &zeros, 2, at, 1);
    }
}

fn add_sids(requests: &mut Requests, chance: &mut Chance) {
    requests.note("a context's SID");
    let without = with_context();
    add_not_zero(requests, chance, &without, 2, [20, 28, 87].into_iter());
    for count in [0, 1, 14, 15, 16, 255] {
        let mut image = without.clone();
        image.set(2, 3, 1);
        image.set_all(2, 20, &[1, count]);
        image.set_all(2, 22, &chance.octets(if count <= 15 { 6 + 4 * usize::from(count) } else { 66 }));
        requests.table(&image);
        if count < 15 {
            add_set(requests, &image, 2, 28 + 4 * usize::from(count), chance.octet_not_zero());
        }
    }
    let mut image = without.clone();
    image.set(2, 3, 1);
    image.set_all(2, 20, &[1, 1, 0, 0, 0, 0, 0, 5, 21]);
    for (at, octet) in [(20, 0), (20, 2), (87, 1), (3, 0), (3, 2), (2, 1)] {
        add_set(requests, &image, 2, at, octet);
    }
}

fn account_block(place: usize) -> Image {
    let mut records = vec![Record::unused(84); 6];
    records[place] = Record::account(1, 0x10, b"ann");
    with_records(4, &records)
}

fn add_accounts(requests: &mut Requests, chance: &mut Chance) {
    requests.note("account records");
    add_texts(requests, &account_block(0), 2, 8, 63, &bad_account_names());
    for six in good_account_texts().chunks(6) {
        let records: Vec<Record> = six.iter().map(|text| Record::account(1, u32::MAX, text)).collect();
        requests.table(&with_records(4, &records));
    }
    for place in [0, 5] {
        let image = account_block(place);
        let start = 84 * place;
        add_not_zero(requests, chance, &image, 2, [2, 3, 12, 71, 72, 83].map(|at| start + at).into_iter());
        add_set(requests, &image, 2, start, 0);
        add_set(requests, &image, 2, start + 8, 2);
    }
    let empty = with_records(4, &[]);
    requests.table(&empty);
    add_not_zero(requests, chance, &empty, 2, [0, 2, 7, 8, 71, 83, 84, 503].into_iter());
}

fn site_block(place: usize) -> Image {
    let mut records = vec![Record::unused(72); 7];
    records[place] = Record::site(1, b"HQ", 0);
    with_records(5, &records)
}

fn add_sites(requests: &mut Requests, chance: &mut Chance) {
    requests.note("site records");
    add_texts(requests, &site_block(0), 2, 2, 63, &label_texts(63));
    for place in [0, 6] {
        let image = site_block(place);
        let start = 72 * place;
        add_not_zero(requests, chance, &image, 2, [5, 65, 68, 71].map(|at| start + at).into_iter());
        add_set(requests, &image, 2, start, 0);
        add_set(requests, &image, 2, start + 66, 1);
    }
    let empty = with_records(5, &[]);
    requests.table(&empty);
    add_not_zero(requests, chance, &empty, 2, [0, 2, 66, 71, 503].into_iter());
}

fn add_subnets(requests: &mut Requests, chance: &mut Chance) {
    requests.note("subnet records");
    let subnet = |address: u32, prefix: u8, in_use: u8| {
        with_records(6, &[Record::subnet(address.to_be_bytes(), prefix, in_use, 0)])
    };
    let prefixes = [0u8, 1, 7, 8, 9, 16, 23, 24, 30, 31];
    for prefix in prefixes {
        requests.table(&subnet(0x8000_0000 >> prefix, prefix, 1));
    }
    let mut kept = prefixes.map(|prefix| (0x8000_0000 >> prefix, prefix + 1)).to_vec();
    kept.extend([(u32::MAX, 32), (0, 0)]);
    let kept: Vec<Record> =
        kept.into_iter().map(|(address, prefix)| Record::subnet(address.to_be_bytes(), prefix, 1, 0)).collect();
    requests.table(&with_records(6, &kept));
    for prefix in [33, 64, 255] {
        requests.table(&subnet(0, prefix, 1));
    }
    for in_use in [0, 2, 255] {
        requests.table(&subnet(0x0A00_0000, 8, in_use));
    }
    for place in [0, 41] {
        let mut records = vec![Record::unused(12); 42];
        records[place] = Record::subnet([10, 0, 0, 0], 8, 1, 1);
        let image = with_records(6, &records);
        let start = 12 * place;
        add_not_zero(requests, chance, &image, 2, [8, 11].map(|at| start + at).into_iter());
        add_set(requests, &image, 2, start + 5, 0);
        add_set(requests, &image, 2, start + 3, 1);
    }
    let empty = with_records(6, &[]);
    add_not_zero(requests, chance, &empty, 2, [0, 4, 6, 11, 503].into_iter());
}
