//! Tables that have a subnet twice, which makes the whole wrong (#102), and tables that only nearly do.

use super::nets::{full_table, small_table, with_nets, Net, MOST, PER_BLOCK};
use super::requests::{Asked, Requests};
use crate::image::{Image, Record};

pub fn add_all(requests: &mut Requests) {
    add_counts(requests);
    add_sites(requests);
    add_one_site(requests);
    add_places(requests);
    add_several(requests);
    add_orders(requests);
    add_near(requests);
    add_first_and_last(requests);
}

/// What the doubles are around.
const INSIDE: u32 = 0xD5AA_5F35;

fn double(prefix: u8, site: u16) -> Net {
    Net::around(INSIDE, prefix, site)
}

/// So many subnets, no two the same, and none of this prefix around the address above: a third of them are around it
/// too, so that addresses come often with several prefixes. A prefix of 33 leaves none out.
fn fillers(count: usize, prefix: u8) -> Vec<Net> {
    let filler = |place: usize| match (place % 3, place as u8 / 3) {
        (0, other) if other <= 32 && other != prefix => double(other, place as u16 % 3),
        _ => {
            let inside = 0x0A00_0000 | (place as u32).wrapping_mul(0x9E37_79B1) >> 8;
            Net::around(inside, 16 + (place * 7 % 17) as u8, place as u16 % 3)
        }
    };
    (0..count).map(filler).collect()
}

/// How many subnets, the prefix of the double among them, and its two places.
const COUNTS: [(usize, u8, [usize; 2]); 20] = [
    (2, 8, [0, 1]),
    (3, 16, [0, 2]),
    (4, 24, [1, 2]),
    (5, 28, [0, 4]),
    (7, 1, [5, 6]),
    (8, 31, [0, 7]),
    (9, 32, [4, 8]),
    (15, 2, [0, 14]),
    (16, 3, [7, 8]),
    (17, 4, [0, 16]),
    (24, 5, [11, 12]),
    (31, 6, [15, 30]),
    (32, 7, [0, 31]),
    (33, 9, [16, 32]),
    (40, 10, [0, 1]),
    (41, 11, [39, 40]),
    (42, 12, [0, 41]),
    (43, 13, [0, 42]),
    (84, 14, [20, 63]),
    (126, 15, [41, 125]),
];
/// The sites of the two, in turn.
const SITES: [[u16; 2]; 5] = [[1, 1], [1, 2], [0, 1], [0, 0], [2, 0]];

fn add_counts(requests: &mut Requests) {
    requests.note("a subnet twice, among few and many others");
    for ((count, prefix, places), sites) in COUNTS.into_iter().zip(SITES.into_iter().cycle()) {
        let mut nets = fillers(count, prefix);
        for (place, site) in places.into_iter().zip(sites) {
            nets[place] = double(prefix, site);
        }
        requests.table(&with_nets(2, &nets));
    }
}

fn add_sites(requests: &mut Requests) {
    requests.note("a subnet twice, with equal sites and with others");
    let filter = Asked::version(0).filter();
    for (prefix, [one, other]) in [26, 27, 29, 30].into_iter().zip(SITES) {
        requests.table(&with_nets(2, &[double(prefix, one), double(prefix, other)]));
        requests.ping(INSIDE.to_be_bytes(), &filter, 2);
        requests.ping([10, 0, 0, 1], &[], 2);
    }
    for [one, other] in [[0, 0], [0, 1], [1, 1], [1, 2]] {
        requests.table(&with_nets(2, &[double(0, one), double(8, 1), double(0, other)]));
    }
    let last = Net::around(u32::MAX, 32, 1);
    requests.table(&with_nets(2, &[last, last.of_site(2)]));
}

fn add_one_site(requests: &mut Requests) {
    requests.note("a subnet twice in a table of one site");
    requests.table(&with_nets(1, &[double(17, 1), double(17, 1)]));
    requests.table(&in_two_blocks(1, 0, double(18, 0), 0, double(18, 1)));
}

/// Two subnets in blocks of their own, each at its place.
fn in_two_blocks(sites: u16, place: usize, one: Net, other_place: usize, other: Net) -> Image {
    let mut image = small_table(sites);
    push_at(&mut image, place, one);
    push_at(&mut image, other_place, other);
    image
}

fn push_at(image: &mut Image, place: usize, net: Net) {
    let mut records = vec![Record::unused(12); PER_BLOCK];
    records[place] = net.record();
    image.push_records(6, &records);
}

fn add_places(requests: &mut Requests) {
    requests.note("a subnet twice, at the ends of blocks, and in two blocks");
    let mut ends = with_nets(2, &[double(19, 1)]);
    ends.set_record(4, PER_BLOCK - 1, &double(19, 2).record());
    requests.table(&ends);
    requests.table(&in_two_blocks(2, PER_BLOCK - 1, double(20, 1), 0, double(20, 1)));
    requests.table(&in_two_blocks(2, 0, double(25, 1), PER_BLOCK - 1, double(25, 2)));
    // Accounts between the two, unused ones.
    let mut between = small_table(2);
    push_at(&mut between, 3, double(21, 2));
    between.push_records(4, &[]);
    push_at(&mut between, 30, double(21, 2));
    requests.table(&between);
    requests.table(&around_the_sites(double(22, 1), double(22, 0)));
}

/// The blocks in another order, the subnets before all others and after them.
fn around_the_sites(one: Net, other: Net) -> Image {
    let table = small_table(2);
    let mut image = Image { blocks: table.blocks[..2].to_vec() };
    push_at(&mut image, 0, one);
    for block in &table.blocks[2..] {
        image.push(block[0], &block[4..508]);
    }
    push_at(&mut image, 1, other);
    image
}

fn add_several(requests: &mut Requests) {
    requests.note("a subnet three times, and two subnets twice");
    requests.table(&with_nets(2, &[double(23, 1), double(23, 2), double(23, 0)]));
    let mut nets = fillers(10, 8);
    nets.extend([double(8, 1), Net::around(0, 8, 1), double(8, 2), Net::around(0, 8, 1)]);
    requests.table(&with_nets(2, &nets));
}

/// 2 and 3 come before it.
fn add_orders(requests: &mut Requests) {
    requests.note("a subnet twice, and another fault");
    let twice = with_nets(2, &[double(16, 1), double(16, 1), double(8, 1)]);
    let mut unnamed_octet = twice.clone();
    unnamed_octet.set(0, 503, 1);
    requests.table(&unnamed_octet);
    let mut wrong_check = twice.octets();
    wrong_check[4 * 512 + 508] ^= 1;
    requests.table_octets(&wrong_check);
}

fn add_near(requests: &mut Requests) {
    requests.note("subnets that are only nearly the same, one block full of them and two");
    requests.table(&with_nets(2, &fillers(2 * PER_BLOCK, 33)));
    let prefixes: Vec<Net> = (1..=32).map(|prefix| Net::around(0x8000_0000, prefix, 1)).collect();
    requests.table(&with_nets(1, &prefixes));
    let neighbours: Vec<Net> = (0..PER_BLOCK as u32).map(|place| Net::around(place << 8, 24, 2)).collect();
    requests.table(&with_nets(2, &neighbours));
}

fn add_first_and_last(requests: &mut Requests) {
    requests.note("the first and the last of the most subnets are the same");
    let mut nets = full_table();
    nets[MOST - 1] = nets[0].of_site(7);
    requests.table(&with_nets(7, &nets));
}
