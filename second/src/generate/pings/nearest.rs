//! Pings whose site is that of the nearest subnet (#102), on tables of nested subnets in several orders.

use super::super::nets::{full_table, small_table, with_nets, Net};
use super::super::requests::Asked;
use super::Pings;
use crate::image::Image;

pub fn add_all(pings: &mut Pings) {
    add_nests(pings);
    add_lowest_addresses(pings);
    add_single_addresses(pings);
    add_campus(pings);
    add_few_sites(pings);
    add_full_table(pings);
}

/// An address whose bits change often, so that each longer prefix leaves out another end of the range.
const INSIDE: u32 = 0x5AA5_3CC3;
const SITES: u16 = 7;

/// Every prefix around the address. Neighbouring ones have other sites, and each eighth has none.
fn nest() -> Vec<Net> {
    (0..=32).map(|prefix| Net::around(INSIDE, prefix, u16::from(prefix % 8))).collect()
}

/// Both ends of each range, and the address next to it that lies in the range before it.
fn clients(nets: &[Net]) -> Vec<u32> {
    let mut clients = Vec::new();
    for net in nets {
        let (first, last) = (net.address, net.last_address());
        let wider = Net::around(first, net.prefix.saturating_sub(1), 0);
        let next_to_it = [first.checked_sub(1), last.checked_add(1)].into_iter().flatten();
        let in_wider = |client: &u32| (wider.address..=wider.last_address()).contains(client);
        clients.extend([first, last].into_iter().chain(next_to_it.filter(in_wider)));
    }
    clients.sort();
    clients.dedup();
    clients
}

/// A ping for an EX reply, with name 8 where there is one, and just the room for it.
fn ask(pings: &mut Pings, client: u32) {
    ask_version(pings, client, 0x14);
}

fn ask_version(pings: &mut Pings, client: u32, version: u32) {
    let (client, filter) = (client.to_be_bytes(), Asked::version(version).filter());
    let room = pings.length(client, &filter);
    pings.requests.ping(client, &filter, room);
}

fn ask_all(pings: &mut Pings, image: &Image, clients: &[u32]) {
    pings.table(image);
    for client in clients {
        ask(pings, *client);
    }
}

fn add_nests(pings: &mut Pings) {
    let rising = nest();
    let falling: Vec<Net> = rising.iter().rev().copied().collect();
    let mixed: Vec<Net> = (0..33).map(|place| rising[place * 10 % 33]).collect();
    let clients = clients(&rising);
    for (order, nets) in [("rising", &rising), ("falling", &falling), ("mixed", &mixed)] {
        pings.note(&format!("the nearest of subnets of every prefix, in {order} order"));
        ask_all(pings, &with_nets(SITES, nets), &clients);
    }
    pings.note("the same, with a site for each eighth prefix alone");
    let turned = |net: &Net| net.of_site(if net.site == 0 { 1 + u16::from(net.prefix / 8) } else { 0 });
    let few_sites: Vec<Net> = mixed.iter().map(turned).collect();
    ask_all(pings, &with_nets(SITES, &few_sites), &clients);
}

/// One address can have all 33 prefixes if it is 0.0.0.0.
fn add_lowest_addresses(pings: &mut Pings) {
    pings.note("0.0.0.0 under every prefix");
    let nets: Vec<Net> = (0..33).map(|place| Net::around(0, (place * 20 % 33) as u8, place % 8)).collect();
    let mut clients: Vec<u32> = (0..32).map(|bit| 1 << bit).collect();
    clients.extend([0, 3, 0xFFFF, 0x7FFF_FFFF, u32::MAX]);
    ask_all(pings, &with_nets(SITES, &nets), &clients);
}

/// An address and all that differ from it in one bit, without a wider subnet and with one.
fn add_single_addresses(pings: &mut Pings) {
    pings.note("single addresses that differ in one bit");
    let addresses: Vec<u32> = (0..32).map(|bit| INSIDE ^ 1 << bit).chain([INSIDE]).collect();
    let mut nets: Vec<Net> =
        addresses.iter().zip(1..).map(|(address, place)| Net::around(*address, 32, place % 8)).collect();
    let mut clients = addresses;
    clients.extend([INSIDE ^ 3, INSIDE ^ 0x8000_0001, INSIDE + 2, 0, u32::MAX]);
    ask_all(pings, &with_nets(SITES, &nets), &clients);
    nets.push(Net::around(INSIDE, 16, 5));
    pings.table(&with_nets(SITES, &nets));
    for client in
        [INSIDE, INSIDE ^ 1, INSIDE ^ 3, INSIDE ^ 0x8000, INSIDE ^ 0x8001, INSIDE ^ 0x1_0000, INSIDE ^ 0x1_0001]
    {
        ask(pings, client);
    }
}

/// A dish with its own /28 inside the campus's /16 of the same address, in both orders, and another /28 without site.
fn add_campus(pings: &mut Pings) {
    pings.note("a /28 inside a /16, of the same address and of another, in both orders");
    let campus = Net::around(0x0A14_0000, 16, 2);
    let (dish, other, without) =
        (Net::around(0x0A14_0000, 28, 1), Net::around(0x0A14_7F40, 28, 3), Net::around(0x0A14_FFF0, 28, 0));
    let forward = [campus, dish, other, without];
    let backward: Vec<Net> = forward.into_iter().rev().collect();
    let mut clients: Vec<u32> = forward.iter().flat_map(|net| [net.address, net.last_address()]).collect();
    clients.extend([dish, other, without].map(|net| net.last_address().wrapping_add(1)));
    clients.extend([campus, other, without].map(|net| net.address - 1));
    for nets in [&forward[..], &backward] {
        let image = with_nets(3, nets);
        ask_all(pings, &image, &clients);
        for version in [0x04, 0x18] {
            ask_version(pings, dish.address, version);
            ask_version(pings, campus.last_address(), version);
        }
    }
}

/// Two sites and one, and the subnet of all addresses without site.
fn add_few_sites(pings: &mut Pings) {
    pings.note("two sites, and one; 0.0.0.0/0 without site, with one, and not there");
    let nets = [Net::around(0x0A00_0000, 8, 1), Net::around(0x0A01_0000, 16, 2), Net::around(0x0A01_0200, 24, 0)];
    let clients = [0x0A00_0001, 0x0A01_0001, 0x0A01_0201, 0x0B00_0000, 0x09FF_FFFF];
    for all in [None, Some(0), Some(2)] {
        let everything = all.map(|site| Net::around(0, 0, site));
        let nets: Vec<Net> = everything.into_iter().chain(nets).collect();
        ask_all(pings, &with_nets(2, &nets), &clients);
    }
    let one_site = nets.map(|net| net.of_site(net.site.min(1)));
    ask_all(pings, &with_nets(1, &one_site), &clients);
    ask_all(pings, &small_table(2), &clients[..2]);
}

fn add_full_table(pings: &mut Pings) {
    pings.note("the most blocks and the most subnets");
    let nets = full_table();
    pings.table(&with_nets(SITES, &nets));
    for place in [0, 1, 8, 41, 42, 2604, nets.len() - 2, nets.len() - 1] {
        ask(pings, nets[place].address);
        ask(pings, nets[place].last_address());
    }
    for client in [0x0A00_0000 - 1, 0x0A02_4300, 0, u32::MAX] {
        ask(pings, client);
    }
    for version in [0, 2, 0x0100_0018] {
        ask_version(pings, nets[0].address, version);
    }
}
