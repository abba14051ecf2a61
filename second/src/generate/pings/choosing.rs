//! Pings by what is chosen: forms, rooms, roles, states, contexts, users and sites.

use super::super::requests::Asked;
use super::{without_version, Pings, ENOUGH, NO_CLIENT};
use crate::filter::ClauseName;
use crate::image::{guid, ContextBlock, Image, Record, ServerBlock};

pub fn add_all(pings: &mut Pings) {
    add_versions_and_rooms(pings);
    add_nt4_wanted(pings);
    add_roles(pings);
    add_states(pings);
    add_contexts(pings);
    add_orders(pings);
    add_users(pings);
    without_version::add_all(pings);
    add_sites(pings);
    add_next_closest(pings);
}

fn add_versions_and_rooms(pings: &mut Pings) {
    pings.note("every version bit, and rooms of every form");
    let server = ServerBlock { roles: 0x801, address: [192, 0, 2, 1], ..ServerBlock::default() };
    pings.table(&Image::small(&server));
    for low in 0..32 {
        pings.ask_tight(NO_CLIENT, &Asked::version(low).with_user(b"bob"));
    }
    for bit in 5..32 {
        for low in [0, 2, 4] {
            pings.ask(NO_CLIENT, &Asked::version(1 << bit | low));
        }
    }
    for version in [0, 2, 4, 8] {
        let filter = Asked::version(version).filter();
        for room in [0, 1, 2] {
            pings.requests.ping(NO_CLIENT, &filter, room);
        }
    }
    pings.requests.ping(NO_CLIENT, &Asked::version(4).filter(), ENOUGH);
}

fn add_nt4_wanted(pings: &mut Pings) {
    pings.note("the NT4 form wanted, and avoided by the version");
    pings.table(&Image::small(&ServerBlock { roles: 0x200, ..ServerBlock::default() }));
    for low in 0..16 {
        for high in [0, 0x0100_0000, 0xFEFF_FFF0] {
            pings.ask(NO_CLIENT, &Asked::version(low | high));
        }
    }
    pings.ask(NO_CLIENT, &Asked::version(6).with_user(b"a."));
    pings.ask(NO_CLIENT, &Asked::version(0x0100_0006).with_user(b"a."));
    pings.ask_tight(NO_CLIENT, &Asked::default().with_user(b"a."));
}

/// Roles in four tables, each in others than any other role, so that none is taken for another.
fn add_roles(pings: &mut Pings) {
    pings.note("each role with half of the others, all of them, and all but read-only and NT4 wanted");
    // NT4 wanted and level 2008 have tables of their own.
    let roles = || (0..12).map(|bit| 1u32 << bit).filter(|role| ![0x200, 0x800].contains(role));
    let set_in = |table: u32| roles().zip(1u32..).filter(move |(_, number)| number >> table & 1 == 1);
    let shared = (0..4).map(|table| set_in(table).map(|(role, _)| role).sum());
    for roles in shared.chain([0xFFF, 0xDEF]) {
        pings.table(&Image::small(&ServerBlock { roles, ..ServerBlock::default() }));
        for version in [0x0, 0x2, 0x0100_0004, 0x1C] {
            pings.ask(NO_CLIENT, &Asked::version(version));
        }
    }
}

fn add_states(pings: &mut Pings) {
    pings.note("each cause of a pause alone, all of them, and none; for the PDC and for another");
    for (roles, state) in [(0, 6), (0, 7), (1, 7), (0, 4), (1, 2), (0, 2), (0, 14), (1, 9)] {
        pings.table(&Image::small(&ServerBlock { roles, state, ..ServerBlock::default() }));
        for version in [0x4, 0x1000_0004, 0x4000_0004, 0x5000_0004] {
            pings.ask(NO_CLIENT, &Asked::version(version));
        }
        for version in [0x0, 0x2, 0x8, 0x5000_0000, 0x5000_0002, 0x5000_0008] {
            pings.ask(NO_CLIENT, &Asked::version(version).with_user(b"x"));
        }
        pings.ask_tight(NO_CLIENT, &Asked::default().with(ClauseName::Host, b"h"));
        pings.ask_tight(NO_CLIENT, &Asked::default().with_user(b"x"));
    }
}

/// The longest SID.
pub const SID_OF_2: [u8; 68] = {
    let mut sid = [7; 68];
    sid[0] = 1;
    sid[1] = 15;
    sid
};
/// The shortest SID.
pub const SID_OF_5: [u8; 8] = [1, 0, 0, 0, 0, 0, 0, 5];

/// Contexts 2 (default, SID), 5 (SID), 7 (no SID), 8 (application), 9 (application without NetBIOS name).
fn five_contexts(default_context: u16) -> Image {
    let server = ServerBlock { default_context, ..ServerBlock::default() };
    let mut image = Image::with_server(&server, b"example");
    let base = ContextBlock::default();
    image.push_context(&ContextBlock { number: 2, sid: Some(&SID_OF_2), ..base });
    let other = |number: u16, dns_name| ContextBlock {
        number,
        guid: guid(16 * number as u8),
        dns_name,
        netbios_name: b"LAB",
        ..base
    };
    image.push_context(&ContextBlock { sid: Some(&SID_OF_5), ..other(5, b"Lab.example") });
    image.push_context(&other(7, b"old.lab.example"));
    image.push_context(&ContextBlock { application: 1, ..other(8, b"app") });
    image.push_context(&ContextBlock { application: 1, netbios_name: b"", ..other(9, b"zones.app") });
    image.push_records(5, &[Record::site(1, b"HQ", 0)]);
    image
}

fn add_contexts(pings: &mut Pings) {
    pings.note("contexts by GUID, by DNS name and by default; SIDs; refusals 11 to 17");
    for default_context in [2, 9] {
        pings.table(&five_contexts(default_context));
        let guids =
            [None, Some(guid(1).to_vec()), Some(guid(80).to_vec()), Some(guid(128).to_vec()), Some(guid(144).to_vec())];
        let names = [None, Some(&b"corp.example"[..]), Some(b"LAB.EXAMPLE"), Some(b"App"), Some(b"zones.APP")];
        for guid in &guids {
            for name in names {
                let asked = with_places(Asked::version(4), guid.as_deref(), name, None);
                pings.ask(NO_CLIENT, &asked);
            }
        }
        pings.ask(NO_CLIENT, &with_places(Asked::version(2), Some(&guid(144)), Some(b"app"), None));
        pings.ask(NO_CLIENT, &with_places(Asked::version(0), Some(&guid(144)), None, None));
        add_context_refusals(pings);
    }
}

fn with_places(mut asked: Asked, guid: Option<&[u8]>, name: Option<&[u8]>, sid: Option<&[u8]>) -> Asked {
    let clauses = [(ClauseName::DomainGuid, guid), (ClauseName::DnsDomain, name), (ClauseName::DomainSid, sid)];
    for (clause, value) in clauses {
        if let Some(value) = value {
            asked = asked.with(clause, value);
        }
    }
    asked
}

/// Each clause wrong by itself, in shape or in what it names.
fn add_context_refusals(pings: &mut Pings) {
    let known = guid(80);
    for wrong in [&known[..0], &known[..15], &[0; 16], &[9; 17]] {
        pings.ask(NO_CLIENT, &with_places(Asked::version(0), Some(wrong), None, None));
    }
    for sid in [&SID_OF_2[..], &SID_OF_5] {
        for guid in [guid(1), known, guid(112), guid(128)] {
            pings.ask(NO_CLIENT, &with_places(Asked::version(0), Some(&guid), None, Some(sid)));
        }
        pings.ask(NO_CLIENT, &with_places(Asked::version(0), None, Some(b"lab.example"), Some(sid)));
        pings.ask(NO_CLIENT, &with_places(Asked::version(0), None, None, Some(sid)));
    }
    add_near_names(pings);
    add_near_sids(pings);
}

fn add_near_names(pings: &mut Pings) {
    let near = [
        "corp.example.",
        ".corp.example",
        "corp.example\0",
        "corp",
        "example",
        "corp.exampl",
        "corp.examplee",
        ".",
        "corp..example",
        "corp.example..",
    ];
    for name in near {
        pings.ask(NO_CLIENT, &with_places(Asked::version(0), None, Some(name.as_bytes()), None));
    }
}

fn add_near_sids(pings: &mut Pings) {
    let mut near_longest = SID_OF_2;
    near_longest[67] ^= 1;
    let too_many = [&[1, 16][..], &[3; 70]].concat();
    let near: [&[u8]; 11] = [
        &[],
        &[1],
        &[1, 0],
        &SID_OF_2[..67],
        &[2, 0, 0, 0, 0, 0, 0, 5],
        &[0; 8],
        &[1, 1, 0, 0, 0, 0, 0, 5],
        &[1, 0, 0, 0, 0, 0, 0, 6],
        &[1, 0, 0, 0, 0, 0, 0, 5, 0, 0, 0, 0],
        &near_longest,
        &too_many,
    ];
    for sid in near {
        pings.ask(NO_CLIENT, &with_places(Asked::version(0), None, None, Some(sid)));
    }
}

/// Every choice of two faults, or more, in a GUID, a DNS name, a SID and a user, with NtVer and without.
fn add_orders(pings: &mut Pings) {
    pings.note("two refusals at once");
    pings.table(&five_contexts(2));
    let guids: [Option<&[u8]>; 3] = [None, Some(b"short"), Some(&[9; 16])];
    let names: [Option<&[u8]>; 3] = [None, Some(b""), Some(b"none.example")];
    let sids: [Option<&[u8]>; 4] = [None, Some(b"S-1"), Some(&[1, 0, 0, 0, 0, 0, 0, 9]), Some(&SID_OF_5)];
    for choice in 0..guids.len() * names.len() * sids.len() {
        let (guid, name, sid) = (guids[choice / 12], names[choice / 4 % 3], sids[choice % 4]);
        for asked in [Asked::version(4), Asked::default(), Asked::version(4).with_aac(8).with(ClauseName::NtVer, b"4")]
        {
            let asked = with_places(asked, guid, name, sid);
            pings.ask(NO_CLIENT, &asked);
            pings.ask(NO_CLIENT, &asked.with_user(b"a..b"));
        }
    }
}

fn add_users(pings: &mut Pings) {
    pings.note("users by account bits and AAC, in their own context alone");
    let mut image = five_contexts(2);
    let controls = [0x10u32, 0x11, 0x08, 0x40, 0x80, 0x100];
    let accounts: Vec<Record> =
        controls.iter().map(|control| Record::account(2, *control, format!("u{control:x}").as_bytes())).collect();
    image.push_records(4, &accounts);
    let more = [
        Record::account(5, 0x1D8, b"ann"),
        Record::unused(84),
        Record::account(2, 0xFFFF_FE26, b"other-bits"),
        Record::account(2, 0x10, "\u{D8}RJAN".as_bytes()),
        Record::account(8, 0x10, b"app.user"),
    ];
    image.push_records(4, &more);
    pings.table(&image);
    let masks = [0x1, 0x8, 0x10, 0x40, 0x80, 0x100, 0x1D8, 0xFFFF_FE27, 0xFFFF_FFFF];
    for user in ["u10", "U11", "u8", "u40", "U80", "u100", "other-bits"] {
        pings.ask(NO_CLIENT, &Asked::version(0).with_user(user.as_bytes()));
        for aac in masks {
            pings.ask(NO_CLIENT, &Asked::version(0).with_user(user.as_bytes()).with_aac(aac));
        }
    }
    for user in ["ann", "ANN", "\u{D8}RJAN", "\u{D8}rjan", "\u{F8}rjan", "app.user", "u1", "u100 ", ""] {
        for context in [1, 80, 128] {
            let asked = Asked::version(4)
                .with_user(user.as_bytes())
                .with_aac(0x1D8)
                .with(ClauseName::DomainGuid, &guid(context));
            pings.ask(NO_CLIENT, &asked);
        }
    }
}

fn sites_table(subnets: &[Record]) -> Image {
    let server = ServerBlock { own_site: 4, ..ServerBlock::default() };
    let mut image = Image::with_server(&server, b"example");
    image.push_context(&ContextBlock::default());
    let sites =
        [Record::site(3, b"North", 4), Record::unused(72), Record::site(4, b"HQ", 0), Record::site(9, b"HQ", 3)];
    image.push_records(5, &sites);
    image.push_records(6, subnets);
    image
}

/// Addresses inside, outside and at the edges of the subnets below.
const CLIENTS: [[u8; 4]; 16] = [
    [10, 9, 9, 9],
    [10, 9, 9, 8],
    [10, 1, 2, 3],
    [10, 1, 1, 255],
    [10, 1, 3, 0],
    [10, 2, 0, 0],
    [10, 0, 0, 0],
    [192, 168, 0, 1],
    [192, 168, 0, 2],
    [127, 255, 255, 255],
    [128, 0, 0, 0],
    [255, 255, 255, 255],
    [0, 0, 0, 0],
    [11, 0, 0, 1],
    [9, 255, 255, 255],
    [10, 255, 255, 255],
];

fn add_sites(pings: &mut Pings) {
    pings.note("the client's site by the nearest subnet that holds the address");
    let subnets = [
        Record::subnet([10, 1, 2, 0], 24, 1, 0),
        Record::unused(12),
        Record::subnet([10, 1, 0, 0], 16, 1, 3),
        Record::subnet([10, 1, 2, 3], 32, 1, 4),
        Record::subnet([10, 9, 9, 9], 32, 1, 9),
        Record::subnet([10, 0, 0, 0], 8, 1, 4),
        Record::subnet([192, 168, 0, 0], 31, 1, 9),
        Record::subnet([128, 0, 0, 0], 1, 1, 9),
        Record::subnet([0, 0, 0, 0], 0, 1, 3),
        Record::subnet([11, 0, 0, 0], 8, 1, 4),
    ];
    let backward: Vec<Record> = subnets.iter().rev().cloned().collect();
    for list in [&subnets[..], &backward, &subnets[..6], &[]] {
        pings.table(&sites_table(list));
        for client in CLIENTS {
            pings.ask(client, &Asked::version(4));
        }
    }
    let mut one_site = Image::small(&ServerBlock::default());
    one_site.push_records(6, &[Record::subnet([10, 0, 0, 0], 8, 1, 0)]);
    pings.table(&one_site);
    pings.ask([10, 0, 0, 1], &Asked::version(4));
    pings.ask([11, 0, 0, 1], &Asked::version(4));
}

fn add_next_closest(pings: &mut Pings) {
    pings.note("name 8: asked for, level 2008, a client site, and a next one");
    for roles in [0, 0x800] {
        let mut image = sites_table(&[
            Record::subnet([10, 3, 0, 0], 16, 1, 3),
            Record::subnet([10, 4, 0, 0], 16, 1, 4),
            Record::subnet([10, 9, 0, 0], 16, 1, 9),
        ]);
        image.set_all(0, 0, &u32::to_le_bytes(roles));
        pings.table(&image);
        for client in [[10, 3, 0, 0], [10, 4, 0, 0], [10, 9, 0, 0], [10, 5, 0, 0]] {
            for version in [0x04, 0x14, 0x18, 0x1C, 0x12, 0x10] {
                pings.ask(client, &Asked::version(version));
            }
            pings.ask_tight(client, &Asked::version(0x18).with_user(b"x.North"));
        }
    }
}
