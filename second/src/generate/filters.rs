//! Filter lines: shapes, lengths, nesting, names, and octets that are no filter.

use super::chance::Chance;
use super::elements::{
    and, element, element_with, equality, nested, version_6, LengthForm, AND, EQUALITY, LENGTH_FORMS, STRING,
};
use super::requests::{Asked, Requests};
use super::sample::random_case;
use crate::filter::ClauseName;

pub fn add_all(requests: &mut Requests, chance: &mut Chance) {
    add_names(requests, chance);
    add_values(requests);
    add_nesting(requests);
    add_length_forms(requests);
    add_wrong_lengths(requests);
    add_wrong_tags(requests);
    add_duplicates(requests);
    add_orders(requests);
    add_longest(requests);
    add_truncated(requests);
    add_mutated(requests, chance);
    add_random(requests, chance);
}

fn add_names(requests: &mut Requests, chance: &mut Chance) {
    requests.note("clause names in every case, and names near to them");
    for name in ClauseName::ALL {
        let spelled = name.spelled();
        let cases = [
            spelled.to_vec(),
            spelled.to_ascii_lowercase(),
            spelled.to_ascii_uppercase(),
            random_case(chance, spelled),
        ];
        for case in cases {
            requests.filter(&and(&[equality(&case, b"v")]));
        }
        let longer = [spelled, b"x"].concat();
        let spaced = [spelled, b" "].concat();
        for near in [&spelled[1..], &spelled[..spelled.len() - 1], &longer, &spaced] {
            requests.filter(&and(&[equality(near, b"v")]));
        }
        for place in 0..spelled.len() {
            let mut near = spelled.to_vec();
            near[place] ^= *chance.pick(&[0x01, 0x40, 0x80, 0x60]);
            requests.filter(&equality(&near, b""));
        }
    }
    for unknown in [&b""[..], b"\0", b"NtVer\0", b"(NtVer", b"objectClass", &[0xFF; 200]] {
        requests.filter(&and(&[version_6(), equality(unknown, b"")]));
    }
}

fn add_values(requests: &mut Requests) {
    requests.note("values around the edges of the length forms");
    for name in ClauseName::ALL {
        for length in [0, 1, 3, 4, 5, 16] {
            requests.filter(&and(&[equality(name.spelled(), &vec![0x5A; length])]));
        }
    }
    for length in [115, 116, 117, 118, 119, 120, 127, 128] {
        requests.filter(&and(&[equality(b"Host", &vec![0; length])]));
    }
    for length in [241, 242, 243, 244, 255, 256] {
        requests.filter(&and(&[equality(b"User", &vec![b'u'; length])]));
    }
    let every_name: Vec<Vec<u8>> = ClauseName::ALL.iter().map(|name| equality(name.spelled(), b"")).collect();
    requests.filter(&and(&every_name));
    let backward: Vec<Vec<u8>> = every_name.into_iter().rev().collect();
    requests.filter(&and(&backward));
    requests.filter(&and(&[and(&backward[..4]), and(&backward[4..])]));
}

fn add_nesting(requests: &mut Requests) {
    requests.note("ANDs inside ANDs, and empty ones");
    let host = equality(b"Host", b"h");
    for depth in 0..=7 {
        requests.filter(&nested(version_6(), depth));
        requests.filter(&nested(and(&[version_6(), host.clone()]), depth));
        requests.filter(&nested(and(&[]), depth));
        requests.filter(&nested(and(&[host.clone(), and(&[])]), depth));
        requests.filter(&nested(and(&[and(&[version_6()]), host.clone()]), depth));
        requests.filter(&nested(and(&[host.clone(), and(&[version_6()]), equality(b"AAC", b"")]), depth));
        requests.filter(&and(&[nested(version_6(), depth), host.clone()]));
        requests.filter(&and(&[host.clone(), nested(version_6(), depth)]));
        requests.filter(&and(&[nested(version_6(), depth), nested(host.clone(), 7 - depth)]));
        requests.filter(&nested(Vec::new(), depth));
    }
}

/// Every element of a small filter with every spelling of its length.
fn add_length_forms(requests: &mut Requests) {
    requests.note("lengths in all three forms, longer than needed too");
    for choice in 0..81usize {
        let form = |place: u32| LENGTH_FORMS[choice / 3usize.pow(place) % 3];
        let name = element_with(STRING, form(0), b"User");
        let value = element_with(STRING, form(1), if choice % 2 == 0 { b"" } else { b"ann" });
        let clause = element_with(EQUALITY, form(2), &[name, value].concat());
        requests.filter(&element_with(AND, form(3), &clause));
    }
    for length in 0..=5u8 {
        requests.filter(
            &[&[0xA3, 0x08 + length, 0x04, 0x04][..], b"Host", &[0x04, 0x81, length], &vec![1; length.into()]].concat(),
        );
        requests.filter(
            &[&[0xA3, 0x0A + length, 0x04, 0x04][..], b"Host", &[0x04, 0x82, 0, length], &vec![1; length.into()]]
                .concat(),
        );
    }
    requests.filter(&[0xA0, 0x81, 0x00]);
    requests.filter(&[0xA0, 0x82, 0x00, 0x00]);
}

/// Where the length octets of each element of the sample filter stand.
const LENGTH_PLACES: [usize; 4] = [1, 3, 5, 12];

fn add_wrong_lengths(requests: &mut Requests) {
    requests.note("lengths that are none, and elements that end before or after their parent");
    let good = and(&[version_6()]);
    for place in LENGTH_PLACES {
        for octet in [0x80, 0x81, 0x82, 0x83, 0x84, 0x85, 0x88, 0xA0, 0xC0, 0xFE, 0xFF, 0x00, 0x7F] {
            let mut filter = good.clone();
            filter[place] = octet;
            requests.filter(&filter);
        }
        for change in [1u8, 2, 3, 253, 254, 255] {
            let mut filter = good.clone();
            filter[place] = filter[place].wrapping_add(change);
            requests.filter(&filter);
            filter.extend([0, 0, 0]);
            requests.filter(&filter);
        }
        let three_octets = [&good[..place], &[0x83, 0, 0], &good[place..]].concat();
        requests.filter(&three_octets);
        requests.filter(&[&good[..place], &[0x82, 0], &good[place..]].concat());
        requests.filter(&[&good[..place], &[0x81], &good[place..]].concat());
    }
    add_content_of_128(requests);
    requests.filter(&[&good[..], &[0]].concat());
    requests.filter(&[&good[..], &good].concat());
    requests.filter(&[&version_6()[..], &version_6()].concat());
    for big in [0x1000u16, 0x7FFF, 0xFFFF] {
        let [high, low] = big.to_be_bytes();
        requests.filter(&[&[0xA0, 0x82, high, low], &version_6()[..]].concat());
    }
}

/// 80h is no length, not even where 128 octets follow it.
fn add_content_of_128(requests: &mut Requests) {
    let value = |length: usize| element(STRING, &vec![b'v'; length]);
    let spelled_80 = |tag: u8, content: &[u8]| [&[tag, 0x80], content].concat();
    let name = element(STRING, b"Host");
    let clause = element(EQUALITY, &[name.clone(), value(118)].concat());
    requests.filter(&element(AND, &clause));
    requests.filter(&spelled_80(AND, &clause));
    requests.filter(&spelled_80(EQUALITY, &[name.clone(), value(120)].concat()));
    requests.filter(&element(EQUALITY, &[name, spelled_80(STRING, &[b'v'; 128])].concat()));
    requests.filter(&element(EQUALITY, &[spelled_80(STRING, &[b'n'; 128]), value(1)].concat()));
}

fn add_wrong_tags(requests: &mut Requests) {
    requests.note("other tags, and equalities of other than two strings");
    let good = and(&[version_6()]);
    let tag_places = [0, 2, 4, 11];
    for place in tag_places {
        for tag in
            [0x00, 0x04, 0x05, 0x0C, 0x20, 0x24, 0x30, 0x80, 0x84, 0x87, 0xA0, 0xA1, 0xA2, 0xA3, 0xA4, 0xA5, 0xA9, 0xE0]
        {
            let mut filter = good.clone();
            filter[place] = tag;
            requests.filter(&filter);
        }
    }
    let string = element(STRING, b"NtVer");
    for count in [0, 1, 3, 4] {
        requests.filter(&element(EQUALITY, &string.repeat(count)));
    }
    requests.filter(&element(EQUALITY, &[string.clone(), element(AND, &[])].concat()));
    requests.filter(&element(EQUALITY, &version_6()));
    requests.filter(&element(0xA2, &version_6()));
    requests.filter(&and(&[string]));
}

fn turned_case(name: ClauseName) -> Vec<u8> {
    name.spelled().iter().map(|octet| octet ^ 0x20).collect()
}

fn add_duplicates(requests: &mut Requests) {
    requests.note("a duplicate clause, across case and nesting");
    for name in ClauseName::ALL {
        let one = equality(name.spelled(), b"1");
        let other = equality(&turned_case(name), b"");
        requests.filter(&and(&[one.clone(), one.clone()]));
        requests.filter(&and(&[one.clone(), other.clone()]));
        requests.filter(&and(&[nested(one.clone(), 1), version_6(), nested(other.clone(), 2)]));
        requests.filter(&and(&[equality(b"Host", b"h"), one.clone(), equality(b"hOST", b""), other]));
        requests.filter(&and(&[one, equality(b"strange", b"")]));
    }
}

/// 6 over the whole filter comes before 7, and 7 before 8.
fn add_orders(requests: &mut Requests) {
    requests.note("two faults at once");
    let unknown = equality(b"Strange", b"");
    let duplicates = [version_6(), version_6()];
    let broken = vec![0x05, 0x00];
    requests.filter(&and(&[unknown.clone(), broken.clone()]));
    requests.filter(&and(&[broken.clone(), unknown.clone()]));
    requests.filter(&and(&[duplicates.concat(), broken.clone()]));
    requests.filter(&and(&[duplicates.concat(), unknown.clone()]));
    requests.filter(&and(&[unknown.clone(), duplicates.concat()]));
    requests.filter(&and(&[unknown.clone(), unknown.clone()]));
    requests.filter(&and(&[and(&[unknown, duplicates.concat()]), broken]));
}

fn add_longest(requests: &mut Requests) {
    requests.note("the longest filter, and one octet more");
    for length in [2048, 2049] {
        requests.filter(&and(&[equality(b"Host", &vec![b'h'; length - 18])]));
    }
    requests.filter(&[0xA0; 2048]);
}

fn long_sample() -> Vec<u8> {
    let inner = and(&[equality(b"user", b"x.y"), and(&[equality(b"AAC", &[0x10, 0, 0, 0])])]);
    let outer = [equality(b"DnsDomain", b"corp.example"), inner, equality(b"DomainGuid", &[7; 16]), version_6()];
    element_with(AND, LengthForm::Three, &outer.concat())
}

fn add_truncated(requests: &mut Requests) {
    requests.note("filters cut at every length");
    let filter = long_sample();
    for length in 0..=filter.len() {
        requests.filter(&filter[..length]);
    }
}

fn add_mutated(requests: &mut Requests, chance: &mut Chance) {
    requests.note("filters with one octet changed, put in or taken out");
    let filter = and(&[version_6(), and(&[equality(b"AAC", b"")])]);
    for place in 0..filter.len() {
        let mut changed = filter.clone();
        changed[place] ^= 1 << chance.below(8);
        requests.filter(&changed);
        changed.remove(place);
        requests.filter(&changed);
        changed.insert(place, chance.octet());
        changed.insert(place, chance.octet());
        requests.filter(&changed);
    }
}

fn add_random(requests: &mut Requests, chance: &mut Chance) {
    requests.note("random octets and random filters");
    let likely = [0xA0, 0xA3, 0x04, 0x81, 0x82, 0x00, 0x01, 0x02, 0x03, 0x05, b'A', b'C'];
    for _ in 0..30 {
        let octets: Vec<u8> = (0..chance.below(24)).map(|_| *chance.pick(&likely)).collect();
        requests.filter(&octets);
    }
    for _ in 0..30 {
        let depth = chance.below(6);
        requests.filter(&random_filter(chance, depth));
    }
}

pub fn random_filter(chance: &mut Chance, depth: usize) -> Vec<u8> {
    if depth == 0 {
        let name = *chance.pick(&ClauseName::ALL);
        let value = chance.below(6);
        return equality(&random_case(chance, name.spelled()), &chance.octets(value));
    }
    let children: Vec<Vec<u8>> = (0..1 + chance.below(3))
        .map(|_| {
            let child_depth = chance.below(depth);
            random_filter(chance, child_depth)
        })
        .collect();
    let content = children.concat();
    if content.len() < 0x80 {
        element_with(AND, *chance.pick(&LENGTH_FORMS), &content)
    } else {
        element(AND, &content)
    }
}

pub fn add_writes(requests: &mut Requests, chance: &mut Chance) {
    add_subsets(requests, chance);
    add_written_lengths(requests);
    add_rooms(requests);
}

/// Choices of at most three present clauses and of nearly all, with a buffer that fits, and then with an octet or more
/// too few.
fn add_subsets(requests: &mut Requests, chance: &mut Chance) {
    requests.note("few clauses and nearly all of them; buffers that just fit and that do not");
    for present in 0..256usize {
        let mut asked = Asked::default();
        for (place, name) in ClauseName::ALL.into_iter().enumerate() {
            if present >> place & 1 == 1 {
                let length = chance.below(7);
                asked = asked.with(name, &chance.octets(length));
            }
        }
        // Values are drawn for every choice, so that those of one do not hang on which others are stored.
        if (4..=6).contains(&present.count_ones()) {
            continue;
        }
        let length = asked.filter().len();
        requests.write(if present % 8 == 0 { length + 5 } else { length }, &asked);
        if present % 4 == 1 {
            requests.write(length.saturating_sub(1 + present % 3), &asked);
        }
    }
}

fn add_written_lengths(requests: &mut Requests) {
    requests.note("values around the edges of the length forms, and the longest filter");
    for length in [116, 117, 118, 119, 120, 121, 127, 128, 241, 242, 243, 244, 245, 246, 255, 256] {
        requests.write(length + 25, &Asked::default().with(ClauseName::Aac, &vec![0xEE; length]));
    }
    for length in [2030, 2031] {
        requests.write(2048, &Asked::default().with(ClauseName::Host, &vec![b'h'; length]));
    }
    let both = |second: usize| {
        Asked::default().with(ClauseName::User, &[b'u'; 1000]).with(ClauseName::Host, &vec![b'h'; second])
    };
    for second in [1016, 1017] {
        requests.write(10, &both(second));
    }
    requests.write(10, &Asked::default().with(ClauseName::DomainSid, &vec![1; 65_536]));
}

fn add_rooms(requests: &mut Requests) {
    requests.note("every room from 0 up, and the order 6, 5, 19");
    for room in 0..20 {
        requests.write(room, &Asked::version(6));
    }
    requests.write(4096, &Asked::version(6));
    requests.write(0, &Asked::default());
    requests.write(20, &Asked::default());
    requests.write(0, &Asked::default().with(ClauseName::Host, &[0; 2100]));
}
