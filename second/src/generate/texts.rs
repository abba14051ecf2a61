//! Texts that keep or break each rule on names, one rule at a time.

/// Octets around the ends of 21h to 7Eh, and far outside.
const EDGE_OCTETS: [u8; 6] = [0x00, 0x20, 0x21, 0x7E, 0x7F, 0xFF];

/// A good DNS name of a given length, up to 255.
pub fn dns_name_of_length(length: usize) -> Vec<u8> {
    let mut name = Vec::new();
    while name.len() < length {
        let left = length - name.len();
        // A dot must not be the last octet, so a label gives way by one where only it would be left.
        let label = if left == 64 { 62 } else { left.min(63) };
        name.extend(vec![b'n'; label]);
        if name.len() < length {
            name.push(b'.');
        }
    }
    name
}

fn with_edge_octets(text: &[u8], place: usize) -> Vec<Vec<u8>> {
    let with_octet = |octet: u8| {
        let mut edge = text.to_vec();
        edge[place] = octet;
        edge
    };
    EDGE_OCTETS.map(with_octet).to_vec()
}

fn owned(texts: &[&[u8]]) -> Vec<Vec<u8>> {
    texts.iter().map(|text| text.to_vec()).collect()
}

/// For a DNS name of 253 octets of room: each rule broken once, and what it just allows.
pub fn dns_texts() -> Vec<Vec<u8>> {
    let mut texts = owned(&[b"", b".a", b"a.", b"a..b", b"a b", b"a\x7F", b"!.~", &[b'x'; 63], &[b'x'; 64]]);
    texts.extend([253, 254].map(dns_name_of_length));
    texts
}

/// More of them, for one field: rules at the text's start, and at both ends of a label.
pub fn more_dns_texts() -> Vec<Vec<u8>> {
    let mut texts = owned(&[b".", b"..", b"a", b"a.b."]);
    texts.push([&[b'x'; 63][..], b".y"].concat());
    texts.push([&b"y."[..], &[b'x'; 64]].concat());
    texts.push([&[b'x'; 64][..], b".y"].concat());
    texts.push(dns_name_of_length(255));
    texts.extend(with_edge_octets(b"abcde", 0));
    texts
}

/// For a NetBIOS or site name with this much room.
pub fn label_texts(room: usize) -> Vec<Vec<u8>> {
    let mut texts = owned(&[b"", b".", b"A.B", b"A ", b"\x7FA", b"!~"]);
    texts.extend([room, room + 1].map(|length| vec![b'Z'; length]));
    texts
}

/// More of them, for one field.
pub fn more_label_texts() -> Vec<Vec<u8>> {
    let mut texts = owned(&[b"A", b".A", b"AB."]);
    texts.push(vec![b'Z'; 255]);
    texts.extend(with_edge_octets(b"ABCDE", 4));
    texts
}

/// Sequences that RFC 3629 allows, with those next to its limits.
const GOOD_UTF8: [&[u8]; 14] = [
    b"\x01",
    b"\x7F",
    b"\xC2\x80",
    b"\xDF\xBF",
    b"\xE0\xA0\x80",
    b"\xE1\x80\x80",
    b"\xED\x9F\xBF",
    b"\xEE\x80\x80",
    b"\xEF\xBF\xBF",
    b"\xF0\x90\x80\x80",
    b"\xF1\x80\x80\x80",
    b"\xF3\xBF\xBF\xBF",
    b"\xF4\x8F\xBF\xBF",
    b"a\xC3\x98\xE2\x82\xAC\xF0\x9F\x98\x80.z",
];

/// Sequences that RFC 3629 does not allow: long spellings, surrogates, past 10FFFFh, tails missing or alone.
const BAD_UTF8: [&[u8]; 21] = [
    b"\x80",
    b"\xBF",
    b"\xC0\x80",
    b"\xC1\xBF",
    b"\xC2",
    b"\xC2\x7F",
    b"\xC2\xC0",
    b"\xE0\x9F\xBF",
    b"\xE0\xA0",
    b"\xE1\x80\x7F",
    b"\xE1\x80\xC0",
    b"\xED\xA0\x80",
    b"\xED\xBF\xBF",
    b"\xF0\x8F\xBF\xBF",
    b"\xF0\x90\x80",
    b"\xF1\x80\x80\x41",
    b"\xF4\x90\x80\x80",
    b"\xF5\x80\x80\x80",
    b"\xFE",
    b"\xFF",
    b"ok\xC3",
];

/// Good names of accounts and good User clauses.
pub fn good_account_texts() -> Vec<Vec<u8>> {
    let mut texts = owned(&GOOD_UTF8);
    texts.extend([b"a b.c".to_vec(), vec![b'u'; 62], vec![b'u'; 63]]);
    // A sequence that just fits the limit of 63 octets.
    texts.push([&[b'u'; 61][..], b"\xC3\x98"].concat());
    texts
}

/// What neither an account nor a User clause may be, but for the empty text, which is a good User.
pub fn bad_account_texts() -> Vec<Vec<u8>> {
    let mut texts = owned(&BAD_UTF8);
    texts.extend(owned(&[b"", b"\0", b"a\0b", b"ab\0"]));
    texts.extend([64, 255].map(|length| vec![b'u'; length]));
    texts.push([&[b'u'; 62][..], b"\xC3\x98"].concat());
    texts
}

/// One or two of them for each cause, for tables, whose lines are long.
pub fn bad_account_names() -> Vec<Vec<u8>> {
    let mut texts = owned(&[b"", b"\0", b"ab\0", b"\x80", b"\xC1\xBF", b"ok\xC3", b"\xE0\x9F\xBF", b"\xE1\x80\xC0"]);
    texts.extend(owned(&[b"\xED\xA0\x80", b"\xF0\x8F\xBF\xBF", b"\xF4\x90\x80\x80", b"\xFF"]));
    texts.extend([64, 255].map(|length| vec![b'u'; length]));
    texts.push([&[b'u'; 62][..], b"\xC3\x98"].concat());
    texts
}

pub fn account_texts() -> Vec<Vec<u8>> {
    [good_account_texts(), bad_account_texts()].concat()
}
