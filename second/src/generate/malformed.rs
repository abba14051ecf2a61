//! Lines of another shape, and lines that are passed over.

use super::requests::Requests;

pub fn add_of_kind(requests: &mut Requests, kind: &str) {
    requests.note("lines of another shape");
    let lines: &[&[u8]] = match kind {
        "check" => &CHECK,
        "table" => &TABLE,
        "ping" => &PING,
        "filter" => &FILTER,
        "values" => &VALUES,
        "write" => &WRITE,
        "read" => &READ,
        "walk" => &WALK,
        "mailslot" => &MAILSLOT,
        "mailwrite" => &MAILWRITE,
        _ => &MAILPING,
    };
    for line in lines {
        requests.raw(line);
    }
    for around in [
        format!(" {kind}"),
        kind.to_string(),
        format!("{kind} "),
        kind.to_uppercase(),
        format!("{kind}\t-"),
        format!("{kind} -\r"),
    ] {
        requests.raw(around.as_bytes());
    }
    for line in ["", "#", "#table -", " ", "?", ".", "-"] {
        requests.raw(line.as_bytes());
    }
}

const CHECK: [&[u8]; 9] = [
    b"check 0",
    b"check zz",
    b"check - -",
    b"checks 00",
    b"chec 00",
    b"unknown 00",
    b"check \xC3\xA9",
    b"check \xFF\xFE",
    b"\x80",
];

const TABLE: [&[u8]; 10] = [
    b"table 0",
    b"table 0A",
    b"table A0",
    b"table 0g",
    b"table 00 00",
    b"table  00",
    b"table 00 ",
    b"table =00",
    b"table .",
    b"table 0x00",
];

const PING: [&[u8]; 27] = [
    b"ping 00000000 -",
    b"ping 00000000 - 1 1",
    b"ping 000000 - 1",
    b"ping 0000000000 - 1",
    b"ping - - 1",
    b"ping 0.0.0.0 - 1",
    b"ping 0A000001 - 1",
    b"ping 00000000 a 1",
    b"ping 00000000 A0 1",
    b"ping 00000000 = 1",
    b"ping 00000000  1",
    b"ping 00000000 - ",
    b"ping 00000000 - -",
    b"ping 00000000 - -1",
    b"ping 00000000 - +1",
    b"ping 00000000 - 1a",
    b"ping 00000000 - 0x10",
    b"ping 00000000 - 1.0",
    b"ping 00000000 - 4097",
    b"ping 00000000 - 65536",
    b"ping 00000000 - 4294967296",
    b"ping 00000000 - 4294967297",
    b"ping 00000000 - 9999999999",
    b"ping 00000000 - 10000000000",
    b"ping 00000000 - 18446744073709551616",
    b"ping 00000000 - 18446744073709551617",
    b"ping 00000000 - 99999999999999999999999999999999",
];

const FILTER: [&[u8]; 9] = [
    b"filter a",
    b"filter A0",
    b"filter a0 00",
    b"filter  a0",
    b"filter a0 ",
    b"filter .",
    b"filter =a0",
    b"filter --",
    b"filter -a0",
];

const VALUES: [&[u8]; 9] = [
    b"values a",
    b"values A3",
    b"values a3 04",
    b"values  a3",
    b"values a3 ",
    b"values .",
    b"values =a3",
    b"values 0 00000006",
    b"value a30d04054e74566572040406000000",
];

const WRITE: [&[u8]; 17] = [
    b"write 10",
    b"write 10 .",
    b"write 10 . . . . . . .",
    b"write 10 . . . . . . . . .",
    b"write . . . . . . . . .",
    b"write - . . . . . . . .",
    b"write 4097 . . . . . . . =00",
    b"write 10000000000 . . . . . . . =00",
    b"write 18446744073709551616 . . . . . . . =00",
    b"write 10 . . . . . . . 00",
    b"write 10 . . . . . . . -",
    b"write 10 . . . . . . . =-",
    b"write 10 . . . . . . . =0",
    b"write 10 . . . . . . . =0A",
    b"write 10 . . . . . . . ==",
    b"write 10 . . . . . . . ..",
    b"write 10 . . . . . . .  =00",
];

const READ: [&[u8]; 16] = [
    b"read ex 00000006",
    b"read ex - -",
    b"read ex 6 -",
    b"read ex 0000006 -",
    b"read ex 000000006 -",
    b"read ex 0000000A -",
    b"read ex 0000000g -",
    b"read EX 00000006 -",
    b"read none 00000006 -",
    b"read 2 00000006 -",
    b"read nt40  00000006 -",
    b"read nt40 00000006 0",
    b"read nt40 00000006 0A",
    b"read nt40 00000006 - -",
    b"read nt40 00000006 =00",
    b"read response 0x000006 -",
];

const WALK: [&[u8]; 12] = [
    b"walk 0",
    b"walk 0 0",
    b"walk 0 0A",
    b"walk 0 00 00",
    b"walk - 00",
    b"walk -1 00",
    b"walk a 00",
    b"walk 10000000000 00",
    b"walk 18446744073709551616 00",
    b"walk 18446744073709551615 00",
    b"walk  00",
    b"walk 0 =00",
];

const MAILSLOT: [&[u8]; 11] = [
    b"mailslot 1",
    b"mailslot 1A",
    b"mailslot 12 00",
    b"mailslot  12",
    b"mailslot 12 ",
    b"mailslot .",
    b"mailslot =",
    b"mailslot =1200",
    b"mailslot --",
    b"mailslots 12",
    b"mail 12",
];

const MAILWRITE: [&[u8]; 45] = [
    b"mailwrite 64",
    b"mailwrite 64 0 = = = 00000010 =",
    b"mailwrite 64 0 = = = 00000010 = 00000006 0",
    b"mailwrite 64 0 = = = 00000010 = 00000006 =",
    b"mailwrite 0 = = = 00000010 = 00000006",
    b"mailwrite 4097 0 = = = 00000010 = 00000006",
    b"mailwrite 4294967360 0 = = = 00000010 = 00000006",
    b"mailwrite 10000000000 0 = = = 00000010 = 00000006",
    b"mailwrite - 0 = = = 00000010 = 00000006",
    b"mailwrite . 0 = = = 00000010 = 00000006",
    b"mailwrite 64 65536 = = = 00000010 = 00000006",
    b"mailwrite 64 131071 = = = 00000010 = 00000006",
    b"mailwrite 64 4294967295 = = = 00000010 = 00000006",
    b"mailwrite 64 4294967296 = = = 00000010 = 00000006",
    b"mailwrite 64 00000000000 = = = 00000010 = 00000006",
    b"mailwrite 64 -1 = = = 00000010 = 00000006",
    b"mailwrite 64 - = = = 00000010 = 00000006",
    b"mailwrite 64 =00 = = = 00000010 = 00000006",
    b"mailwrite 64 1a = = = 00000010 = 00000006",
    b"mailwrite 64 0 . = = 00000010 = 00000006",
    b"mailwrite 64 0 = . = 00000010 = 00000006",
    b"mailwrite 64 0 = = . 00000010 = 00000006",
    b"mailwrite 64 0 = = = 00000010 . 00000006",
    b"mailwrite 64 0 - = = 00000010 = 00000006",
    b"mailwrite 64 0 =- = = 00000010 = 00000006",
    b"mailwrite 64 0 = =- = 00000010 = 00000006",
    b"mailwrite 64 0 = = =- 00000010 = 00000006",
    b"mailwrite 64 0 = = = 00000010 =- 00000006",
    b"mailwrite 64 0 4100 = = 00000010 = 00000006",
    b"mailwrite 64 0 = 4100 = 00000010 = 00000006",
    b"mailwrite 64 0 =410 = = 00000010 = 00000006",
    b"mailwrite 64 0 = =4A00 = 00000010 = 00000006",
    b"mailwrite 64 0 = = =6D6D 00000010 = 00000006",
    b"mailwrite 64 0 == = = 00000010 = 00000006",
    b"mailwrite 64 0 = = = 10 = 00000006",
    b"mailwrite 64 0 = = = 0000010 = 00000006",
    b"mailwrite 64 0 = = = 000000010 = 00000006",
    b"mailwrite 64 0 = = = 0000000A = 00000006",
    b"mailwrite 64 0 = = = - = 00000006",
    b"mailwrite 64 0 = = = =00000010 = 00000006",
    b"mailwrite 64 0 = = = 00000010 = 6",
    b"mailwrite 64 0 = = = 00000010 = 0000000G",
    b"mailwrite 64 0 = = = 00000010 = .",
    b"mailwrite 64 0  = = 00000010 = 00000006",
    b"mailwrite 64 0 = = = 00000010  = 00000006",
];

const MAILPING: [&[u8]; 20] = [
    b"mailping 00000000 -",
    b"mailping 00000000 - 1 1",
    b"mailping 00000000 - 1 1 1",
    b"mailping 000000 - 1",
    b"mailping 0000000000 - 1",
    b"mailping 0400000000000000000000000000000000 - 1 0",
    b"mailping - - 1",
    b"mailping 0A000001 - 1",
    b"mailping 00000000 1 1",
    b"mailping 00000000 1A 1",
    b"mailping 00000000 = 1",
    b"mailping 00000000 =12 1",
    b"mailping 00000000 . 1",
    b"mailping 00000000  1",
    b"mailping 00000000 - -",
    b"mailping 00000000 - -1",
    b"mailping 00000000 - 4097",
    b"mailping 00000000 - 65536",
    b"mailping 00000000 - 4294967296",
    b"mailping 00000000 - 10000000000",
];
