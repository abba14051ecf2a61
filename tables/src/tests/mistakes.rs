//! Every mistake in a text is named by its line and by what was expected.

use super::{BASE, CAMPUS};
use crate::make;

/// What the base text gives with a part of one line changed, or with lines put after it from line 7 on.
fn changed(part: &str, by: &str) -> String {
    let text = match part {
        "" => format!("{BASE}{by}\n"),
        part => BASE.replacen(part, by, 1),
    };
    assert_ne!(text, BASE);
    make(text.as_bytes()).unwrap_err()
}

fn assert_mistakes(mistakes: &[(&str, &str, &str)]) {
    for (part, by, expected) in mistakes {
        assert_eq!(changed(part, by), *expected, "{part} by {by}");
    }
}

#[test]
fn words_of_lines() {
    assert_mistakes(&[
        (
            "",
            "sites number=2",
            "line 7: 'sites': expected server, forest, context, account, site, subnet, block or unused",
        ),
        ("", "site number", "line 7: 'number' is no word of a site line; expected number=, name=, next="),
        ("next=", "near=", "line 6: 'near=none' is no word of a site line; expected number=, name=, next="),
        ("next=none", "name=x", "line 6: name= stands twice; expected it once"),
        (" next=none", "", "line 6: this site line lacks next=; expected it"),
        (" host=dc1.corp.example", "", "line 2: this server line lacks host=; expected it"),
        (
            "",
            "x\u{85}\u{1B}[2J",
            "line 7: 'x??[2J': expected server, forest, context, account, site, subnet, block or unused",
        ),
    ]);
}

#[test]
fn numbers_and_addresses() {
    let number = "expected a site number from 1 to 65535";
    let values = [("0", "site"), ("65536", "site"), ("+1", "site"), ("", "site"), ("none", "site")];
    for (value, key) in values {
        assert_eq!(changed("site=1", &format!("{key}={value}")), format!("line 2: {key}={value}: {number}"));
    }
    assert_mistakes(&[
        ("next=none", "next=0", "line 6: next=0: expected a site number from 1 to 65535, or none"),
        ("context=1", "context=0", "line 2: context=0: expected a context number from 1 to 65535"),
        ("application=no", "application=0", "line 4: application=0: expected yes or no"),
        ("address=0.0.0.0", "address=1.2.3", "line 2: address=1.2.3: expected an IPv4 address, as 10.1.2.3"),
        ("", "subnet network=10.0.0.1/31 site=1", "line 7: address bits past the prefix: expected zeros there"),
        ("", "subnet network=10.0.0.0/33 site=1", "line 7: prefix over 32: expected 0 to 32"),
    ]);
    let network = "expected an IPv4 address, a slash and a prefix from 0 to 32, as 10.1.0.0/16";
    for value in ["10.1.0.0", "10.1.0.0/", "10.1/16", "10.1.0.0/+8", "10.1.0.0/300", "::/0"] {
        let expected = format!("line 7: network={value}: {network}");
        assert_eq!(changed("", &format!("subnet network={value} site=1")), expected);
    }
}

#[test]
fn bits() {
    let states = "netlogon-paused, synchronized, rpc-initialized, frs-paused, 0x and hex digits";
    for (value, word) in [("sync", "sync"), ("synchronized,", ""), ("0x", "0x"), ("0x+6", "0x+6"), ("", "")] {
        let found = changed("synchronized,rpc-initialized", value);
        assert_eq!(
            found,
            format!("line 2: state={value}: '{word}': expected none, or words joined by commas out of {states}")
        );
    }
    let twice = changed("roles=none", "roles=pdc,0x1");
    assert_eq!(twice, "line 2: roles=pdc,0x1: '0x1' stands twice; expected each bit once");
    assert_eq!(changed("roles=none", "roles=0x1000"), "line 2: roles with bits 0x1000: expected zeros there");
    assert_eq!(changed("state=", "state=0x80000000,"), "line 2: state with bits 0x80000000: expected zeros there");
}

#[test]
fn guids_and_sids() {
    let guid = "0102030405060708090a0b0c0d0e0f10";
    assert_eq!(changed(guid, &"0".repeat(32)), "line 4: GUID of zeros: expected another one");
    for value in ["", "01", &guid[1..], "0102030405060708090a0b0c0d0e0f1g", "04030201-0605-0807-090a-0b0c0d0e0fg0"] {
        let expected = format!("line 4: guid={value}: expected 32 hex digits, the GUID's octets in wire order");
        assert_eq!(changed(guid, value), expected);
    }
    let dashed = "04030201-0605-0807-090A-0B0C0D0E0F10";
    let expected = format!("line 4: guid={dashed}: expected 32 hex digits in wire order, which are {guid}");
    assert_eq!(changed(guid, dashed), expected);
    let longest = format!("S-1-5{}", "-1".repeat(16));
    for value in
        ["", "S-1-", "S-2-5", "s-1-5", "S-1-5-", "S-1-5--1", "S-1-5-4294967296", "S-1-281474976710656", &longest]
    {
        let expected = "expected S-1-AUTHORITY and up to 15 numbers, each after a dash, or none";
        assert_eq!(changed("sid=none", &format!("sid={value}")), format!("line 4: sid={value}: {expected}"));
    }
}

#[test]
fn names() {
    let dns = "expected labels of 1 to 63 printable ASCII octets joined by dots, at most 253 in all";
    for name in ["a..b", "a.", &"a".repeat(64), &"a.".repeat(127), "b\\20c", "é"] {
        assert_eq!(changed("dns=corp", &format!("dns={name}")), format!("line 4: context's DNS name: {dns}"));
        assert_eq!(changed("host=dc1.corp.example", &format!("host={name}")), format!("line 2: host name: {dns}"));
        assert_eq!(changed("name=example", &format!("name={name}")), format!("line 3: forest name: {dns}"));
    }
    let netbios = "NetBIOS name: expected 1 to 15 printable ASCII octets, no space, no dot";
    for name in ["A.B", "ABCDEFGHIJKLMNOP", "A\\20", "\\7f"] {
        assert_eq!(changed("DC1", name), format!("line 2: {netbios}"));
        assert_eq!(changed("CORP", name), format!("line 4: {netbios}"));
    }
    let site = "line 6: site name: expected 1 to 63 printable ASCII octets, no space, no dot";
    assert_eq!(changed("HQ", "H.Q"), site);
    assert_eq!(changed("HQ", &"H".repeat(64)), site);
    let account = "line 5: account name: expected 1 to 63 octets of UTF-8, none of them zero";
    for name in ["a\\00", "\\c3", &"a".repeat(64), &"é".repeat(32)] {
        assert_eq!(changed("ann", name), account);
    }
    assert_mistakes(&[
        ("ann", "", "line 5: name=: expected a name"),
        ("ann", "a\\2", "line 5: name=a\\2: expected two hex digits after \\, as in \\20"),
        ("ann", "a\\+1", "line 5: name=a\\+1: expected two hex digits after \\, as in \\20"),
        ("ann", "a\\é", "line 5: name=a\\é: expected two hex digits after \\, as in \\20"),
        ("CORP", "", "line 4: netbios=: expected a name or none"),
        ("CORP", "none", "line 4: no NetBIOS name: expected one, as application contexts alone may lack it"),
    ]);
}

#[test]
fn a_line_that_is_not_utf8() {
    let text = [BASE.as_bytes(), b"account name=\xC3 context=1 control=none\n"].concat();
    assert_eq!(make(&text).unwrap_err(), "line 7: not UTF-8; expected UTF-8, or \\hh for an octet");
}

#[test]
fn blocks_and_gaps() {
    let several = "line 7: expected block accounts, block sites or block subnets";
    assert_mistakes(&[
        ("", "block", several),
        ("", "block contexts", several),
        ("", "block sites 2", several),
        ("", "unused 1", "line 7: expected a block line before an unused line"),
        ("", "block sites\nunused", "line 8: expected unused and a count"),
        ("", "block sites\nunused 0", "line 8: unused 0: expected a count from 1 to 7"),
        ("", "block sites\nunused 8", "line 8: unused 8: expected a count from 1 to 7"),
        ("", "block sites\nunused 7\nunused 1", "line 9: the block is full; expected a block line before"),
    ]);
    let most = "block subnets\n".repeat(123);
    assert!(make(format!("{BASE}{most}").as_bytes()).is_ok_and(|image| image.len() == 65_536));
    assert_eq!(
        changed("", &format!("{most}block subnets")),
        "line 130: this line begins a 129th block; expected 128 at most"
    );
}

#[test]
fn what_is_missing_or_twice() {
    let without = |word: &str| {
        let lines: Vec<&str> = BASE.lines().filter(|line| !line.starts_with(word)).collect();
        make(lines.join("\n").as_bytes()).unwrap_err()
    };
    assert_eq!(without("server"), "line 5: the text ends without a server line; expected one");
    assert_eq!(without("forest"), "line 5: the text ends without a forest line; expected one");
    assert_eq!(without("context"), "line 5: there is no context; expected 1 to 16");
    assert_eq!(without("site"), "line 5: there is no site; expected at least one");
    assert_eq!(make(b"").unwrap_err(), "line 1: the text ends without a server line; expected one");
    let again = |word: &str| BASE.lines().find(|line| line.starts_with(word)).unwrap();
    assert_eq!(changed("", again("server")), "line 7: line 2 is a server line already; expected one alone");
    assert_eq!(changed("", again("forest")), "line 7: line 3 is a forest line already; expected one alone");
}

#[test]
fn what_must_be_unique() {
    let context = |number: usize, dns: &str, guid: usize, sid: &str| {
        format!("context number={number} dns={dns} netbios=CORP application=no guid={guid:032x} sid={sid}")
    };
    let two = |one: String, other: String| changed("", &format!("{one}\n{other}"));
    let already = |what: &str| format!("line 8: this {what} stands in line 7 already; expected another");
    let one = || context(2, "two", 2, "S-1-5");
    assert_eq!(two(one(), context(2, "three", 3, "S-1-6")), already("context number"));
    assert_eq!(two(one(), context(3, "TWO", 3, "S-1-6")), already("DNS name, case ignored,"));
    assert_eq!(two(one(), context(3, "three", 2, "S-1-6")), already("GUID"));
    assert_eq!(two(one(), context(3, "three", 3, "S-1-0x000000000005")), already("SID"));
    let seventeen: Vec<String> = (2..18).map(|number| context(number, &format!("c{number}"), number, "none")).collect();
    assert_eq!(changed("", &seventeen.join("\n")), "line 22: this is the 17th context; expected 1 to 16");
    assert_mistakes(&[
        ("", "site number=1 name=HQ2 next=none", "line 7: this site number stands in line 6 already; expected another"),
        (
            "",
            "account name=Ann context=1 control=none",
            "line 7: this account name in its context, case ignored, stands in line 5 already; expected another",
        ),
    ]);
    let account = |name: &str| format!("account name={name} context=1 control=none");
    let same_name = already("account name in its context, case ignored,");
    assert_eq!(two(account("Ørjan"), account("ØRJAN")), same_name);
    // Of two octets and of one.
    assert_eq!(two(account("ſmith"), account("Smith")), same_name);
    let subnet = |network: &str, site: &str| format!("subnet network={network} site={site}");
    assert_eq!(two(subnet("10.0.0.0/8", "1"), subnet("10.0.0.0/8", "none")), already("address and prefix"));
    assert_eq!(two(subnet("0.0.0.0/0", "none"), subnet("0.0.0.0/0", "none")), already("address and prefix"));
    let nested = format!("{BASE}\n{}\n{}\n", subnet("10.0.0.0/16", "1"), subnet("10.0.0.0/28", "1"));
    assert!(make(nested.as_bytes()).is_ok());
}

#[test]
fn numbers_that_must_exist() {
    assert_mistakes(&[
        ("site=1", "site=2", "line 2: no site has number 2; expected one of the table's"),
        ("context=1", "context=2", "line 2: no context has number 2; expected one of the table's"),
        ("next=none", "next=2", "line 6: no site has number 2; expected one of the table's"),
        ("next=none", "next=1", "line 6: this site is its own next closest; expected another or none"),
        ("", "subnet network=0.0.0.0/0 site=2", "line 7: no site has number 2; expected one of the table's"),
        ("", "account name=bob context=9 control=none", "line 7: no context has number 9; expected one of the table's"),
    ]);
}

#[test]
fn an_application_context_has_no_sid() {
    let text = CAMPUS.replace("netbios=ANTENNA application=no", "netbios=ANTENNA application=yes");
    assert_eq!(make(text.as_bytes()).unwrap_err(), "line 8: application context with a SID: expected none");
}
