//! The values of words in a text: each is written in one way, and read with a message on what was expected.

use crate::table::{ContextNumber, Sid, SiteNumber, Subnet};
use std::net::Ipv4Addr;

/// The word for a value that is not there: it is never an empty word or a zero.
pub const NONE: &str = "none";

/// Printable ASCII and letters of any script stand as they are; other octets, and the backslash, as `\hh`.
pub fn name_text(name: &[u8]) -> String {
    let mut text = String::new();
    for chunk in name.utf8_chunks() {
        for character in chunk.valid().chars() {
            push_character(&mut text, character);
        }
        push_octets(&mut text, chunk.invalid());
    }
    text
}

fn push_character(text: &mut String, character: char) {
    let plain = character.is_ascii_graphic() && character != '\\' || character.is_alphanumeric();
    match plain {
        true => text.push(character),
        false => push_octets(text, character.encode_utf8(&mut [0; 4]).as_bytes()),
    }
}

fn push_octets(text: &mut String, octets: &[u8]) {
    for octet in octets {
        text.push_str(&format!("\\{octet:02x}"));
    }
}

pub fn parse_name(value: &str) -> Result<Vec<u8>, String> {
    if value.is_empty() {
        return Err("expected a name".to_string());
    }
    let mut parts = value.split('\\');
    let mut name = parts.next().unwrap_or_default().as_bytes().to_vec();
    for part in parts {
        let part = part.as_bytes();
        let octet = part.get(..2).and_then(octet_of).ok_or("expected two hex digits after \\, as in \\20")?;
        name.push(octet);
        name.extend_from_slice(&part[2..]);
    }
    Ok(name)
}

fn octet_of(digits: &[u8]) -> Option<u8> {
    let value = |digit: u8| char::from(digit).to_digit(16);
    let [high, low] = digits else { return None };
    u8::try_from(value(*high)? << 4 | value(*low)?).ok()
}

/// An empty name is `none`, and so a name of these letters has its first one written as `\6e`.
pub fn optional_name_text(name: &[u8]) -> String {
    match name {
        b"" => NONE.to_string(),
        b"none" => "\\6eone".to_string(),
        name => name_text(name),
    }
}

pub fn parse_optional_name(value: &str) -> Result<Vec<u8>, String> {
    match value {
        NONE => Ok(Vec::new()),
        "" => Err("expected a name or none".to_string()),
        value => parse_name(value),
    }
}

pub fn parse_context(value: &str) -> Result<ContextNumber, String> {
    parse_number(value).map(ContextNumber).ok_or_else(|| "expected a context number from 1 to 65535".to_string())
}

pub fn parse_site(value: &str) -> Result<SiteNumber, String> {
    parse_number(value).map(SiteNumber).ok_or_else(|| "expected a site number from 1 to 65535".to_string())
}

pub fn optional_site_text(site: Option<SiteNumber>) -> String {
    site.map_or(NONE.to_string(), |number| number.0.to_string())
}

pub fn parse_optional_site(value: &str) -> Result<Option<SiteNumber>, String> {
    match value {
        NONE => Ok(None),
        value => parse_site(value).map(Some).map_err(|expected| format!("{expected}, or none")),
    }
}

fn parse_number(value: &str) -> Option<u16> {
    digits(value)?.parse().ok().filter(|number| *number != 0)
}

/// Digits alone: the standard library would let a plus sign pass.
fn digits(value: &str) -> Option<&str> {
    value.bytes().all(|octet| octet.is_ascii_digit()).then_some(value)
}

/// How many, from 1 to the most that is offered.
pub fn parse_count(value: &str, most: usize) -> Result<usize, String> {
    let count = digits(value).and_then(|value| value.parse().ok());
    count.filter(|count| (1..=most).contains(count)).ok_or_else(|| format!("expected a count from 1 to {most}"))
}

pub fn yes_text(value: bool) -> &'static str {
    match value {
        true => "yes",
        false => "no",
    }
}

pub fn parse_yes(value: &str) -> Result<bool, String> {
    match value {
        "yes" => Ok(true),
        "no" => Ok(false),
        _ => Err("expected yes or no".to_string()),
    }
}

/// The octets in the order of image, filter and reply, so that a text can be held against a dump of any of them.
pub fn guid_text(guid: &[u8; 16]) -> String {
    guid.iter().map(|octet| format!("{octet:02x}")).collect()
}

pub fn parse_guid(value: &str) -> Result<[u8; 16], String> {
    let octets: Option<Vec<u8>> = value.as_bytes().chunks(2).map(octet_of).collect();
    octets.and_then(|octets| octets.try_into().ok()).ok_or_else(|| match wire_order(value) {
        Some(digits) => format!("expected 32 hex digits in wire order, which are {digits}"),
        None => "expected 32 hex digits, the GUID's octets in wire order".to_string(),
    })
}

/// The digits of a GUID in the usual dashed form, whose first three numbers stand little-endian on the wire.
fn wire_order(value: &str) -> Option<String> {
    let groups: Vec<&str> = value.split('-').collect();
    let lengths: Vec<usize> = groups.iter().map(|group| group.len()).collect();
    let hex = value.bytes().all(|octet| octet.is_ascii_hexdigit() || octet == b'-');
    if !hex || lengths != [8, 4, 4, 4, 12] {
        return None;
    }
    let turned = |group: &str| (0..group.len()).step_by(2).rev().map(|at| group[at..at + 2].to_string()).collect();
    let first: Vec<String> = groups[..3].iter().map(|group| turned(group)).collect();
    Some([first.concat(), groups[3..].concat()].concat().to_ascii_lowercase())
}

/// An authority of 2^32 or more is written in hex, as Windows does.
pub fn sid_text(sid: &Option<Sid>) -> String {
    let Some(sid) = sid else { return NONE.to_string() };
    let authority = match u32::try_from(sid.authority) {
        Ok(number) => number.to_string(),
        Err(_) => format!("0x{:012x}", sid.authority),
    };
    let subauthorities: String = sid.subauthorities.iter().map(|number| format!("-{number}")).collect();
    format!("S-1-{authority}{subauthorities}")
}

pub fn parse_sid(value: &str) -> Result<Option<Sid>, String> {
    match value {
        NONE => Ok(None),
        value => {
            let expected = "expected S-1-AUTHORITY and up to 15 numbers, each after a dash, or none";
            sid_of(value).map(Some).ok_or_else(|| expected.to_string())
        }
    }
}

fn sid_of(value: &str) -> Option<Sid> {
    let mut parts = value.strip_prefix("S-1-")?.split('-');
    let authority = authority_of(parts.next()?)?;
    let subauthorities = parts.map(|part| digits(part)?.parse().ok()).collect::<Option<Vec<u32>>>()?;
    (subauthorities.len() <= 15).then_some(Sid { authority, subauthorities })
}

fn authority_of(part: &str) -> Option<u64> {
    let number = match part.strip_prefix("0x") {
        Some(hex) if hex.bytes().all(|octet| octet.is_ascii_hexdigit()) => u64::from_str_radix(hex, 16).ok()?,
        _ => digits(part)?.parse().ok()?,
    };
    (number < 1 << 48).then_some(number)
}

pub fn address_text(address: [u8; 4]) -> String {
    Ipv4Addr::from(address).to_string()
}

pub fn parse_address(value: &str) -> Result<[u8; 4], String> {
    let address: Result<Ipv4Addr, _> = value.parse();
    address.map(|address| address.octets()).map_err(|_| "expected an IPv4 address, as 10.1.2.3".to_string())
}

pub fn network_text(subnet: &Subnet) -> String {
    format!("{}/{}", address_text(subnet.address), subnet.prefix)
}

/// The address and prefix of a subnet.
pub fn parse_network(value: &str) -> Result<([u8; 4], u8), String> {
    let expected = "expected an IPv4 address, a slash and a prefix from 0 to 32, as 10.1.0.0/16";
    let parse = || {
        let (address, prefix) = value.split_once('/')?;
        Some((parse_address(address).ok()?, digits(prefix)?.parse().ok()?))
    };
    parse().ok_or_else(|| expected.to_string())
}
