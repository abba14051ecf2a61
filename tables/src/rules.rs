//! What a record must be by itself (answer 3 of document 01).

use crate::bits::{unnamed, ROLES, STATE};
use crate::table::{Account, Context, Record, Server, Site, Subnet};

/// Judges a record; the message says what was expected.
pub fn judge_record(record: &Record) -> Result<(), String> {
    match record {
        Record::Server(server) => judge_server(server),
        Record::Forest(name) => require_dns_name(name, "forest name"),
        Record::Context(context) => judge_context(context),
        Record::Account(account) => judge_account(account),
        Record::Site(site) => judge_site(site),
        Record::Subnet(subnet) => judge_subnet(subnet),
    }
}

fn judge_server(server: &Server) -> Result<(), String> {
    require_named_bits(server.roles, ROLES, "roles")?;
    require_named_bits(server.state, STATE, "state")?;
    require(server.own_site.0 != 0, "own site 0: expected a site number from 1")?;
    require(server.default_context.0 != 0, "default context 0: expected a context number from 1")?;
    require_netbios_name(&server.netbios_name)?;
    require_dns_name(&server.host_name, "host name")
}

fn judge_context(context: &Context) -> Result<(), String> {
    require(context.number.0 != 0, "context number 0: expected one from 1")?;
    require(context.guid != [0; 16], "GUID of zeros: expected another one")?;
    require(!context.application || context.sid.is_none(), "application context with a SID: expected none")?;
    let named = !context.netbios_name.is_empty();
    require(named || context.application, "no NetBIOS name: expected one, as application contexts alone may lack it")?;
    if named {
        require_netbios_name(&context.netbios_name)?;
    }
    require_dns_name(&context.dns_name, "context's DNS name")
}

fn judge_account(account: &Account) -> Result<(), String> {
    require(account.context.0 != 0, "account's context 0: expected a context number from 1")?;
    let name = &account.name;
    let good = (1..=63).contains(&name.len()) && !name.contains(&0) && std::str::from_utf8(name).is_ok();
    require(good, "account name: expected 1 to 63 octets of UTF-8, none of them zero")
}

fn judge_site(site: &Site) -> Result<(), String> {
    require(site.number.0 != 0, "site number 0: expected one from 1")?;
    let good = (1..=63).contains(&site.name.len()) && is_one_label(&site.name);
    require(good, "site name: expected 1 to 63 printable ASCII octets, no space, no dot")
}

fn judge_subnet(subnet: &Subnet) -> Result<(), String> {
    require(subnet.prefix <= 32, "prefix over 32: expected 0 to 32")?;
    let past_prefix = u32::MAX.checked_shr(u32::from(subnet.prefix)).unwrap_or(0);
    let good = u32::from_be_bytes(subnet.address) & past_prefix == 0;
    require(good, "address bits past the prefix: expected zeros there")
}

fn require_named_bits(bits: u32, names: &[&str], what: &str) -> Result<(), String> {
    let rest = unnamed(bits, names);
    require(rest == 0, &format!("{what} with bits {rest:#x}: expected zeros there"))
}

fn require_netbios_name(name: &[u8]) -> Result<(), String> {
    let good = (1..=15).contains(&name.len()) && is_one_label(name);
    require(good, "NetBIOS name: expected 1 to 15 printable ASCII octets, no space, no dot")
}

fn require_dns_name(name: &[u8], what: &str) -> Result<(), String> {
    let good = (1..=253).contains(&name.len())
        && name.split(|&octet| octet == b'.').all(|label| (1..=63).contains(&label.len()))
        && name.iter().all(u8::is_ascii_graphic);
    let expected = "expected labels of 1 to 63 printable ASCII octets joined by dots, at most 253 in all";
    require(good, &format!("{what}: {expected}"))
}

fn is_one_label(name: &[u8]) -> bool {
    name.iter().all(|octet| octet.is_ascii_graphic() && *octet != b'.')
}

fn require(good: bool, message: &str) -> Result<(), String> {
    match good {
        true => Ok(()),
        false => Err(message.to_string()),
    }
}
