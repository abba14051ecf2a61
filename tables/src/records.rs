//! The line of one record, both ways. A word that a later version of a block adds is one more key here.

use crate::bits::{bits_text, parse_bits, CONTROL, ROLES, STATE};
use crate::table::{Account, Context, Record, Server, Site, Subnet};
use crate::values::{
    address_text, guid_text, name_text, network_text, optional_name_text, optional_site_text, parse_address,
    parse_context, parse_guid, parse_name, parse_network, parse_optional_name, parse_optional_site, parse_sid,
    parse_site, parse_yes, sid_text, yes_text,
};
use crate::words::Words;

/// The record of a line, by its first word and those after it.
pub fn parse_record(name: &str, words: &[&str]) -> Result<Record, String> {
    match name {
        "server" => parse_server(words).map(Record::Server),
        "forest" => Words::split(name, words, &["name"])?.value("name", parse_name).map(Record::Forest),
        "context" => parse_context_line(words).map(Record::Context),
        "account" => parse_account(words).map(Record::Account),
        "site" => parse_site_line(words).map(Record::Site),
        "subnet" => parse_subnet(words).map(Record::Subnet),
        _ => Err(format!("'{name}': expected server, forest, context, account, site, subnet, block or unused")),
    }
}

fn parse_server(words: &[&str]) -> Result<Server, String> {
    let words = Words::split("server", words, &["name", "host", "address", "site", "context", "roles", "state"])?;
    Ok(Server {
        netbios_name: words.value("name", parse_name)?,
        host_name: words.value("host", parse_name)?,
        address: words.value("address", parse_address)?,
        own_site: words.value("site", parse_site)?,
        default_context: words.value("context", parse_context)?,
        roles: words.value("roles", |value| parse_bits(value, ROLES))?,
        state: words.value("state", |value| parse_bits(value, STATE))?,
    })
}

fn parse_context_line(words: &[&str]) -> Result<Context, String> {
    let words = Words::split("context", words, &["number", "dns", "netbios", "application", "guid", "sid"])?;
    Ok(Context {
        number: words.value("number", parse_context)?,
        dns_name: words.value("dns", parse_name)?,
        netbios_name: words.value("netbios", parse_optional_name)?,
        application: words.value("application", parse_yes)?,
        guid: words.value("guid", parse_guid)?,
        sid: words.value("sid", parse_sid)?,
    })
}

fn parse_account(words: &[&str]) -> Result<Account, String> {
    let words = Words::split("account", words, &["name", "context", "control"])?;
    Ok(Account {
        name: words.value("name", parse_name)?,
        context: words.value("context", parse_context)?,
        control: words.value("control", |value| parse_bits(value, CONTROL))?,
    })
}

fn parse_site_line(words: &[&str]) -> Result<Site, String> {
    let words = Words::split("site", words, &["number", "name", "next"])?;
    Ok(Site {
        number: words.value("number", parse_site)?,
        name: words.value("name", parse_name)?,
        next_closest: words.value("next", parse_optional_site)?,
    })
}

fn parse_subnet(words: &[&str]) -> Result<Subnet, String> {
    let words = Words::split("subnet", words, &["network", "site"])?;
    let (address, prefix) = words.value("network", parse_network)?;
    Ok(Subnet { address, prefix, site: words.value("site", parse_optional_site)? })
}

/// The line that shows a record, in the order of words that parse_record lists.
pub fn record_line(record: &Record) -> String {
    match record {
        Record::Server(server) => server_line(server),
        Record::Forest(name) => format!("forest name={}", name_text(name)),
        Record::Context(context) => context_line(context),
        Record::Account(account) => format!(
            "account name={} context={} control={}",
            name_text(&account.name),
            account.context.0,
            bits_text(account.control, CONTROL)
        ),
        Record::Site(site) => format!(
            "site number={} name={} next={}",
            site.number.0,
            name_text(&site.name),
            optional_site_text(site.next_closest)
        ),
        Record::Subnet(subnet) => {
            format!("subnet network={} site={}", network_text(subnet), optional_site_text(subnet.site))
        }
    }
}

fn server_line(server: &Server) -> String {
    format!(
        "server name={} host={} address={} site={} context={} roles={} state={}",
        name_text(&server.netbios_name),
        name_text(&server.host_name),
        address_text(server.address),
        server.own_site.0,
        server.default_context.0,
        bits_text(server.roles, ROLES),
        bits_text(server.state, STATE)
    )
}

fn context_line(context: &Context) -> String {
    format!(
        "context number={} dns={} netbios={} application={} guid={} sid={}",
        context.number.0,
        name_text(&context.dns_name),
        optional_name_text(&context.netbios_name),
        yes_text(context.application),
        guid_text(&context.guid),
        sid_text(&context.sid)
    )
}
