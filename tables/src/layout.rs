//! Records as octets (document 01, "The table image", body offsets).

use crate::table::{Account, Context, ContextNumber, Kind, Record, Server, Sid, Site, SiteNumber, Subnet};

const NETBIOS_ROOM: usize = 15;
const DNS_ROOM: usize = 253;
const ACCOUNT_ROOM: usize = 63;
const SITE_ROOM: usize = 63;
const MOST_SUBAUTHORITIES: usize = 15;

/// The octets of a record, as many as its kind has; a record that judge_record refuses may not fit.
pub fn record_octets(record: &Record) -> Vec<u8> {
    let mut octets = vec![0; record.kind().record_length()];
    match record {
        Record::Server(server) => put_server(&mut octets, server),
        Record::Forest(name) => put_text(&mut octets, 0, name),
        Record::Context(context) => put_context(&mut octets, context),
        Record::Account(account) => {
            put(&mut octets, 0, &account.context.0.to_le_bytes());
            put(&mut octets, 4, &account.control.to_le_bytes());
            put_text(&mut octets, 8, &account.name);
        }
        Record::Site(site) => {
            put(&mut octets, 0, &site.number.0.to_le_bytes());
            put_text(&mut octets, 2, &site.name);
            put(&mut octets, 66, &site_octets(site.next_closest));
        }
        Record::Subnet(subnet) => {
            put(&mut octets, 0, &subnet.address);
            put(&mut octets, 4, &[subnet.prefix, 1]);
            put(&mut octets, 6, &site_octets(subnet.site));
        }
    }
    octets
}

fn put_server(octets: &mut [u8], server: &Server) {
    put(octets, 0, &server.roles.to_le_bytes());
    put(octets, 4, &server.state.to_le_bytes());
    put(octets, 8, &server.address);
    put(octets, 12, &server.own_site.0.to_le_bytes());
    put(octets, 14, &server.default_context.0.to_le_bytes());
    put_text(octets, 16, &server.netbios_name);
    put_text(octets, 32, &server.host_name);
}

fn put_context(octets: &mut [u8], context: &Context) {
    put(octets, 0, &context.number.0.to_le_bytes());
    put(octets, 2, &[u8::from(context.application), u8::from(context.sid.is_some())]);
    put(octets, 4, &context.guid);
    if let Some(sid) = &context.sid {
        put(octets, 20, &sid_octets(sid));
    }
    put_text(octets, 88, &context.netbios_name);
    put_text(octets, 104, &context.dns_name);
}

fn put(octets: &mut [u8], at: usize, source: &[u8]) {
    octets[at..at + source.len()].copy_from_slice(source);
}

fn put_text(octets: &mut [u8], at: usize, text: &[u8]) {
    octets[at] = text.len() as u8;
    put(octets, at + 1, text);
}

fn site_octets(site: Option<SiteNumber>) -> [u8; 2] {
    site.map_or(0, |number| number.0).to_le_bytes()
}

/// The authority is the one number in a table that stands big-endian.
fn sid_octets(sid: &Sid) -> Vec<u8> {
    let mut octets = vec![1, sid.subauthorities.len() as u8];
    octets.extend_from_slice(&sid.authority.to_be_bytes()[2..]);
    octets.extend(sid.subauthorities.iter().flat_map(|number| number.to_le_bytes()));
    octets
}

/// The record that octets of its kind's length hold. Its values are not yet judged, and octets that must be zero are
/// passed over: they are those that record_octets does not give back.
pub fn read_record(kind: Kind, octets: &[u8]) -> Result<Record, String> {
    match kind {
        Kind::Server => read_server(octets).map(Record::Server),
        Kind::Forest => text_at(octets, 0, DNS_ROOM, "forest name").map(Record::Forest),
        Kind::Context => read_context(octets).map(Record::Context),
        Kind::Accounts => read_account(octets).map(Record::Account),
        Kind::Sites => read_site(octets).map(Record::Site),
        Kind::Subnets => read_subnet(octets).map(Record::Subnet),
    }
}

fn read_server(octets: &[u8]) -> Result<Server, String> {
    Ok(Server {
        roles: u32::from_le_bytes(array_at(octets, 0)),
        state: u32::from_le_bytes(array_at(octets, 4)),
        address: array_at(octets, 8),
        own_site: SiteNumber(u16_at(octets, 12)),
        default_context: ContextNumber(u16_at(octets, 14)),
        netbios_name: text_at(octets, 16, NETBIOS_ROOM, "NetBIOS name")?,
        host_name: text_at(octets, 32, DNS_ROOM, "host name")?,
    })
}

fn read_context(octets: &[u8]) -> Result<Context, String> {
    let application = flag_at(octets, 2, "application octet")?;
    let has_sid = flag_at(octets, 3, "has-SID octet")?;
    Ok(Context {
        number: ContextNumber(u16_at(octets, 0)),
        application,
        guid: array_at(octets, 4),
        sid: has_sid.then(|| sid_at(octets, 20)).transpose()?,
        netbios_name: text_at(octets, 88, NETBIOS_ROOM, "NetBIOS name")?,
        dns_name: text_at(octets, 104, DNS_ROOM, "DNS name")?,
    })
}

fn read_account(octets: &[u8]) -> Result<Account, String> {
    Ok(Account {
        context: ContextNumber(u16_at(octets, 0)),
        control: u32::from_le_bytes(array_at(octets, 4)),
        name: text_at(octets, 8, ACCOUNT_ROOM, "account name")?,
    })
}

fn read_site(octets: &[u8]) -> Result<Site, String> {
    Ok(Site {
        number: SiteNumber(u16_at(octets, 0)),
        name: text_at(octets, 2, SITE_ROOM, "site name")?,
        next_closest: optional_site_at(octets, 66),
    })
}

fn read_subnet(octets: &[u8]) -> Result<Subnet, String> {
    if octets[5] != 1 {
        return Err(format!("in-use octet {}: expected 1, or a record of zeros", octets[5]));
    }
    Ok(Subnet { address: array_at(octets, 0), prefix: octets[4], site: optional_site_at(octets, 6) })
}

fn array_at<const LENGTH: usize>(octets: &[u8], at: usize) -> [u8; LENGTH] {
    std::array::from_fn(|place| octets[at + place])
}

fn u16_at(octets: &[u8], at: usize) -> u16 {
    u16::from_le_bytes(array_at(octets, at))
}

fn optional_site_at(octets: &[u8], at: usize) -> Option<SiteNumber> {
    Some(SiteNumber(u16_at(octets, at))).filter(|number| number.0 != 0)
}

fn flag_at(octets: &[u8], at: usize, what: &str) -> Result<bool, String> {
    match octets[at] {
        0 => Ok(false),
        1 => Ok(true),
        other => Err(format!("{what} {other}: expected 0 or 1")),
    }
}

fn text_at(octets: &[u8], at: usize, room: usize, what: &str) -> Result<Vec<u8>, String> {
    let length = usize::from(octets[at]);
    match length <= room {
        true => Ok(octets[at + 1..at + 1 + length].to_vec()),
        false => Err(format!("{what} of {length} octets: expected at most {room}")),
    }
}

fn sid_at(octets: &[u8], at: usize) -> Result<Sid, String> {
    let [revision, count, authority @ ..] = array_at::<8>(octets, at);
    let count = usize::from(count);
    if revision != 1 || count > MOST_SUBAUTHORITIES {
        return Err(format!("SID of revision {revision} and count {count}: expected 1 and at most 15"));
    }
    let authority = authority.iter().fold(0, |number, octet| number << 8 | u64::from(*octet));
    let subauthority = |place| u32::from_le_bytes(array_at(octets, at + 8 + 4 * place));
    Ok(Sid { authority, subauthorities: (0..count).map(subauthority).collect() })
}
