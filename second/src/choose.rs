//! Choosing the answer (document 01, "Choosing the answer"): context, user, site, form, opcode and flags.

use crate::answers::{require, Refusal};
use crate::filter::Clauses;
use crate::octets::{is_sid, parts_between_dots, u32_whole};
use crate::table::{same_account_name, same_dns_name, Account, Context, Site, Subnet, Table};

const VERSION_5: u32 = 0x2;
const VERSION_5EX: u32 = 0x4;
const VERSION_5EX_WITH_ADDRESS: u32 = 0x8;
const VERSION_WITH_CLOSEST_SITE: u32 = 0x10;
const VERSION_AVOID_NT4: u32 = 0x0100_0000;
const VERSION_PDC: u32 = 0x1000_0000;
const VERSION_LOCAL: u32 = 0x4000_0000;

const ROLE_PDC: u32 = 1 << 0;
const ROLE_CATALOG: u32 = 1 << 1;
const ROLE_KDC: u32 = 1 << 2;
const ROLE_TIME: u32 = 1 << 3;
const ROLE_READ_ONLY: u32 = 1 << 4;
const ROLE_GOOD_TIME: u32 = 1 << 5;
const ROLE_WEB: u32 = 1 << 6;
const ROLE_2012: u32 = 1 << 7;
const ROLE_2012_R2: u32 = 1 << 8;
const ROLE_NT4_WANTED: u32 = 1 << 9;
const ROLE_LATER_THAN_2003_R2: u32 = 1 << 10;
const ROLE_LEVEL_2008: u32 = 1 << 11;

const STATE_PAUSED: u32 = 1 << 0;
const STATE_SYNCHRONIZED: u32 = 1 << 1;
const STATE_RPC_INITIALIZED: u32 = 1 << 2;
const STATE_FRS_PAUSED: u32 = 1 << 3;

const ACCOUNT_DISABLED: u32 = 0x1;
/// The five kinds of account as one mask.
const ACCOUNT_KINDS: u32 = 0x1D8;

const FLAG_PDC: u32 = 0x1;
const FLAG_DS: u32 = 0x10;
const FLAG_LDAP: u32 = 0x8;

#[derive(Clone, Copy, Debug, PartialEq, Eq)]
pub enum Form {
    Nt40,
    Response,
    Ex,
}

impl Form {
    pub const ALL: [Form; 3] = [Form::Nt40, Form::Response, Form::Ex];

    /// The opcodes of this form: answered, paused, user unknown.
    fn opcodes(self) -> [u16; 3] {
        match self {
            Form::Nt40 | Form::Response => [19, 20, 21],
            Form::Ex => [23, 24, 25],
        }
    }
}

/// The client's IPv4 address, first octet most significant.
#[derive(Clone, Copy, Debug)]
pub struct ClientAddress(u32);

impl ClientAddress {
    pub fn from_octets(octets: [u8; 4]) -> ClientAddress {
        ClientAddress(u32::from_be_bytes(octets))
    }

    fn lies_in(self, subnet: &Subnet) -> bool {
        self.0 & subnet.mask == subnet.address
    }
}

/// All that a reply is made from, besides the table's own names.
#[derive(Debug)]
pub struct Choice<'a> {
    pub context: Context<'a>,
    pub user: Option<&'a [u8]>,
    pub form: Form,
    pub opcode: u16,
    pub flags: u32,
    pub client_site: Option<Site<'a>>,
    pub with_address: bool,
    pub next_closest_site: Option<Site<'a>>,
}

/// Chooses the answer to a filter whose values passed 9: refusals 11 to 18, in that order.
pub fn choose<'a>(
    table: &Table<'a>,
    client: ClientAddress,
    clauses: &Clauses<'a>,
    version: u32,
) -> Result<Choice<'a>, Refusal> {
    let by_guid = context_by_guid(table, clauses.domain_guid)?;
    let by_dns_name = context_by_dns_name(table, clauses.dns_domain)?;
    let context = by_guid.or(by_dns_name).unwrap_or(default_context(table));
    judge_sid(table, &context, clauses.domain_sid)?;
    let form = form_of(table.server.roles, version);
    judge_user_parts(form, clauses.user)?;
    let client_site = client_site(table, client);
    let names_application = by_dns_name.is_some_and(|named| named.application);
    Ok(Choice {
        context,
        user: clauses.user,
        form,
        opcode: opcode_of(form, is_paused(table, version), user_unknown(table, &context, clauses)),
        flags: match form {
            Form::Ex => ex_flags(table, client_site, names_application),
            Form::Nt40 | Form::Response => response_flags(table.server.roles),
        },
        client_site,
        with_address: version & VERSION_5EX_WITH_ADDRESS != 0,
        next_closest_site: next_closest_site(table, version, client_site),
    })
}

/// The contexts among which a ping's clauses are looked up.
fn contexts_searched<'t, 'a>(table: &'t Table<'a>) -> impl Iterator<Item = &'t Context<'a>> {
    table.contexts.iter()
}

/// The context used where no clause names one.
fn default_context<'a>(table: &Table<'a>) -> Context<'a> {
    table.default_context
}

/// Refusals 11 and 12. None where there is no such clause, so that a GUID of zeros is still looked up.
fn context_by_guid<'a>(table: &Table<'a>, guid: Option<&[u8]>) -> Result<Option<Context<'a>>, Refusal> {
    let Some(guid) = guid else { return Ok(None) };
    require(guid.len() == 16, Refusal::GuidLength)?;
    let held = contexts_searched(table).find(|context| context.guid == guid);
    held.copied().map(Some).ok_or(Refusal::GuidNotHeld)
}

/// Refusals 13 and 14.
fn context_by_dns_name<'a>(table: &Table<'a>, name: Option<&[u8]>) -> Result<Option<Context<'a>>, Refusal> {
    let Some(name) = name else { return Ok(None) };
    require(!name.is_empty(), Refusal::DnsDomainEmpty)?;
    let name = without_closing_dot(name);
    let held = contexts_searched(table).find(|context| same_dns_name(context.dns_name, name));
    held.copied().map(Some).ok_or(Refusal::DnsDomainNotHeld)
}

/// A DnsDomain value as it is compared (#107): without a closing dot that comes after another octet than a dot. No name
/// of a table ends in a dot, so that a value which keeps its dots finds no context.
fn without_closing_dot(value: &[u8]) -> &[u8] {
    match value.split_last() {
        Some((b'.', before)) if before.last().is_some_and(|octet| *octet != b'.') => before,
        _ => value,
    }
}

/// Refusals 15, 16 and 17. A context without SID matches none.
fn judge_sid(table: &Table, used: &Context, sid: Option<&[u8]>) -> Result<(), Refusal> {
    let Some(sid) = sid else { return Ok(()) };
    require(is_sid(sid), Refusal::SidShape)?;
    let held = contexts_searched(table).any(|context| context.sid == Some(sid));
    require(held, Refusal::SidNotHeld)?;
    require(used.sid == Some(sid), Refusal::SidOfAnotherContext)
}

/// Refusal 18: a user that goes into the reply as a name must have no empty label.
fn judge_user_parts(form: Form, user: Option<&[u8]>) -> Result<(), Refusal> {
    let labels = parts_between_dots(user.unwrap_or_default());
    let some_part_empty = labels.iter().any(|label| label.is_empty());
    require(form != Form::Ex || !some_part_empty, Refusal::UserPartEmpty)
}

/// Whether a user was asked for and there is no x for it. An absent AAC is 0, which finds no account.
fn user_unknown(table: &Table, used: &Context, clauses: &Clauses) -> bool {
    let Some(user) = clauses.user else { return false };
    let aac = clauses.aac.and_then(u32_whole).unwrap_or(0);
    let is_asked_for = |account: &&Account| account.context == used.number && same_account_name(account.name, user);
    let account = table.accounts.iter().find(is_asked_for);
    !account.is_some_and(|account| is_usable(account, aac))
}

fn is_usable(account: &Account, aac: u32) -> bool {
    account.control & ACCOUNT_DISABLED == 0 && aac & account.control & ACCOUNT_KINDS != 0
}

/// The client's site s: a lone site, or that of the nearest subnet holding the address (#102). Where that one has none,
/// a shorter one does not step in.
fn client_site<'a>(table: &Table<'a>, client: ClientAddress) -> Option<Site<'a>> {
    if let [only] = table.sites.as_slice() {
        return Some(*only);
    }
    let holding = table.subnets.iter().filter(|subnet| client.lies_in(subnet));
    let nearest = holding.max_by_key(|subnet| subnet.prefix_length())?;
    table.site(nearest.site?).copied()
}

fn form_of(roles: u32, version: u32) -> Form {
    if roles & ROLE_NT4_WANTED != 0 && version & VERSION_AVOID_NT4 == 0 {
        Form::Nt40
    } else if version & (VERSION_5EX | VERSION_5EX_WITH_ADDRESS) != 0 {
        Form::Ex
    } else if version & VERSION_5 != 0 {
        Form::Response
    } else {
        Form::Nt40
    }
}

/// Document 01's t.
fn is_paused(table: &Table, version: u32) -> bool {
    let state = table.server.state;
    let asks_this_pdc = version & VERSION_PDC != 0 && table.server.roles & ROLE_PDC != 0;
    let local = version & VERSION_LOCAL != 0;
    (state & STATE_PAUSED != 0 && !asks_this_pdc)
        || state & STATE_SYNCHRONIZED == 0
        || (state & STATE_RPC_INITIALIZED == 0 && !local)
        || state & STATE_FRS_PAUSED != 0
}

fn opcode_of(form: Form, paused: bool, user_unknown: bool) -> u16 {
    let [answered, pause, unknown] = form.opcodes();
    match (paused, user_unknown) {
        (true, _) => pause,
        (false, true) => unknown,
        (false, false) => answered,
    }
}

fn response_flags(roles: u32) -> u32 {
    let pdc = if roles & ROLE_PDC != 0 { FLAG_PDC } else { 0 };
    FLAG_DS | pdc
}

fn ex_flags(table: &Table, client_site: Option<Site>, names_application: bool) -> u32 {
    let has = |role: u32| table.server.roles & role != 0;
    let same_site = client_site.is_some_and(|site| site.number == table.own_site.number);
    let given = [
        (has(ROLE_PDC), FLAG_PDC),
        (has(ROLE_CATALOG), 0x4),
        (true, FLAG_LDAP),
        (true, FLAG_DS),
        (has(ROLE_KDC), 0x20),
        (has(ROLE_TIME), 0x40),
        (same_site, 0x80),
        (!has(ROLE_READ_ONLY), 0x100),
        (has(ROLE_GOOD_TIME), 0x200),
        (names_application, 0x400),
        (has(ROLE_READ_ONLY), 0x800),
        (!has(ROLE_READ_ONLY) && has(ROLE_LATER_THAN_2003_R2), 0x1000),
        (has(ROLE_WEB), 0x2000),
        (has(ROLE_2012), 0x4000),
        (has(ROLE_2012_R2), 0x8000),
    ];
    given.into_iter().filter(|(set, _)| *set).fold(0, |flags, (_, flag)| flags | flag)
}

/// The site that name 8 gives, none where the reply has no name 8.
fn next_closest_site<'a>(table: &Table<'a>, version: u32, client_site: Option<Site>) -> Option<Site<'a>> {
    let asked = version & VERSION_WITH_CLOSEST_SITE != 0 && table.server.roles & ROLE_LEVEL_2008 != 0;
    let number = client_site?.next_closest.filter(|_| asked)?;
    table.site(number).copied()
}

#[cfg(test)]
mod tests {
    use super::*;

    #[test]
    fn one_closing_dot_is_left_out() {
        let longest = [b'a'; 253];
        let cases: [(&[u8], &[u8]); 5] = [
            (b"a.", b"a"),
            (b"Corp.Example.", b"Corp.Example"),
            (b".a.", b".a"),
            (b"\0.", b"\0"),
            (&[&longest[..], b"."].concat(), &longest),
        ];
        for (value, compared) in cases {
            assert_eq!(without_closing_dot(value), compared);
        }
    }

    #[test]
    fn every_other_value_stays_as_it_is() {
        for value in [&b""[..], b".", b"..", b"...", b"a", b"a..", b"a...", b".a", b"a.b", b"a,", b"a\xAE", b"\0"] {
            assert_eq!(without_closing_dot(value), value);
        }
    }
}
