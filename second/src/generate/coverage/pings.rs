//! The cases of ping lines: each refusal by its causes and before later ones, and each way to an answer.

use super::super::pings::reply_to;
use super::accents;
use super::closing_dot;
use super::letters::alike;
use super::places::name_places;
use super::samples::sample_met;
use super::subnets;
use super::without_version::{self, Line};
use super::Met;
use crate::choose::Form;
use crate::filter::{judge_values, take_apart, ClauseName, Clauses};
use crate::lines::{form_of_word, octets_of_word, word_of_form};
use crate::octets::u32_whole;
use crate::reader::{read_reply, Fields, Name, Reply};
use crate::table::{read_table, Context, Site, Subnet, Table};

/// A ping on a good table with a filter that is taken apart.
struct Ping<'a> {
    table: &'a Table<'a>,
    clauses: Clauses<'a>,
    client: u32,
    version: u32,
}

/// None where the words are not those of a ping.
pub fn add_cases(image: &[u8], request: &[&str], answer: &[&str], met: &mut Met) -> Option<()> {
    let [_, client, filter, room] = request else { return None };
    let [_, number, length, _, form, buffer] = answer else { return None };
    let client: [u8; 4] = octets_of_word(client)?.try_into().ok()?;
    let filter = octets_of_word(filter)?;
    if let Some(sample) = sample_met(image, &filter, room, &answer.join(" ")) {
        met.add(sample);
    }
    let room: usize = room.parse().ok()?;
    let line = Line { image, client, filter: &filter, room, answer };
    without_version::add_cases(&line, met);
    closing_dot::add_cases(&line, met);
    subnets::add_pings(&line, met);
    accents::add_pings(&line, met);
    if !["0", "19"].contains(number) {
        met.add_if(room < 30, format!("refused with {number}, little room"));
        met.add_if(room > 100, format!("refused with {number}, much room"));
    }
    let Ok(table) = read_table(image) else { return Some(()) };
    let Ok(clauses) = take_apart(&filter) else { return Some(()) };
    add_refusals(&table, &clauses, number, met);
    let Ok(version) = judge_values(&clauses) else { return Some(()) };
    let ping = Ping { table: &table, clauses, client: u32::from_be_bytes(client), version };
    if let Some((form, reply)) = reply_to(image, client, &filter) {
        add_rooms(form, reply.len(), room, number, met);
    }
    if *number == "0" {
        met.add_if(image.len() == 65_536, "answered on 128 blocks");
        met.add_if(filter.first() == Some(&0xA3), "answered to an equality alone");
        let reply = octets_of_word(buffer)?;
        ping.add_answer(form_of_word(form)?, reply.get(..length.parse().ok()?)?, met);
    }
    Some(())
}

fn add_rooms(form: Form, length: usize, room: usize, number: &str, met: &mut Met) {
    let form = word_of_form(form);
    met.add_if(number == "0" && room == length, format!("{form}: room of its length"));
    met.add_if(number == "0" && room > length, format!("{form}: room to spare"));
    met.add_if(number == "19" && room + 1 == length, format!("{form}: room of one octet less"));
    met.add_if(number == "19" && room == 0, format!("{form}: no room"));
}

/// What one clause is refused with, were it judged alone. The numbers of all clauses in turn show the order.
fn refusals_alone(table: &Table, clauses: &Clauses) -> Vec<u8> {
    let mut numbers = Vec::new();
    match judge_values(clauses) {
        Ok(_) => {}
        Err(refusal) => numbers.push(refusal.number()),
    }
    numbers.extend(clauses.domain_guid.and_then(|guid| match guid.len() {
        16 => (!table.contexts.iter().any(|context| context.guid == guid)).then_some(12),
        _ => Some(11),
    }));
    numbers.extend(clauses.dns_domain.and_then(|name| match name {
        [] => Some(13),
        _ => (!table.contexts.iter().any(|context| is_named(context, name))).then_some(14),
    }));
    numbers.extend(clauses.domain_sid.and_then(|sid| match sid_fault(sid) {
        Some(_) => Some(15),
        None => (!table.contexts.iter().any(|context| context.sid == Some(sid))).then_some(16),
    }));
    let empty_part =
        clauses.user.is_some_and(|user| !user.is_empty() && user.split(|&octet| octet == b'.').any(<[u8]>::is_empty));
    numbers.extend(empty_part.then_some(18));
    numbers
}

/// No name of a table ends in a dot, so that these two spellings are all that name a context.
pub fn is_named(context: &Context, name: &[u8]) -> bool {
    let dotted = [context.dns_name, b"."].concat();
    context.dns_name.eq_ignore_ascii_case(name) || dotted.eq_ignore_ascii_case(name)
}

fn sid_fault(sid: &[u8]) -> Option<&'static str> {
    match sid {
        [] => Some("empty"),
        [revision, ..] if *revision != 1 => Some("revision"),
        [_, count, ..] if *count > 15 => Some("count"),
        [_, count, ..] if sid.len() > 8 + 4 * usize::from(*count) => Some("long"),
        [_, count, ..] if sid.len() == 8 + 4 * usize::from(*count) => None,
        _ => Some("short"),
    }
}

fn add_refusals(table: &Table, clauses: &Clauses, number: &str, met: &mut Met) {
    let alone = refusals_alone(table, clauses);
    for later in alone.iter().filter(|later| number.parse::<u8>().is_ok_and(|number| number < **later)) {
        met.add_if(number != "0", format!("{number} before {later}"));
    }
    match number {
        "9" => add_values(clauses, met),
        "11" => met.add(format!("11: {} octets", clauses.domain_guid.map_or(0, <[u8]>::len))),
        "15" => met.add(format!("15: {}", clauses.domain_sid.and_then(sid_fault).unwrap_or("none"))),
        "17" => add_other_sid(table, clauses, met),
        "18" => add_empty_part(clauses.user.unwrap_or_default(), met),
        _ => {}
    }
}

fn add_values(clauses: &Clauses, met: &mut Met) {
    let other_length = |value: Option<&[u8]>| value.is_some_and(|value| value.len() != 4);
    let user = clauses.user.unwrap_or_default();
    let faults = [
        (other_length(clauses.nt_ver), "NtVer"),
        (other_length(clauses.aac), "AAC"),
        (user.len() > 63, "User over 63"),
        (std::str::from_utf8(user).is_err(), "User not UTF-8"),
        (user.contains(&0), "User with a zero octet"),
    ];
    if let [cause] = faults.iter().filter(|(fault, _)| *fault).map(|(_, cause)| cause).collect::<Vec<_>>().as_slice() {
        met.add(format!("9: {cause}"));
    }
}

fn add_other_sid(table: &Table, clauses: &Clauses, met: &mut Met) {
    let used = context_used(table, clauses);
    let sort = if used.sid.is_some() { "another SID" } else { "no SID" };
    met.add(format!("17: the context used has {sort}"));
}

fn add_empty_part(user: &[u8], met: &mut Met) {
    met.add_if(user.windows(2).any(|pair| pair == b".."), "18: inside");
    met.add_if(user.starts_with(b".") && !user.ends_with(b"."), "18: first");
    met.add_if(user.ends_with(b".") && !user.starts_with(b"."), "18: last");
    met.add_if(user == b".", "18: a dot alone");
}

fn context_by_guid<'a>(table: &Table<'a>, clauses: &Clauses) -> Option<Context<'a>> {
    table.contexts.iter().find(|context| clauses.domain_guid == Some(context.guid)).copied()
}

fn context_by_name<'a>(table: &Table<'a>, clauses: &Clauses) -> Option<Context<'a>> {
    table.contexts.iter().find(|context| clauses.dns_domain.is_some_and(|name| is_named(context, name))).copied()
}

fn context_used<'a>(table: &Table<'a>, clauses: &Clauses) -> Context<'a> {
    context_by_guid(table, clauses).or(context_by_name(table, clauses)).unwrap_or(table.default_context)
}

fn is_set(bits: u32, bit: u32) -> bool {
    bits & bit != 0
}

const NT4_WANTED: u32 = 0x200;
const AVOID_NT4: u32 = 0x0100_0000;
const ASK_PDC: u32 = 0x1000_0000;
const ASK_LOCAL: u32 = 0x4000_0000;
const LEVEL_2008: u32 = 0x800;

impl Ping<'_> {
    fn add_answer(&self, form: Form, octets: &[u8], met: &mut Met) {
        let Ok(reply) = read_reply(form, self.version, octets) else { return };
        self.add_form(form, met);
        self.add_opcode(form, &reply, met);
        self.add_context(form, &reply, met);
        self.add_user(form, &reply, met);
        self.add_site(&reply, met);
        self.add_lengths(form, met);
        for name in ClauseName::ALL {
            met.add_if(self.clauses.get(name).is_some(), format!("answered with {name:?}"));
        }
        for bit in 0..32 {
            let on = if is_set(self.version, 1 << bit) { "on" } else { "off" };
            met.add(format!("version bit {bit} {on}"));
        }
        match &reply.fields {
            Fields::Nt40 { .. } => self.add_unused_name_8(form, met),
            Fields::Response { names, flags, .. } => {
                self.add_unused_name_8(form, met);
                add_flags(form, *flags, met);
                self.add_names(form, octets, names, met);
            }
            Fields::Ex { names, flags, address, name_8, .. } => {
                add_flags(form, *flags, met);
                self.add_read_only(met);
                self.add_name_8(address.is_some(), name_8.is_some(), met);
                let names: Vec<&Name> = names.iter().chain(name_8).collect();
                self.add_names(form, octets, names, met);
            }
        }
    }

    fn add_form(&self, form: Form, met: &mut Met) {
        let wanted = match (is_set(self.table.server.roles, NT4_WANTED), is_set(self.version, AVOID_NT4)) {
            (false, _) => "",
            (true, false) => ", NT4 wanted",
            (true, true) => ", NT4 wanted and avoided",
        };
        met.add(format!("{} for v {:x}{wanted}", word_of_form(form), self.version & 0xE));
    }

    /// The causes of t that hold.
    fn pauses(&self) -> Vec<&'static str> {
        let (roles, state) = (self.table.server.roles, self.table.server.state);
        let paused = match (is_set(self.version, ASK_PDC), is_set(roles, 1)) {
            (false, false) => Some("paused, not PDC"),
            (false, true) => Some("paused, PDC not asked for"),
            (true, false) => Some("paused, asked for a PDC and none"),
            (true, true) => None,
        };
        let mut causes: Vec<&str> = paused.filter(|_| is_set(state, 1)).into_iter().collect();
        causes.extend((!is_set(state, 2)).then_some("not synchronized"));
        causes.extend((!is_set(state, 4) && !is_set(self.version, ASK_LOCAL)).then_some("RPC not initialized"));
        causes.extend(is_set(state, 8).then_some("FRS paused"));
        causes
    }

    fn user_unknown(&self) -> bool {
        let used = context_used(self.table, &self.clauses);
        let aac = self.clauses.aac.and_then(u32_whole).unwrap_or(0);
        self.clauses.user.is_some_and(|user| {
            !self.table.accounts.iter().any(|account| {
                account.context == used.number
                    && alike(account.name, user)
                    && !is_set(account.control, 1)
                    && is_set(aac & account.control, 0x1D8)
            })
        })
    }

    fn add_opcode(&self, form: Form, reply: &Reply, met: &mut Met) {
        let word = word_of_form(form);
        met.add(format!("{word} opcode {}", reply.opcode));
        let state = self.table.server.state;
        match self.pauses().as_slice() {
            [] => {
                met.add_if(is_set(state, 1), "t 0: paused, asked for this PDC");
                met.add_if(!is_set(state, 4), "t 0: RPC not initialized, asked locally");
            }
            [cause] => met.add(format!("t 1: {cause}")),
            _ => met.add("t 1 by several causes"),
        }
        met.add_if(is_paused(reply) && self.user_unknown(), format!("{word}: t 1 with a user unknown"));
    }

    fn add_context(&self, form: Form, reply: &Reply, met: &mut Met) {
        let (table, clauses) = (self.table, &self.clauses);
        let by_guid = context_by_guid(table, clauses);
        let by_name = context_by_name(table, clauses);
        let used = context_used(table, clauses);
        let way = match (by_guid, by_name) {
            (None, None) => "default",
            (Some(_), None) => "GUID",
            (None, Some(_)) => "DnsDomain",
            (Some(one), Some(other)) if one.number == other.number => "both, the same",
            _ => "both, which differ",
        };
        met.add(format!("context by {way}"));
        let starts_as_held = |name: &[u8]| by_name.is_some_and(|context| name.starts_with(context.dns_name));
        let other_case = by_name.is_some() && !clauses.dns_domain.is_some_and(starts_as_held);
        met.add_if(other_case, "context by DnsDomain in another case");
        met.add_if(clauses.domain_sid.is_some(), "answered with the SID of the context used");
        met.add_if(used.netbios_name.is_empty(), format!("{}: no NetBIOS name", word_of_form(form)));
        if let Fields::Ex { flags, .. } = &reply.fields {
            let on = if is_set(*flags, 0x400) { "on" } else { "off" };
            let application = |context: Option<Context>| context.is_some_and(|context| context.application);
            let (guid, name) = (application(by_guid), application(by_name));
            met.add_if(name || guid || used.application, format!("application flag {on}: {way}, {guid}, {name}"));
        }
    }

    fn add_user(&self, form: Form, reply: &Reply, met: &mut Met) {
        let word = word_of_form(form);
        let Some(user) = self.clauses.user else { return met.add(format!("{word}: User absent")) };
        met.add_if(user.is_empty(), format!("{word}: User empty"));
        met.add_if(user.len() == 63, format!("{word}: User of 63 octets"));
        met.add_if(user.len() == 63 && !user.is_ascii(), format!("{word}: User of 63 octets, not all ASCII"));
        let text = std::str::from_utf8(user).unwrap_or_default();
        for character in text.chars() {
            met.add(format!("{word}: User with a character of {} octets", character.len_utf8()));
        }
        let empty_part = !user.is_empty() && user.split(|&octet| octet == b'.').any(<[u8]>::is_empty);
        met.add_if(empty_part, format!("{word}: User with an empty part"));
        if !is_paused(reply) {
            self.add_account(user, text, met);
        }
    }

    /// Why a user is known or not.
    fn add_account(&self, user: &[u8], text: &str, met: &mut Met) {
        let used = context_used(self.table, &self.clauses);
        let mut of_name = self.table.accounts.iter().filter(|account| alike(account.name, user));
        let mut in_context = self.table.accounts.iter().filter(|account| account.context == used.number);
        let unlike = |name: &[u8]| !alike(name, user) && lower_case(name) == text.to_lowercase();
        met.add_if(in_context.clone().any(|account| unlike(account.name)), "user unknown: case outside ASCII");
        let Some(account) = in_context.find(|account| alike(account.name, user)) else {
            let elsewhere = of_name.next().is_some();
            return met.add(if elsewhere { "user unknown: of another context" } else { "user unknown: no account" });
        };
        let Some(aac) = self.clauses.aac.and_then(u32_whole) else { return met.add("user unknown: AAC absent") };
        let common = aac & account.control;
        match (is_set(account.control, 1), common & 0x1D8) {
            (true, 0) => {}
            (true, _) => met.add("user unknown: disabled"),
            (false, 0) if common != 0 => met.add("user unknown: AAC fits outside 1D8h alone"),
            (false, 0) => met.add(format!("user unknown: account {:x}, AAC fits nothing", account.control & 0x1D8)),
            (false, bits) => {
                met.add(format!("user known: by {bits:x}"));
                met.add_if(account.name != user, "user known: in another case");
                let within_ascii = account.name.eq_ignore_ascii_case(user);
                met.add_if(!within_ascii, "user known: in another case outside ASCII");
            }
        }
    }

    fn subnets_held(&self) -> impl Iterator<Item = &Subnet> {
        self.table.subnets.iter().filter(|subnet| self.client & subnet.mask == subnet.address)
    }

    /// No two subnets of one prefix hold the same address, so that there is one of the longest.
    fn nearest(&self) -> Option<&Subnet> {
        let longest = self.subnets_held().map(|subnet| subnet.mask.count_ones()).max()?;
        self.subnets_held().find(|subnet| subnet.mask.count_ones() == longest)
    }

    fn site(&self) -> Option<Site<'_>> {
        match self.table.sites.as_slice() {
            [only] => Some(*only),
            _ => self.table.site(self.nearest()?.site?).copied(),
        }
    }

    /// A subnet that decides the site, and whether others that hold the address differ and stand before it or after it.
    fn add_nearest(&self, nearest: &Subnet, met: &mut Met) {
        let sort = if nearest.site.is_some() { "by a subnet" } else { "none, by a subnet without" };
        met.add(format!("site: {sort}"));
        met.add(format!("site: by prefix {}", nearest.mask.count_ones()));
        let differs = |other: &Subnet| other.site != nearest.site;
        let mut before = self.subnets_held().take_while(|subnet| subnet.mask != nearest.mask);
        met.add_if(before.any(differs), format!("site: {sort}, an earlier one differs"));
        let mut after = self.subnets_held().skip_while(|subnet| subnet.mask != nearest.mask);
        met.add_if(after.any(differs), format!("site: {sort}, a later one differs"));
    }

    fn add_site(&self, reply: &Reply, met: &mut Met) {
        let nearest = self.nearest();
        if self.table.sites.len() == 1 {
            met.add("site: the only one");
            met.add_if(nearest.is_some_and(|subnet| subnet.site.is_none()), "site: the only one, by a subnet none");
        } else if let Some(subnet) = nearest {
            self.add_nearest(subnet, met);
        } else if self.table.subnets.is_empty() {
            met.add("site: none, without subnets");
        } else {
            met.add("site: none, outside all subnets");
        }
        if let Fields::Ex { flags, .. } = &reply.fields {
            let same_name = self.site().is_some_and(|site| site.name == self.table.own_site.name);
            let sort = match (self.site(), same_name) {
                (None, _) => "no site",
                (_, true) => "a site of the own name",
                (_, false) => "a site of another name",
            };
            met.add(format!("same-site flag {}: {sort}", if is_set(*flags, 0x80) { "on" } else { "off" }));
        }
    }

    fn add_read_only(&self, met: &mut Met) {
        let roles = self.table.server.roles;
        met.add(format!("read-only {}, later than 2003 R2 {}", roles >> 4 & 1, roles >> 10 & 1));
    }

    /// Which of the four conditions of name 8 do not hold.
    fn lacks_for_name_8(&self) -> Vec<&'static str> {
        let mut lacks = Vec::new();
        lacks.extend((!is_set(self.version, 0x10)).then_some("not asked for"));
        lacks.extend((!is_set(self.table.server.roles, LEVEL_2008)).then_some("level before 2008"));
        lacks.extend(match self.site() {
            None => Some("no site"),
            Some(site) if site.next_closest.is_none() => Some("no next site"),
            Some(_) => None,
        });
        lacks
    }

    fn add_name_8(&self, with_address: bool, given: bool, met: &mut Met) {
        let place = if with_address { "after the address" } else { "without address" };
        match self.lacks_for_name_8().as_slice() {
            [] => met.add_if(given, format!("name 8: given, {place}")),
            [lack] => met.add_if(!given, format!("name 8: none, {lack}")),
            _ => {}
        }
    }

    fn add_unused_name_8(&self, form: Form, met: &mut Met) {
        met.add_if(self.lacks_for_name_8().is_empty(), format!("name 8: none in {}", word_of_form(form)));
    }

    fn add_lengths(&self, form: Form, met: &mut Met) {
        let (word, table) = (word_of_form(form), self.table);
        let used = context_used(table, &self.clauses);
        let long = [
            (table.forest_name, 253, "forest"),
            (used.dns_name, 253, "context"),
            (table.server.host_name, 253, "host"),
            (table.server.netbios_name, 15, "server NetBIOS"),
            (used.netbios_name, 15, "context NetBIOS"),
            (table.own_site.name, 63, "own site"),
            (self.site().map_or(b"", |site| site.name), 63, "client site"),
        ];
        for (text, length, what) in long {
            met.add_if(text.len() == length, format!("{word}: {what} of {length} octets"));
        }
    }

    fn add_names<'n, 'r: 'n>(
        &self,
        form: Form,
        octets: &[u8],
        names: impl IntoIterator<Item = &'n Name<'r>>,
        met: &mut Met,
    ) {
        let word = word_of_form(form);
        let names: Vec<&Name> = names.into_iter().collect();
        let texts: Vec<Vec<u8>> = names.iter().map(|name| name.text()).collect();
        let places = name_places(form, self.version, octets, names.len());
        for (number, place) in places.iter().enumerate() {
            let sort = match (place.aim, place.start == place.end) {
                (Some(_), true) => "a pointer alone",
                (Some(_), false) => "labels and a pointer",
                (None, true) => "empty",
                (None, false) => "labels alone",
            };
            met.add(format!("{word} name {number}: {sort}"));
            met.add_if(place.aim.is_some_and(|aim| aim > 255), format!("{word}: a pointer beyond offset 255"));
            met.add(format!("{word}: a name of {} pointers", names[number].pointers));
            if place.aim.is_none() {
                add_near_tails(&texts[number], &texts[..number], met);
            }
        }
    }
}

/// What a name without pointer has nearly in common with an earlier one.
fn add_near_tails(name: &[u8], earlier: &[Vec<u8>], met: &mut Met) {
    if name.is_empty() {
        return;
    }
    let last_label = name.rsplit(|&octet| octet == b'.').next().unwrap_or_default();
    let last_but_for_case = |text: &Vec<u8>| {
        let label = text.rsplit(|&octet| octet == b'.').next().unwrap_or_default();
        label != last_label && label.eq_ignore_ascii_case(last_label)
    };
    let label_not_last = |text: &Vec<u8>| text.split(|&octet| octet == b'.').any(|label| label == last_label);
    let inside_label = |text: &Vec<u8>| text.len() > name.len() && text.ends_with(name);
    met.add_if(earlier.iter().any(last_but_for_case), "no pointer: a tail but for case");
    met.add_if(earlier.iter().any(label_not_last), "no pointer: a label that ends no name");
    met.add_if(earlier.iter().any(inside_label), "no pointer: the end of a label");
}

fn lower_case(text: &[u8]) -> String {
    std::str::from_utf8(text).unwrap_or_default().to_lowercase()
}

fn is_paused(reply: &Reply) -> bool {
    [20, 24].contains(&reply.opcode)
}

/// Flags as they stand in a reply, each on or off.
fn add_flags(form: Form, flags: u32, met: &mut Met) {
    for bit in 0..16 {
        let on = if is_set(flags, 1 << bit) { "on" } else { "off" };
        met.add(format!("{} flag {:x} {on}", word_of_form(form), 1 << bit));
    }
}

pub fn required() -> Vec<String> {
    let mut cases: Vec<String> = CASES.map(str::to_string).to_vec();
    cases.extend(required_refusals());
    cases.extend(required_forms());
    cases.extend(required_bits());
    cases.extend(required_names());
    cases
}

const CASES: [&str; 84] = [
    "answered on 128 blocks",
    "answered to an equality alone",
    "9: NtVer",
    "9: AAC",
    "9: User over 63",
    "9: User not UTF-8",
    "9: User with a zero octet",
    "11: 0 octets",
    "11: 15 octets",
    "11: 17 octets",
    "15: empty",
    "15: revision",
    "15: count",
    "15: long",
    "15: short",
    "17: the context used has another SID",
    "17: the context used has no SID",
    "18: inside",
    "18: first",
    "18: last",
    "18: a dot alone",
    "t 0: paused, asked for this PDC",
    "t 0: RPC not initialized, asked locally",
    "t 1: paused, not PDC",
    "t 1: paused, PDC not asked for",
    "t 1: paused, asked for a PDC and none",
    "t 1: not synchronized",
    "t 1: RPC not initialized",
    "t 1: FRS paused",
    "t 1 by several causes",
    "context by default",
    "context by GUID",
    "context by DnsDomain",
    "context by DnsDomain in another case",
    "context by both, the same",
    "context by both, which differ",
    "answered with the SID of the context used",
    "application flag on: DnsDomain, false, true",
    "application flag on: both, the same, true, true",
    "application flag on: both, which differ, false, true",
    "application flag on: both, which differ, true, true",
    "application flag off: both, which differ, true, false",
    "application flag off: GUID, true, false",
    "application flag off: default, false, false",
    "user unknown: case outside ASCII",
    "user unknown: of another context",
    "user unknown: no account",
    "user unknown: AAC absent",
    "user unknown: disabled",
    "user unknown: AAC fits outside 1D8h alone",
    "user unknown: account 10, AAC fits nothing",
    "user known: by 8",
    "user known: by 10",
    "user known: by 40",
    "user known: by 80",
    "user known: by 100",
    "user known: in another case",
    "user known: in another case outside ASCII",
    "site: the only one",
    "site: the only one, by a subnet none",
    "site: by a subnet",
    "site: by a subnet, an earlier one differs",
    "site: by a subnet, a later one differs",
    "site: none, by a subnet without",
    "site: none, by a subnet without, an earlier one differs",
    "site: none, by a subnet without, a later one differs",
    "site: none, without subnets",
    "site: none, outside all subnets",
    "site: by prefix 0",
    "site: by prefix 1",
    "site: by prefix 8",
    "site: by prefix 31",
    "site: by prefix 32",
    "same-site flag on: a site of the own name",
    "same-site flag off: a site of the own name",
    "same-site flag off: a site of another name",
    "same-site flag off: no site",
    "name 8: given, after the address",
    "name 8: given, without address",
    "name 8: none, not asked for",
    "name 8: none, level before 2008",
    "name 8: none, no site",
    "name 8: none, no next site",
    "name 8: none in response",
];

/// Every refusal with little room and with much, and each before those that come later.
fn required_refusals() -> Vec<String> {
    let mut cases = Vec::new();
    for number in (1..=9).chain(11..=18) {
        cases.extend(["little", "much"].map(|room| format!("refused with {number}, {room} room")));
    }
    // Of one clause one number is given, so that pairs of one clause cannot be.
    let later: [(u8, &[u8]); 8] = [
        (9, &[11, 12, 13, 14, 15, 16]),
        (11, &[13, 14, 15, 16, 18]),
        (12, &[13, 14, 15, 16, 18]),
        (13, &[15, 16, 18]),
        (14, &[15, 16, 18]),
        (15, &[18]),
        (16, &[18]),
        (17, &[18]),
    ];
    for (number, numbers) in later {
        cases.extend(numbers.iter().map(|later| format!("{number} before {later}")));
    }
    cases
}

fn required_forms() -> Vec<String> {
    let mut cases = vec!["name 8: none in nt40".to_string()];
    for low in (0..0x10).step_by(2) {
        let form = match low {
            0 => "nt40",
            2 => "response",
            _ => "ex",
        };
        cases.push(format!("{form} for v {low:x}"));
        cases.push(format!("nt40 for v {low:x}, NT4 wanted"));
        cases.push(format!("{form} for v {low:x}, NT4 wanted and avoided"));
    }
    for (form, opcodes) in [("nt40", 19..=21), ("response", 19..=21), ("ex", 23..=25)] {
        cases.extend(opcodes.map(|opcode| format!("{form} opcode {opcode}")));
        let each = [
            "t 1 with a user unknown",
            "no NetBIOS name",
            "User absent",
            "User empty",
            "User of 63 octets",
            "User of 63 octets, not all ASCII",
            "User with a character of 1 octets",
            "User with a character of 2 octets",
            "User with a character of 3 octets",
            "User with a character of 4 octets",
            "room of its length",
            "room to spare",
            "room of one octet less",
            "no room",
            "server NetBIOS of 15 octets",
            "context NetBIOS of 15 octets",
        ];
        cases.extend(each.map(|case| format!("{form}: {case}")));
    }
    cases.extend(["nt40", "response"].map(|form| format!("{form}: User with an empty part")));
    cases
}

fn required_bits() -> Vec<String> {
    let mut cases: Vec<String> = ClauseName::ALL.map(|name| format!("answered with {name:?}")).to_vec();
    for bit in 0..32 {
        cases.extend(["on", "off"].map(|on| format!("version bit {bit} {on}")));
    }
    for bit in [0, 2, 5, 6, 7, 8, 9, 10, 11, 12, 13, 14, 15] {
        cases.extend(["on", "off"].map(|on| format!("ex flag {:x} {on}", 1 << bit)));
    }
    cases.extend(["ex flag 8 on", "ex flag 10 on", "response flag 10 on"].map(str::to_string));
    cases.extend(["on", "off"].map(|on| format!("response flag 1 {on}")));
    for (read_only, later) in [(0, 0), (0, 1), (1, 0), (1, 1)] {
        cases.push(format!("read-only {read_only}, later than 2003 R2 {later}"));
    }
    cases
}

/// How each name of a reply can be written: one-label names have no labels before a pointer.
fn required_names() -> Vec<String> {
    let (alone, mixed, labels, empty) = ("a pointer alone", "labels and a pointer", "labels alone", "empty");
    let sorts: [&[&str]; 9] = [
        &[labels],
        &[alone, mixed, labels],
        &[alone, mixed, labels],
        &[alone, labels, empty],
        &[alone, labels],
        &[alone, mixed, labels, empty],
        &[alone, labels],
        &[alone, labels, empty],
        &[alone, labels],
    ];
    let mut cases = Vec::new();
    for (form, names) in [("ex", 9), ("response", 3)] {
        for (number, sorts) in sorts.iter().enumerate().take(names) {
            cases.extend(sorts.iter().map(|sort| format!("{form} name {number}: {sort}")));
        }
        cases.extend(["forest", "context", "host"].map(|name| format!("{form}: {name} of 253 octets")));
        cases.push(format!("{form}: a pointer beyond offset 255"));
        cases.extend((0..=2).map(|count| format!("{form}: a name of {count} pointers")));
    }
    cases.extend(["own site", "client site"].map(|site| format!("ex: {site} of 63 octets")));
    let others = [
        "ex: a name of 3 pointers",
        "no pointer: a tail but for case",
        "no pointer: a label that ends no name",
        "no pointer: the end of a label",
    ];
    cases.extend(others.map(str::to_string));
    cases
}
