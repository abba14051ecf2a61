//! The cases of DnsDomain values with dots at their ends (#107): what they find, beside a GUID, a SID and a user too.

use super::letters::alike;
use super::pings::is_named;
use super::without_version::Line;
use super::Met;
use crate::choose::Form;
use crate::filter::{take_apart, Clauses};
use crate::lines::{form_of_word, octets_of_word};
use crate::octets::{is_sid, u32_at};
use crate::table::{read_table, Context, Table};

const LENGTHS: [usize; 5] = [1, 2, 63, 64, 253];
/// Dots around a name n that has none at its ends, and whether it is found so where it is held.
const SHAPES: [(&str, bool); 5] = [("n", true), ("n.", true), ("n..", false), (".n", false), (".n.", false)];
const HELD: [&str; 2] = ["held", "held in another case"];
const NOT_HELD: [&str; 2] = ["not held", "not held, in capitals"];

const OTHERS: [&str; 31] = [
    "DnsDomain of 1 dots alone: 14",
    "DnsDomain of 2 dots alone: 14",
    "DnsDomain of 3 dots alone: 14",
    "DnsDomain of one octet, no letter: 14",
    "DnsDomain of a held name and an octet that is no dot: 14",
    "dotted name: found in nt40",
    "dotted name: found in response",
    "dotted name: found in ex",
    "dotted name: found without NtVer",
    "dotted name: 19",
    "dotted name of an application context, no GUID: flag on",
    "dotted name of an application context, its GUID: flag on",
    "dotted name of an application context, the GUID of another one: flag on",
    "dotted name of an application context, the GUID of a plain one: flag on",
    "dotted name of a plain context, no GUID: flag off",
    "dotted name of a plain context, the GUID of another one: flag off",
    "dotted name of a plain context, the GUID of an application one: flag off",
    "GUID held, n. not held: 14",
    "GUID held, n.. held: 14",
    "GUID held, dots alone: 14",
    "dotted name, the SID of its context: 0",
    "dotted name, the SID of another context: 17",
    "dotted name of a context without SID, a SID: 17",
    "dotted name, a SID of no context: 16",
    "dotted name, no SID: 15",
    "two dots at the end, no SID: 14",
    "dotted name and another's GUID, the SID of the GUID's: 0",
    "dotted name and another's GUID, the SID of the name's: 17",
    "dotted name, a user of its context: opcode 19",
    "dotted name, a user of the default alone: opcode 21",
    "dotted name not held, a SID: 14",
];

pub fn required() -> Vec<String> {
    let mut cases: Vec<String> = OTHERS.map(str::to_string).to_vec();
    for (length, (shape, found)) in LENGTHS.into_iter().flat_map(|length| SHAPES.map(|shape| (length, shape))) {
        let outcome = if found { "found" } else { "14" };
        cases.extend(HELD.map(|holding| of_shape(shape, length, holding, outcome)));
        cases.extend(NOT_HELD.map(|holding| of_shape(shape, length, holding, "14")));
    }
    cases
}

fn of_shape(shape: &str, length: usize, holding: &str, outcome: &str) -> String {
    format!("DnsDomain {shape}, n of {length} octets, {holding}: {outcome}")
}

/// A value as the dots before it, the name n between, and the dots after it. Dots alone all come before.
struct Parts<'a> {
    before: usize,
    name: &'a [u8],
    after: usize,
}

impl Parts<'_> {
    fn of(value: &[u8]) -> Parts<'_> {
        let before = value.iter().take_while(|octet| **octet == b'.').count();
        let after = value[before..].iter().rev().take_while(|octet| **octet == b'.').count();
        Parts { before, name: &value[before..value.len() - after], after }
    }

    fn shape(&self) -> String {
        format!("{}n{}", ".".repeat(self.before), ".".repeat(self.after))
    }
}

/// A ping with DnsDomain on a good table, and its answer.
struct Ping<'a> {
    table: &'a Table<'a>,
    clauses: Clauses<'a>,
    value: &'a [u8],
    parts: Parts<'a>,
    answer: &'a [&'a str],
}

pub fn add_cases(line: &Line, met: &mut Met) {
    let (Ok(table), Ok(clauses)) = (read_table(line.image), take_apart(line.filter)) else { return };
    let Some(value) = clauses.dns_domain else { return };
    let ping = Ping { table: &table, clauses, value, parts: Parts::of(value), answer: line.answer };
    let mut cases = vec![ping.outcome_of_shape()];
    cases.extend(ping.outcome_of_short_value());
    cases.extend(ping.outcome_with_guid());
    cases.extend(ping.outcome_with_sid());
    if let Some(named) = ping.named_with_dot() {
        cases.extend(ping.found(&named).unwrap_or_default());
        cases.extend(ping.user(&named));
    }
    cases.into_iter().for_each(|case| met.add(case));
}

impl<'a> Ping<'a> {
    fn number(&self) -> &str {
        self.answer[1]
    }

    fn context(&self, is: impl Fn(&Context) -> bool) -> Option<Context<'a>> {
        self.table.contexts.iter().find(|context| is(context)).copied()
    }

    /// The context whose name is n, whatever dots are around it.
    fn holder(&self) -> Option<Context<'a>> {
        self.context(|context| context.dns_name.eq_ignore_ascii_case(self.parts.name))
    }

    fn by_guid(&self) -> Option<Context<'a>> {
        self.context(|context| self.clauses.domain_guid == Some(context.guid))
    }

    /// The context that a name with one closing dot finds.
    fn named_with_dot(&self) -> Option<Context<'a>> {
        self.context(|context| is_named(context, self.value)).filter(|_| self.value.ends_with(b"."))
    }

    fn uses(&self, context: &Context) -> bool {
        self.answer[3] == context.number.0.to_string()
    }

    /// Found is answered with that context; every other number stands for itself.
    fn outcome(&self, holder: Option<Context>) -> String {
        match self.number() {
            "0" if holder.is_some_and(|context| self.uses(&context)) => "found".to_string(),
            number => number.to_string(),
        }
    }

    fn outcome_of_shape(&self) -> String {
        let Parts { before, name, after } = self.parts;
        if name.is_empty() {
            return format!("DnsDomain of {} dots alone: {}", before + after, self.number());
        }
        let holder = self.holder();
        let holding = match holder {
            Some(context) if context.dns_name == name => HELD[0],
            Some(_) => HELD[1],
            None if name.iter().any(u8::is_ascii_uppercase) => NOT_HELD[1],
            None => NOT_HELD[0],
        };
        of_shape(&self.parts.shape(), name.len(), holding, &self.outcome(holder))
    }

    fn outcome_of_short_value(&self) -> Vec<String> {
        let mut values = Vec::new();
        if let [octet] = self.value {
            values.extend((!octet.is_ascii_alphabetic() && *octet != b'.').then_some("one octet, no letter"));
        }
        if let Some((last, before)) = self.value.split_last() {
            let longer = *last != b'.' && self.context(|context| context.dns_name == before).is_some();
            values.extend(longer.then_some("a held name and an octet that is no dot"));
        }
        values.into_iter().map(|value| format!("DnsDomain of {value}: {}", self.number())).collect()
    }

    fn outcome_with_guid(&self) -> Option<String> {
        self.by_guid()?;
        let value = match (self.parts.name, self.holder()) {
            ([], _) => "dots alone".to_string(),
            (_, Some(_)) => format!("{} held", self.parts.shape()),
            (_, None) => format!("{} not held", self.parts.shape()),
        };
        Some(format!("GUID held, {value}: {}", self.number()))
    }

    fn outcome_with_sid(&self) -> Option<String> {
        let sid = self.clauses.domain_sid?;
        let number = self.number();
        let has = |context: Option<Context>| context.is_some_and(|context| context.sid == Some(sid));
        let held = self.context(|context| has(Some(*context))).is_some();
        let case = match (self.named_with_dot(), self.by_guid()) {
            (None, _) if !is_sid(sid) && self.parts.after == 2 => "two dots at the end, no SID",
            (None, None) if self.parts.shape() == "n." => "dotted name not held, a SID",
            (None, _) => return None,
            (Some(_), _) if !is_sid(sid) => "dotted name, no SID",
            (Some(_), _) if !held => "dotted name, a SID of no context",
            (Some(named), None) if named.sid.is_none() => "dotted name of a context without SID, a SID",
            (named, None) if has(named) => "dotted name, the SID of its context",
            (_, None) => "dotted name, the SID of another context",
            (_, guid) if has(guid) => "dotted name and another's GUID, the SID of the GUID's",
            (named, _) if has(named) => "dotted name and another's GUID, the SID of the name's",
            _ => return None,
        };
        Some(format!("{case}: {number}"))
    }

    /// What an answer shows that the context used and the flag go by the dotted name, none where it is of another
    /// context than the due one.
    fn found(&self, named: &Context) -> Option<Vec<String>> {
        if self.number() == "19" {
            return Some(vec!["dotted name: 19".to_string()]);
        }
        let guid = self.by_guid();
        let [_, "0", _, _, form, buffer] = self.answer else { return None };
        if !self.uses(&guid.unwrap_or(*named)) {
            return None;
        }
        let mut cases = vec![format!("dotted name: found in {form}")];
        cases.extend(self.clauses.nt_ver.is_none().then(|| "dotted name: found without NtVer".to_string()));
        if form_of_word(form)? == Form::Ex {
            let flags = u32_at(&octets_of_word(buffer)?, 4)?;
            let on = if flags & 0x400 != 0 { "on" } else { "off" };
            cases.push(format!("dotted name of {}: flag {on}", beside_guid(named, guid)));
        }
        Some(cases)
    }

    /// An account of the context found, or of none but the default, as an NT40 reply tells them apart.
    fn user(&self, named: &Context) -> Option<String> {
        let [_, "0", _, _, "nt40", buffer] = self.answer else { return None };
        let (user, _) = (self.clauses.user?, self.clauses.aac?);
        let has = |context: &Context| {
            self.table.accounts.iter().any(|one| one.context == context.number && alike(one.name, user))
        };
        let whose = match (has(named), has(&self.table.default_context)) {
            (true, false) => "its context",
            (false, true) => "the default alone",
            _ => return None,
        };
        Some(format!("dotted name, a user of {whose}: opcode {}", octets_of_word(buffer)?.first()?))
    }
}

/// What the context of a dotted name is, and what the one of the GUID.
fn beside_guid(named: &Context, guid: Option<Context>) -> String {
    let sort = if named.application { "an application context" } else { "a plain context" };
    let guid = match guid {
        None => "no GUID",
        Some(guid) if guid.number == named.number => "its GUID",
        Some(guid) if guid.application == named.application => "the GUID of another one",
        Some(guid) if guid.application => "the GUID of an application one",
        Some(_) => "the GUID of a plain one",
    };
    format!("{sort}, {guid}")
}
