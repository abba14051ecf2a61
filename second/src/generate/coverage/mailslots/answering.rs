//! The cases of pings that come as messages: each refusal before each later one, and each way to an answer.

use super::super::super::mailslots::reply_to_message;
use super::super::letters::alike;
use super::super::places::name_places;
use super::super::rules::{layout_faults, whole_faults};
use super::super::Met;
use super::features::features;
use super::parts::{parts, utf8, Parts};
use crate::choose::Form;
use crate::lines::{form_of_word, octets_of_word, word_of_form};
use crate::reader::{read_reply, Fields, Reply};
use crate::table::{block_check, read_table, Account, Table};

/// The numbers in the order in which they are judged.
const ORDER: [u8; 10] = [1, 2, 3, 4, 41, 15, 16, 17, 18, 19];
/// Less than any reply has.
const LITTLE: usize = 16;

const SIDS: [&str; 8] = [
    "no SID: 0",
    "the default context's SID: 0",
    "another context's SID: 17",
    "another context's SID, the default has none: 17",
    "a SID of no context: 16",
    "a SID of revision 0: 15",
    "a SID of revision 2: 15",
    "a SID of revision 255: 15",
];
const ACCOUNTS: [&str; 16] = [
    "user known by 8",
    "user known by 10",
    "user known by 40",
    "user known by 80",
    "user known by 100",
    "user known by 1d8",
    "user known in another case",
    "user known in another case outside ASCII: nt40",
    "user known in another case outside ASCII: response",
    "user known in another case outside ASCII: ex",
    "user unknown: bits 0",
    "user unknown: disabled",
    "user unknown: bits in common outside 1D8h alone",
    "user unknown: no bits in common",
    "user unknown: of another context",
    "user unknown: no account",
];
const OTHERS: [&str; 24] = [
    "ex: user ends in a pointer",
    "ex: user is a pointer alone",
    "ex: user is labels alone",
    "ex: user with an empty part inside: 18",
    "ex: user with an empty part first: 18",
    "ex: user with an empty part last: 18",
    "ex: user of a dot alone: 18",
    "ex: the default an application context, flag off",
    "ex: the default an application context without NetBIOS name, flag off",
    "ex: the default a plain context, flag off",
    "ex: with address",
    "ex: without address",
    "ex: with name 8",
    "ex: without name 8",
    "ex: a client site",
    "ex: no client site",
    "nt40 for v 6, NT4 wanted",
    "ex for v 6, NT4 wanted and avoided",
    "answered: repeat 65535",
    "answered: computer of 0 units, 0 characters",
    "answered: computer of 15 units, 8 characters",
    "answered: mailslot of 0 octets",
    "answered: mailslot of 64 octets",
    "answered: padding that is not zeros",
];

pub fn required() -> Vec<String> {
    let mut cases: Vec<String> = SIDS.into_iter().chain(ACCOUNTS).chain(OTHERS).map(str::to_string).collect();
    let neighbours = ORDER.windows(2).map(|pair| (pair[0], pair[1]));
    let before_41 = [1, 2, 3].map(|number| (number, 41));
    let later = (4..9).flat_map(|place| ORDER[place + 1..].iter().map(move |later| (ORDER[place], *later)));
    cases.extend(neighbours.chain(before_41).chain(later).map(|(number, later)| format!("{number} before {later}")));
    for number in ORDER.into_iter().filter(|number| *number != 19) {
        cases.extend(["little", "much"].map(|room| format!("refused with {number}, {room} room")));
    }
    cases.extend(Form::ALL.into_iter().flat_map(required_of_form));
    for low in (0..0x10).step_by(2) {
        let form = [(0, "nt40"), (2, "response")].into_iter().find(|(of, _)| *of == low).map_or("ex", |(_, form)| form);
        cases.push(format!("{form} for v {low:x}"));
    }
    let cases: std::collections::BTreeSet<String> = cases.into_iter().collect();
    cases.into_iter().map(|case| format!("mailping: {case}")).collect()
}

fn required_of_form(form: Form) -> Vec<String> {
    let first = if form == Form::Ex { 23 } else { 19 };
    let mut cases = vec![
        format!("opcode {first}, no user"),
        format!("opcode {first}, a user that is known"),
        format!("opcode {}, no user", first + 1),
        format!("opcode {}, a user that is unknown", first + 1),
        format!("opcode {}, a user that is unknown", first + 2),
        "room of its length".to_string(),
        "room of one octet less".to_string(),
        "room to spare".to_string(),
        "no room".to_string(),
        "user of 63 octets".to_string(),
    ];
    cases.extend((1..=4).map(|octets| format!("user with a character of {octets} octets")));
    if form != Form::Ex {
        let empty = ["with an empty part inside", "with an empty part first", "with an empty part last"];
        cases.extend(empty.map(|sort| format!("user {sort}: 0")));
        cases.push("user of a dot alone: 0".to_string());
    }
    cases.into_iter().map(|case| format!("{}: {case}", word_of_form(form))).collect()
}

/// A message on a table, with room, and the words of its answer.
struct Line<'a> {
    image: &'a [u8],
    client: [u8; 4],
    message: &'a [u8],
    parts: Parts<'a>,
    room: usize,
    answer: &'a [&'a str],
}

/// None where the words are not those of such a line.
pub fn add_cases(image: &[u8], request: &[&str], answer: &[&str], met: &mut Met) -> Option<()> {
    let [_, client, message, room] = request else { return None };
    let message = octets_of_word(message)?;
    let line = Line {
        image,
        client: octets_of_word(client)?.try_into().ok()?,
        message: &message,
        parts: parts(&message),
        room: room.parse().ok()?,
        answer,
    };
    let number = line.number()?;
    let mut cases = Vec::new();
    if !line.is_whole()? {
        return Some(());
    }
    if number != 0 {
        cases.extend(line.later(number));
        let room = if line.room < LITTLE { "little" } else { "much" };
        cases.push(format!("refused with {number}, {room} room"));
    }
    if let (Ok(table), true) = (read_table(image), line.parts.faults.is_empty()) {
        cases.extend(line.sid(&table));
        cases.extend(line.rooms());
        cases.extend(line.empty_part(form_due(&table, line.parts.version)));
        cases.extend(line.answered(&table).unwrap_or_default());
    }
    cases.into_iter().for_each(|case| met.add(format!("mailping: {case}")));
    Some(())
}

fn form_due(table: &Table, version: u32) -> Form {
    match (table.server.roles & 0x200, version & 0x0100_0000, version & 0xE) {
        (0x200, 0, _) | (_, _, 0) => Form::Nt40,
        (_, _, 2) => Form::Response,
        _ => Form::Ex,
    }
}

/// Where a part between dots is empty.
fn empty_part(user: &str) -> Option<&'static str> {
    match user {
        "" => None,
        "." => Some("of a dot alone"),
        _ if user.contains("..") => Some("with an empty part inside"),
        _ if user.starts_with('.') => Some("with an empty part first"),
        _ if user.ends_with('.') => Some("with an empty part last"),
        _ => None,
    }
}

impl Line<'_> {
    fn number(&self) -> Option<u8> {
        self.answer.get(1)?.parse().ok()
    }

    fn user(&self) -> String {
        utf8(self.parts.user).unwrap_or_default()
    }

    /// Whether the answer has all its words, a refusal no length, context and form, and the rest of the buffer is as it was.
    fn is_whole(&self) -> Option<bool> {
        let [_, number, length, context, form, buffer] = self.answer else { return None };
        let buffer = octets_of_word(buffer)?;
        let rest = buffer.get(length.parse().ok()?..)?;
        let refused = [*length, *context, *form] == ["0", "0", "none"];
        Some(buffer.len() == self.room && rest.iter().all(|octet| *octet == 0xA5) && refused == (*number != "0"))
    }

    /// The numbers that would be given, were those before them not judged.
    fn alone(&self) -> Vec<u8> {
        let mut numbers = self.alone_by_table();
        numbers.extend((!self.parts.faults.is_empty()).then_some(41));
        if let Ok(table) = read_table(self.image) {
            numbers.extend(self.alone_by_sid(&table));
            let ex = form_due(&table, self.parts.version) == Form::Ex;
            numbers.extend((ex && empty_part(&self.user()).is_some()).then_some(18));
        }
        numbers.extend((self.room < LITTLE).then_some(19));
        numbers
    }

    fn alone_by_table(&self) -> Vec<u8> {
        let blocks = self.image.as_chunks::<512>().0;
        let wrong_check = |block: &[u8; 512]| {
            let (a, b) = block_check(&block[..508]);
            block[508..] != [a.to_le_bytes(), b.to_le_bytes()].concat()
        };
        let mut numbers = Vec::new();
        numbers.extend(blocks.iter().any(wrong_check).then_some(2));
        if (2..=128).contains(&blocks.len()) {
            let whole = blocks.as_flattened();
            let layout = layout_faults(whole);
            // Past these faults the records can still be followed.
            let readable = layout.iter().all(|fault| fault.contains("unnamed octets"));
            numbers.extend((!layout.is_empty()).then_some(3));
            numbers.extend((readable && !whole_faults(whole).is_empty()).then_some(4));
        }
        numbers
    }

    /// What becomes of the SID, its revision left out of account after 15.
    fn alone_by_sid(&self, table: &Table) -> Vec<u8> {
        let [revision, others @ ..] = self.parts.sid else { return Vec::new() };
        let held = |sid: Option<&[u8]>| sid.is_some_and(|sid| &sid[1..] == others);
        let mut numbers = Vec::new();
        numbers.extend((*revision != 1).then_some(15));
        numbers.extend((!table.contexts.iter().any(|context| held(context.sid))).then_some(16));
        numbers.extend((!held(table.default_context.sid)).then_some(17));
        numbers
    }

    fn later(&self, number: u8) -> Vec<String> {
        let place = |number: u8| ORDER.iter().position(|one| *one == number);
        let later = self.alone().into_iter().filter(|later| place(number) < place(*later));
        later.map(|later| format!("{number} before {later}")).collect()
    }

    fn sid(&self, table: &Table) -> Option<String> {
        let of_default = table.default_context.sid;
        let case = match (self.parts.sid, of_default) {
            ([], _) => "no SID".to_string(),
            ([revision, ..], _) if *revision != 1 => format!("a SID of revision {revision}"),
            (sid, Some(own)) if own == sid => "the default context's SID".to_string(),
            (sid, _) if !table.contexts.iter().any(|context| context.sid == Some(sid)) => {
                "a SID of no context".to_string()
            }
            (_, None) => "another context's SID, the default has none".to_string(),
            _ => "another context's SID".to_string(),
        };
        Some(format!("{case}: {}", self.number()?))
    }

    fn rooms(&self) -> Vec<String> {
        let Some((form, reply)) = reply_to_message(self.image, self.client, self.message) else { return Vec::new() };
        let answered = self.answer[1] == "0";
        let rooms = [
            (answered && self.room == reply.len(), "room of its length"),
            (answered && self.room > reply.len(), "room to spare"),
            (self.answer[1] == "19" && self.room + 1 == reply.len(), "room of one octet less"),
            (self.answer[1] == "19" && self.room == 0, "no room"),
        ];
        let met = rooms.into_iter().filter(|(met, _)| *met);
        met.map(|(_, room)| format!("{}: {room}", word_of_form(form))).collect()
    }

    fn empty_part(&self, form: Form) -> Option<String> {
        let sort = empty_part(&self.user())?;
        Some(format!("{}: user {sort}: {}", word_of_form(form), self.answer[1]))
    }

    /// None where the message is refused, or the answer is of another form or user than is due.
    fn answered(&self, table: &Table) -> Option<Vec<String>> {
        let [_, "0", length, _, form, buffer] = self.answer else { return None };
        let form = form_of_word(form).filter(|form| *form == form_due(table, self.parts.version))?;
        let octets = octets_of_word(buffer)?;
        let octets = octets.get(..length.parse().ok()?)?;
        let reply = read_reply(form, self.parts.version, octets).ok()?;
        let user_as_sent = match &reply.fields {
            Fields::Nt40 { texts } | Fields::Response { texts, .. } => texts[1] == self.parts.user,
            Fields::Ex { names, .. } => names[5].text() == self.user().as_bytes(),
        };
        let mut cases = self.users(table, form, &reply);
        cases.extend(self.versions(table, form));
        cases.extend(ex_cases(table, octets, &reply));
        let shown = features(&self.parts, self.message.len());
        cases.extend(shown.into_iter().map(|feature| format!("answered: {feature}")));
        let filled = self.parts.padding.iter().any(|octet| *octet != 0);
        cases.extend(filled.then(|| "answered: padding that is not zeros".to_string()));
        user_as_sent.then_some(cases)
    }

    fn users(&self, table: &Table, form: Form, reply: &Reply) -> Vec<String> {
        let user = self.user();
        let word = word_of_form(form);
        let paused = [20, 24].contains(&reply.opcode);
        let (sort, account) = match user.as_str() {
            "" => ("no user", None),
            user => {
                let (known, account) = self.account(table, user, word);
                (if known { "a user that is known" } else { "a user that is unknown" }, Some(account))
            }
        };
        let mut cases = vec![format!("{word}: opcode {}, {sort}", reply.opcode)];
        cases.extend(account.filter(|_| !paused).into_iter().flatten());
        cases.extend((user.len() == 63).then(|| format!("{word}: user of 63 octets")));
        let octets = user.chars().map(char::len_utf8);
        cases.extend(octets.map(|octets| format!("{word}: user with a character of {octets} octets")));
        cases
    }

    /// Whether there is a usable account of the user, and why or why not.
    fn account(&self, table: &Table, user: &str, form: &str) -> (bool, Vec<String>) {
        let of_name = || table.accounts.iter().filter(|account| alike(account.name, user.as_bytes()));
        let Some(account) = of_name().find(|account| account.context == table.default_context.number) else {
            let why = if of_name().next().is_some() { "of another context" } else { "no account" };
            return (false, vec![format!("user unknown: {why}")]);
        };
        let common = self.parts.account_bits & account.control;
        let why = match (account.control & 1, common & 0x1D8) {
            (0, 0) if self.parts.account_bits == 0 => "bits 0",
            (0, 0) if common != 0 => "bits in common outside 1D8h alone",
            (0, 0) => "no bits in common",
            (0, bits) => return (true, known(account, user, bits, form)),
            _ => "disabled",
        };
        (false, vec![format!("user unknown: {why}")])
    }

    fn versions(&self, table: &Table, form: Form) -> Vec<String> {
        let wanted = match (table.server.roles & 0x200, self.parts.version & 0x0100_0000) {
            (0, _) => "",
            (_, 0) => ", NT4 wanted",
            _ => ", NT4 wanted and avoided",
        };
        vec![format!("{} for v {:x}{wanted}", word_of_form(form), self.parts.version & 0xE)]
    }
}

fn known(account: &Account, user: &str, bits: u32, form: &str) -> Vec<String> {
    let mut cases = vec![format!("user known by {bits:x}")];
    cases.extend((account.name != user.as_bytes()).then(|| "user known in another case".to_string()));
    let outside = !account.name.eq_ignore_ascii_case(user.as_bytes());
    cases.extend(outside.then(|| format!("user known in another case outside ASCII: {form}")));
    cases
}

/// What an EX reply shows of its names and of the default context.
fn ex_cases(table: &Table, octets: &[u8], reply: &Reply) -> Vec<String> {
    let Fields::Ex { flags, names, address, name_8, .. } = &reply.fields else { return Vec::new() };
    // The address stands after the first eight names, so that the user's place is the same whatever was asked.
    let place = name_places(Form::Ex, 0, octets, 6)[5];
    let user = match (place.start == place.end, place.aim.is_some()) {
        (true, false) => "is empty",
        (true, true) => "is a pointer alone",
        (false, false) => "is labels alone",
        (false, true) => "ends in a pointer",
    };
    let context = table.default_context;
    let sort = match (context.application, context.netbios_name) {
        (false, _) => "a plain context",
        (true, []) => "an application context without NetBIOS name",
        (true, _) => "an application context",
    };
    let with = |given: bool| if given { "with" } else { "without" };
    vec![
        format!("ex: user {user}"),
        format!("ex: the default {sort}, flag {}", if flags & 0x400 != 0 { "on" } else { "off" }),
        format!("ex: {} address", with(address.is_some())),
        format!("ex: {} name 8", with(name_8.is_some())),
        format!("ex: {} client site", if names[7].labels.is_empty() { "no" } else { "a" }),
    ]
}
