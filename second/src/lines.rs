//! Request lines and their answer lines, and the splitting of standard input into lines.

use std::io::{BufRead, Write};

use crate::answers::{number_of, Refusal, ANSWERED};
use crate::choose::{ClientAddress, Form};
use crate::filter::{judge_values, take_apart, write_filter, ClauseName, Clauses};
use crate::mailslot::reader::read_message;
use crate::mailslot::writer::write_message;
use crate::mailslot::{answer_message, Message};
use crate::reader::{read_reply, Fields, Name, Reply};
use crate::reply::{answer_ping, Answer};
use crate::table::{block_check, read_table, CHECKED_LENGTH};
use crate::walk::walk;

/// The longest line that is read, its LF not counted.
pub const LONGEST_LINE: usize = 140_100;
const LARGEST_ROOM: usize = 4096;
const MOST_DIGITS: usize = 10;
/// What every octet of a lent buffer holds before the call.
const UNWRITTEN: u8 = 0xA5;

/// Answers lines one after the other; the latest image stands for the pings of either kind after it.
#[derive(Default)]
pub struct Answerer {
    image: Vec<u8>,
}

impl Answerer {
    /// The answer to one line without its LF; none for a line that is passed over.
    pub fn answer(&mut self, line: &[u8]) -> Option<String> {
        if line.len() > LONGEST_LINE {
            return Some("?".to_string());
        }
        if line.is_empty() || line.starts_with(b"#") {
            return None;
        }
        Some(self.answer_request(line).unwrap_or_else(|| "?".to_string()))
    }

    /// None for a line of another shape.
    fn answer_request(&mut self, line: &[u8]) -> Option<String> {
        let text = std::str::from_utf8(line).ok()?;
        let words: Vec<&str> = text.split(' ').collect();
        match words.as_slice() {
            ["check", octets] => answer_check(octets),
            ["table", octets] => self.answer_table(octets),
            ["ping", client, filter, room] => self.answer_ping(client, filter, room),
            ["filter", octets] => answer_filter(octets),
            ["values", octets] => answer_values(octets),
            ["write", room, clauses @ ..] => answer_write(room, clauses),
            ["read", form, version, octets] => answer_read(form, version, octets),
            ["walk", offset, octets] => answer_walk(offset, octets),
            ["mailslot", octets] => answer_mailslot(octets),
            ["mailwrite", room, fields @ ..] => answer_mailwrite(room, fields),
            ["mailping", client, message, room] => self.answer_mailping(client, message, room),
            _ => None,
        }
    }

    fn answer_table(&mut self, octets: &str) -> Option<String> {
        self.image = octets_of_word(octets)?;
        Some(format!("table {}", number_of(&read_table(&self.image))))
    }

    fn answer_ping(&self, client: &str, filter: &str, room: &str) -> Option<String> {
        let client = client_of_word(client)?;
        let filter = octets_of_word(filter)?;
        let mut buffer = buffer_of_room(room)?;
        let result = answer_ping(&self.image, client, &filter, &mut buffer);
        Some(format!("ping {}", words_of_answer(&result, &buffer)))
    }

    fn answer_mailping(&self, client: &str, message: &str, room: &str) -> Option<String> {
        let client = client_of_word(client)?;
        let message = octets_of_word(message)?;
        let mut buffer = buffer_of_room(room)?;
        let result = answer_message(&self.image, client, &message, &mut buffer);
        Some(format!("mailping {}", words_of_answer(&result, &buffer)))
    }
}

fn answer_check(octets: &str) -> Option<String> {
    let octets = octets_of_word(octets)?;
    let (a, b) = block_check(&octets);
    (octets.len() == CHECKED_LENGTH).then(|| format!("check {a} {b}"))
}

fn answer_filter(octets: &str) -> Option<String> {
    let filter = octets_of_word(octets)?;
    let result = take_apart(&filter);
    let clauses = result.unwrap_or_default();
    let mut line = format!("filter {}", number_of(&result));
    for name in ClauseName::ALL {
        line.push(' ');
        line.push_str(&word_of_clause(clauses.get(name)));
    }
    Some(line)
}

fn answer_values(octets: &str) -> Option<String> {
    let filter = octets_of_word(octets)?;
    let result = take_apart(&filter).and_then(|clauses| judge_values(&clauses));
    Some(format!("values {} {}", number_of(&result), word_of_bits(result.unwrap_or(0))))
}

fn answer_write(room: &str, words: &[&str]) -> Option<String> {
    let words: &[&str; 8] = words.try_into().ok()?;
    let mut values = Vec::new();
    for word in words {
        values.push(clause_of_word(word)?);
    }
    let mut clauses = Clauses::default();
    for (name, value) in ClauseName::ALL.into_iter().zip(&values) {
        *clauses.slot(name) = value.as_deref();
    }
    let mut buffer = buffer_of_room(room)?;
    let result: Result<usize, Refusal> = write_filter(&clauses, &mut buffer);
    let number = number_of(&result);
    Some(format!("write {number} {} {}", result.unwrap_or(0), word_of_octets(&buffer)))
}

fn answer_read(form: &str, version: &str, octets: &str) -> Option<String> {
    let form = form_of_word(form)?;
    let version = bits_of_word(version)?;
    let octets = octets_of_word(octets)?;
    Some(match read_reply(form, version, &octets) {
        Ok(reply) => format!("read {ANSWERED} {} {}", octets.len(), words_of_reply(&reply)),
        Err(refusal) => format!("read {} 0", refusal.number()),
    })
}

fn answer_walk(offset: &str, octets: &str) -> Option<String> {
    let offset = number_of_word(offset)?;
    let octets = octets_of_word(octets)?;
    // An offset too large for this machine lies past the end of any line's octets.
    let walked = usize::try_from(offset).ok().and_then(|offset| walk(&octets, offset));
    let Some(walked) = walked else {
        return Some("walk none".to_string());
    };
    let mut line = format!("walk {} {}", walked.pointers, walked.labels.len());
    for label in walked.labels {
        line.push(' ');
        line.push_str(&word_of_octets(label));
    }
    Some(line)
}

fn answer_mailslot(octets: &str) -> Option<String> {
    let octets = octets_of_word(octets)?;
    Some(match read_message(&octets) {
        Ok(message) => format!("mailslot {ANSWERED} {}", words_of_message(&message)),
        Err(refusal) => format!("mailslot {}", refusal.number()),
    })
}

fn answer_mailwrite(room: &str, fields: &[&str]) -> Option<String> {
    let [repeat, computer, user, mailslot, account_bits, sid, version] = fields else { return None };
    let message = Message {
        repeat: u16::try_from(number_of_word(repeat)?).ok()?,
        computer: &text_of_word(computer)?,
        user: &text_of_word(user)?,
        mailslot: &text_of_word(mailslot)?,
        account_bits: bits_of_word(account_bits)?,
        sid: &text_of_word(sid)?,
        version: bits_of_word(version)?,
    };
    let mut buffer = buffer_of_room(room)?;
    let result: Result<usize, Refusal> = write_message(&message, &mut buffer);
    let number = number_of(&result);
    Some(format!("mailwrite {number} {} {}", result.unwrap_or(0), word_of_octets(&buffer)))
}

fn words_of_message(message: &Message) -> String {
    let words = [
        message.repeat.to_string(),
        word_of_text(message.computer),
        word_of_text(message.user),
        word_of_text(message.mailslot),
        word_of_bits(message.account_bits),
        word_of_text(message.sid),
        word_of_bits(message.version),
    ];
    words.join(" ")
}

/// What the answering calls return, and the whole lent buffer after them.
fn words_of_answer(result: &Result<Answer, Refusal>, buffer: &[u8]) -> String {
    let number = number_of(result);
    let buffer = word_of_octets(buffer);
    match result {
        Ok(Answer { length, context, form }) => {
            format!("{number} {length} {} {} {buffer}", context.0, word_of_form(*form))
        }
        Err(_) => format!("{number} 0 0 none {buffer}"),
    }
}

fn words_of_reply(reply: &Reply) -> String {
    let mut words = vec![reply.opcode.to_string()];
    match &reply.fields {
        Fields::Nt40 { texts } => words.extend(texts.iter().map(|text| word_of_text(text))),
        Fields::Response { texts, guid, names, address, flags } => {
            words.extend(texts.iter().map(|text| word_of_text(text)));
            words.push(word_of_octets(guid));
            words.extend(names.iter().map(word_of_name));
            words.push(word_of_octets(address));
            words.push(word_of_bits(*flags));
        }
        Fields::Ex { flags, guid, names, address, name_8 } => {
            words.push(word_of_bits(*flags));
            words.push(word_of_octets(guid));
            words.extend(names.iter().map(word_of_name));
            words.push(address.map_or(".".to_string(), word_of_octets));
            words.push(name_8.as_ref().map_or(".".to_string(), word_of_name));
        }
    }
    words.push(reply.version.to_string());
    words.join(" ")
}

pub fn word_of_form(form: Form) -> &'static str {
    match form {
        Form::Nt40 => "nt40",
        Form::Response => "response",
        Form::Ex => "ex",
    }
}

pub fn form_of_word(word: &str) -> Option<Form> {
    Form::ALL.into_iter().find(|form| word_of_form(*form) == word)
}

fn hex(octets: &[u8]) -> String {
    octets.iter().map(|octet| format!("{octet:02x}")).collect()
}

/// Octets as a word, `-` where there are none.
pub fn word_of_octets(octets: &[u8]) -> String {
    if octets.is_empty() {
        "-".to_string()
    } else {
        hex(octets)
    }
}

/// A clause as a word: an absent one and an empty one differ.
pub fn word_of_clause(clause: Option<&[u8]>) -> String {
    clause.map_or(".".to_string(), word_of_text)
}

pub fn word_of_text(text: &[u8]) -> String {
    format!("={}", hex(text))
}

fn word_of_name(name: &Name) -> String {
    format!("={}/{}", hex(&name.text()), name.pointers)
}

pub fn word_of_bits(bits: u32) -> String {
    format!("{bits:08x}")
}

fn digit_of(character: u8) -> Option<u8> {
    match character {
        b'0'..=b'9' => Some(character - b'0'),
        b'a'..=b'f' => Some(character - b'a' + 10),
        _ => None,
    }
}

/// Pairs of small hex digits, possibly no pair at all.
pub fn octets_of_hex(digits: &str) -> Option<Vec<u8>> {
    let (pairs, odd) = digits.as_bytes().as_chunks::<2>();
    if !odd.is_empty() {
        return None;
    }
    pairs.iter().map(|[high, low]| Some(digit_of(*high)? << 4 | digit_of(*low)?)).collect()
}

pub fn octets_of_word(word: &str) -> Option<Vec<u8>> {
    match word {
        "" => None,
        "-" => Some(Vec::new()),
        digits => octets_of_hex(digits),
    }
}

fn clause_of_word(word: &str) -> Option<Option<Vec<u8>>> {
    match word {
        "." => Some(None),
        _ => text_of_word(word).map(Some),
    }
}

/// A text that cannot be absent.
pub fn text_of_word(word: &str) -> Option<Vec<u8>> {
    octets_of_hex(word.strip_prefix('=')?)
}

fn client_of_word(word: &str) -> Option<ClientAddress> {
    Some(ClientAddress::from_octets(octets_of_word(word)?.try_into().ok()?))
}

/// A decimal number: digits alone, zeros in front allowed.
fn number_of_word(word: &str) -> Option<u64> {
    let digits_alone = word.bytes().all(|character| character.is_ascii_digit());
    if digits_alone && word.len() <= MOST_DIGITS {
        word.parse().ok()
    } else {
        None
    }
}

fn bits_of_word(word: &str) -> Option<u32> {
    let octets: [u8; 4] = octets_of_word(word)?.try_into().ok()?;
    Some(u32::from_be_bytes(octets))
}

fn buffer_of_room(word: &str) -> Option<Vec<u8>> {
    let room = usize::try_from(number_of_word(word)?).ok()?;
    (room <= LARGEST_ROOM).then(|| vec![UNWRITTEN; room])
}

/// Answers every line of the input. The last line may lack its LF.
pub fn answer_all(input: &mut impl BufRead, output: &mut impl Write) -> std::io::Result<()> {
    let mut answerer = Answerer::default();
    let mut line = Vec::new();
    while read_line(input, &mut line)? {
        if let Some(answer) = answerer.answer(&line) {
            output.write_all(answer.as_bytes())?;
            output.write_all(b"\n")?;
        }
    }
    output.flush()
}

/// Reads one line without its LF; false at the end. Of a line that is too long only so much is kept as shows it.
fn read_line(input: &mut impl BufRead, line: &mut Vec<u8>) -> std::io::Result<bool> {
    line.clear();
    let mut something_read = false;
    loop {
        let stretch = input.fill_buf()?;
        if stretch.is_empty() {
            return Ok(something_read);
        }
        something_read = true;
        let end = stretch.iter().position(|&octet| octet == b'\n');
        let part = &stretch[..end.unwrap_or(stretch.len())];
        let kept = part.len().min(LONGEST_LINE + 1 - line.len());
        line.extend_from_slice(&part[..kept]);
        let used = end.map_or(stretch.len(), |end| end + 1);
        input.consume(used);
        if end.is_some() {
            return Ok(true);
        }
    }
}

#[cfg(test)]
mod tests {
    use super::*;

    fn answers(input: &[u8]) -> String {
        let mut output = Vec::new();
        answer_all(&mut &input[..], &mut output).unwrap();
        String::from_utf8(output).unwrap()
    }

    #[test]
    fn passed_over_and_other_shapes() {
        assert_eq!(answers(b""), "");
        assert_eq!(answers(b"\n# note\n\n"), "");
        assert_eq!(answers(b"#"), "");
        let wrong: [&[u8]; 24] = [
            b" ",
            b"what",
            b"check",
            b"check 00",
            b"check -",
            b"table",
            b"table 0",
            b"table 0A",
            b"table  00",
            b"table 00 ",
            b"table =00",
            b"ping 00000000 - 4097",
            b"ping 000000 - 1",
            b"ping 00000000 - -1",
            b"ping 00000000 - +1",
            b"ping 00000000 - 18446744073709551616",
            b"ping 00000000 -",
            b"filter ",
            b"write 1 . . . . . . .",
            b"write 1 . . . . . . . =-",
            b"read ex 0000000 00",
            b"read EX 00000000 00",
            b"walk - 00",
            b"\xFF\xFE",
        ];
        for line in wrong {
            assert_eq!(answers(line), "?\n", "{line:?}");
        }
        assert_eq!(answers(b"table -\r\ntable -"), "?\ntable 1\n");
    }

    #[test]
    fn numbers_take_digits_alone() {
        assert_eq!(number_of_word("0000000010"), Some(10));
        assert_eq!(number_of_word("9999999999"), Some(9_999_999_999));
        assert_eq!(number_of_word("00000000010"), None);
        assert_eq!(number_of_word(""), None);
        assert_eq!(number_of_word("1a"), None);
    }

    #[test]
    fn the_longest_line() {
        let longest = format!("table {}", "0".repeat(LONGEST_LINE - 6));
        assert_eq!(answers(longest.as_bytes()), "table 1\n");
        let longer = format!("{longest}00\ntable -\n");
        assert_eq!(answers(longer.as_bytes()), "?\ntable 1\n");
    }

    #[test]
    fn each_kind_of_line() {
        assert_eq!(answers(format!("check {}", "00".repeat(508)).as_bytes()), "check 1 508\n");
        assert_eq!(answers(b"ping 00000000 - 2"), "ping 1 0 0 none a5a5\n");
        assert_eq!(answers(b"ping 00000000 - 0"), "ping 1 0 0 none -\n");
        assert_eq!(answers(b"filter a30804045573657204 00"), "?\n");
        assert_eq!(answers(b"filter a3080404557365720400"), "filter 0 . . . = . . . .\n");
        assert_eq!(answers(b"filter -"), "filter 6 . . . . . . . .\n");
        assert_eq!(answers(b"write 13 . = . . . . . ."), "write 0 12 a00aa3080404486f73740400a5\n");
        assert_eq!(answers(b"write 0 . . . . . . . ."), "write 6 0 -\n");
        assert_eq!(answers(b"walk 3 016100c000"), "walk 1 1 61\n");
        assert_eq!(answers(b"walk 2 016100c000"), "walk 0 0\n");
        assert_eq!(answers(b"walk 9999999999 -"), "walk none\n");
        assert_eq!(answers(b"read nt40 00000000 1300"), "read 31 0\n");
        assert_eq!(answers(b"read nt40 00000000 1300410000000000000001000000ffffffff"), "read 0 18 19 =4100 = = 1\n");
    }

    #[test]
    fn messages_are_read_and_written() {
        let message = "12000201410000006100000000100000000000000006000000ffffffff";
        let fields = "258 =4100 =6100 = 00000010 = 00000006";
        assert_eq!(answers(format!("mailslot {message}").as_bytes()), format!("mailslot 0 {fields}\n"));
        assert_eq!(answers(b"mailslot -"), "mailslot 41\n");
        assert_eq!(answers(format!("mailwrite 30 {fields}").as_bytes()), format!("mailwrite 0 29 {message}a5\n"));
        assert_eq!(answers(b"mailwrite 2 0 = = = 00000010 = 00000006"), "mailwrite 19 0 a5a5\n");
        assert_eq!(answers(b"mailwrite 0 0000065535 =00 = = 00000010 = 00000006"), "mailwrite 41 0 -\n");
        assert_eq!(answers(b"mailping 00000000 - 2"), "mailping 1 0 0 none a5a5\n");
        for other in ["mailslot", "mailslot .", "mailslot =", "mailping 00000000 -", "mailping 000000 - 1"] {
            assert_eq!(answers(other.as_bytes()), "?\n");
        }
        for (from, to) in [("=4100", "."), ("=6100", "6100"), ("=6100", "=-"), ("258", "65536"), ("00000010", "10")] {
            let other = format!("mailwrite 30 {fields}").replace(from, to);
            assert_eq!(answers(other.as_bytes()), "?\n", "{other}");
        }
    }

    #[test]
    fn values_give_a_number_and_a_version() {
        let answer = |filter: &str| answers(format!("values {filter}").as_bytes());
        assert_eq!(answer("a00fa30d04054e74566572040406000001"), "values 0 01000006\n");
        assert_eq!(answer("a30d04054e747665720404ffffffff"), "values 0 ffffffff\n");
        assert_eq!(answer("a30d04054e74566572040400000000"), "values 0 00000000\n");
        assert_eq!(answer(&"00".repeat(2049)), "values 5 00000000\n");
        assert_eq!(answer("a00fa30d04054e745665720404060000"), "values 6 00000000\n");
        assert_eq!(answer("-"), "values 6 00000000\n");
        assert_eq!(answer("a30404000400"), "values 7 00000000\n");
        assert_eq!(answer("a016a30904054e745665720400a30904054e747665720400"), "values 8 00000000\n");
        assert_eq!(answer("a30904054e745665720400"), "values 9 00000000\n");
        assert_eq!(answer("a309040455736572040100"), "values 9 00000000\n");
        assert_eq!(answer("a3080404557365720400"), "values 0 00000001\n");
        for other in ["", ".", "=", "a3 ", "A3", "- -"] {
            assert_eq!(answer(other), "?\n");
        }
    }
}
