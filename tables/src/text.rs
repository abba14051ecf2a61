//! Texts of tables, both ways: a line is a record, the start of a block, or records left unused.

use crate::records::{parse_record, record_line};
use crate::rules::judge_record;
use crate::table::{Block, Entry, Fault, Kind, Place, Table, MOST_BLOCKS};
use crate::values::parse_count;
use crate::whole::judge_whole;

/// The kinds whose blocks hold several records, by the word that a block line has for them.
const SEVERAL: [(&str, Kind); 3] = [("accounts", Kind::Accounts), ("sites", Kind::Sites), ("subnets", Kind::Subnets)];

/// Some editors put it before a text; it is no part of the first word.
const BYTE_ORDER_MARK: &[u8] = b"\xEF\xBB\xBF";

/// The table of a text, accepted, or the first fault by its line.
pub fn parse(text: &[u8]) -> Result<Table, Fault> {
    let text = text.strip_prefix(BYTE_ORDER_MARK).unwrap_or(text);
    let mut draft = Draft::default();
    let mut end = Place::Line(1);
    for (number, line) in (1..).zip(text.split_inclusive(|octet| *octet == b'\n')) {
        end = Place::Line(number);
        draft.take_line(end, line).map_err(|message| Fault::new(end, message))?;
    }
    let table = draft.finish(end)?;
    judge_whole(&table)?;
    Ok(table)
}

/// A table in the making.
#[derive(Default)]
struct Draft {
    server: Option<Entry>,
    forest: Option<Entry>,
    /// Those after server and forest.
    blocks: Vec<Block>,
    /// The block that the last block line began.
    begun: Option<usize>,
}

impl Draft {
    fn take_line(&mut self, place: Place, line: &[u8]) -> Result<(), String> {
        let line = std::str::from_utf8(line).map_err(|_| "not UTF-8; expected UTF-8, or \\hh for an octet")?;
        let words: Vec<&str> = line.split_ascii_whitespace().take_while(|word| !word.starts_with('#')).collect();
        match words.as_slice() {
            [] => Ok(()),
            ["block", words @ ..] => self.begin_block(words),
            ["unused", words @ ..] => self.leave_unused(words),
            [name, words @ ..] => {
                let record = parse_record(name, words)?;
                judge_record(&record)?;
                self.add(Entry { place, record })
            }
        }
    }

    fn begin_block(&mut self, words: &[&str]) -> Result<(), String> {
        let kind = SEVERAL.into_iter().find(|(name, _)| words == [*name]);
        let (_, kind) = kind.ok_or("expected block accounts, block sites or block subnets")?;
        self.begun = Some(self.blocks.len());
        self.push_block(kind).map(|_| ())
    }

    /// Leaves records unused in the block that a block line began.
    fn leave_unused(&mut self, words: &[&str]) -> Result<(), String> {
        let [count] = words else { return Err("expected unused and a count".to_string()) };
        let begun = self.begun.and_then(|place| self.blocks.get_mut(place));
        let block = begun.ok_or("expected a block line before an unused line")?;
        let left = block.kind.capacity() - block.slots.len();
        if left == 0 {
            return Err("the block is full; expected a block line before".to_string());
        }
        let count = parse_count(count, left).map_err(|message| format!("unused {count}: {message}"))?;
        block.slots.resize(block.slots.len() + count, None);
        Ok(())
    }

    fn add(&mut self, entry: Entry) -> Result<(), String> {
        match entry.record.kind() {
            Kind::Server => return put_once(&mut self.server, entry, "server"),
            Kind::Forest => return put_once(&mut self.forest, entry, "forest"),
            kind => self.open_block(kind)?.slots.push(Some(entry)),
        }
        Ok(())
    }

    /// The block that a record of this kind joins: the last one if it has room, else a new one.
    fn open_block(&mut self, kind: Kind) -> Result<&mut Block, String> {
        let last = self.blocks.iter().rposition(|block| block.kind == kind);
        match last.filter(|place| self.blocks[*place].slots.len() < kind.capacity()) {
            Some(place) => Ok(&mut self.blocks[place]),
            None => self.push_block(kind),
        }
    }

    fn push_block(&mut self, kind: Kind) -> Result<&mut Block, String> {
        let place = self.blocks.len();
        if place + 2 == MOST_BLOCKS {
            return Err("this line begins a 129th block; expected 128 at most".to_string());
        }
        self.blocks.push(Block { kind, slots: Vec::new() });
        Ok(&mut self.blocks[place])
    }

    /// Server and forest come first, wherever their lines stand.
    fn finish(self, end: Place) -> Result<Table, Fault> {
        let missing = |name: &str| Fault::new(end, format!("the text ends without a {name} line; expected one"));
        let server = self.server.ok_or_else(|| missing("server"))?;
        let forest = self.forest.ok_or_else(|| missing("forest"))?;
        let first = [server, forest].map(|entry| Block { kind: entry.record.kind(), slots: vec![Some(entry)] });
        Ok(Table { blocks: first.into_iter().chain(self.blocks).collect(), end })
    }
}

fn put_once(held: &mut Option<Entry>, entry: Entry, name: &str) -> Result<(), String> {
    match held.replace(entry) {
        None => Ok(()),
        Some(earlier) => Err(format!("{} is a {name} line already; expected one alone", earlier.place)),
    }
}

/// A text that makes the same image: a block of several records gets its own line, and gaps between records theirs.
pub fn show(table: &Table) -> String {
    let lines = table.blocks.iter().flat_map(block_lines);
    lines.map(|line| line + "\n").collect()
}

fn block_lines(block: &Block) -> Vec<String> {
    let several = SEVERAL.into_iter().find(|(_, kind)| *kind == block.kind);
    let mut lines: Vec<String> = several.into_iter().map(|(name, _)| format!("block {name}")).collect();
    let mut unused = 0;
    for slot in &block.slots {
        let Some(entry) = slot else {
            unused += 1;
            continue;
        };
        if unused > 0 {
            lines.push(format!("unused {unused}"));
        }
        unused = 0;
        lines.push(record_line(&entry.record));
    }
    lines
}
