// The two files of a network, and what is refused of them.
use std::collections::{HashMap, HashSet};
use std::fs::File;
use std::hash::{BuildHasherDefault, Hasher};
use std::io::Read;

// Built with `--cfg wide` it has the wide limits, else the standard ones.
const WIDE: bool = cfg!(wide);
const MAX_FILE: usize = if WIDE { 167_772_160 } else { 8_388_608 };
const MAX_JOURNAL: usize = if WIDE { 4_000_000_000 } else { 1_600_000_000 };
const MAX_BANKS: usize = if WIDE { 10_000 } else { 1_000 };
const MAX_DEBTS: usize = if WIDE { 1_000_000 } else { 20_000 };
const MAX_CASH: u64 = 1_000_000_000_000;
const MAX_CLAIM: u64 = 1_000_000;
const MAX_OWED: u64 = if WIDE { 25_000_000 } else { 10_000_000 };

// A status and a message.
pub struct Fault(pub u8, pub String);

fn refused<T>(file: &str, row: usize, kind: &str, number: u32) -> Result<T, Fault> {
    Err(Fault(4, format!("clearing: {file} row {row}: {kind} ({number})\n")))
}

// A quick hash.
#[derive(Default)]
struct Quick(u64);
impl Hasher for Quick {
    fn write(&mut self, bytes: &[u8]) {
        for part in bytes.chunks(8) {
            let mut word = [0; 8];
            word[..part.len()].copy_from_slice(part);
            self.write_u64(u64::from_le_bytes(word));
        }
    }
    fn write_u64(&mut self, word: u64) {
        let product = u128::from(self.0 ^ word ^ 0x9e37_79b9_7f4a_7c15) * 0xe703_7ed1_a0b4_28db;
        self.0 = product as u64 ^ (product >> 64) as u64;
    }
    fn write_u32(&mut self, word: u32) {
        self.write_u64(u64::from(word))
    }
    fn write_usize(&mut self, word: usize) {
        self.write_u64(word as u64)
    }
    fn finish(&self) -> u64 {
        self.0
    }
}

type QuickBuild = BuildHasherDefault<Quick>;

// The records of a text. Of each record the first five fields are kept, the number of all, and whether all are blank.
struct Records<'a> {
    text: &'a [u8],
    at: usize,
    has_quotes: bool,
    unquoted: Vec<u8>,
    fields: [(usize, usize); 5],
    len: usize,
    blank: bool,
}

impl<'a> Records<'a> {
    fn of(text: &'a [u8]) -> Self {
        let text = text.strip_prefix(b"\xef\xbb\xbf").unwrap_or(text);
        let has_quotes = text.contains(&b'"');
        Records { text, at: 0, has_quotes, unquoted: Vec::new(), fields: [(0, 0); 5], len: 0, blank: true }
    }

    fn field(&self, i: usize) -> &[u8] {
        let (from, to) = self.fields[i];
        if self.has_quotes {
            &self.unquoted[from..to]
        } else {
            &self.text[from..to]
        }
    }

    // Keeps a field, without the spaces and tabs at its ends.
    fn keep(&mut self, mut from: usize, mut to: usize) {
        let all = if self.has_quotes { self.unquoted.as_slice() } else { self.text };
        while from < to && matches!(all[from], b' ' | b'\t') {
            from += 1;
        }
        while from < to && matches!(all[to - 1], b' ' | b'\t') {
            to -= 1;
        }
        if self.len < 5 {
            self.fields[self.len] = (from, to)
        }
        self.len += 1;
        self.blank &= from == to;
    }

    // Goes to the next record, if there is one.
    fn next(&mut self) -> bool {
        let text = self.text;
        while self.at < text.len() && matches!(text[self.at], b'\n' | b'\r') {
            self.at += 1;
        }
        if self.at == text.len() {
            return false;
        }
        (self.len, self.blank) = (0, true);
        if self.has_quotes {
            return self.next_quoted();
        }
        loop {
            let from = self.at;
            let mut to = from;
            while to < text.len() && !matches!(text[to], b',' | b'\n' | b'\r') {
                to += 1;
            }
            self.keep(from, to);
            self.at = (to + 1).min(text.len());
            if to == text.len() || text[to] != b',' {
                return true;
            }
        }
    }

    fn next_quoted(&mut self) -> bool {
        let text = self.text;
        self.unquoted.clear();
        loop {
            let from = self.unquoted.len();
            if self.at < text.len() && text[self.at] == b'"' {
                self.at += 1;
                while self.at < text.len() {
                    let run = text[self.at..].iter().position(|c| *c == b'"').unwrap_or(text.len() - self.at);
                    self.unquoted.extend_from_slice(&text[self.at..self.at + run]);
                    self.at = (self.at + run + 1).min(text.len());
                    if self.at == text.len() || text[self.at] != b'"' {
                        break;
                    }
                    self.unquoted.push(b'"');
                    self.at += 1;
                }
            }
            while self.at < text.len() && !matches!(text[self.at], b',' | b'\n' | b'\r') {
                self.unquoted.push(text[self.at]);
                self.at += 1;
            }
            self.keep(from, self.unquoted.len());
            let more = self.at < text.len() && text[self.at] == b',';
            self.at = (self.at + 1).min(text.len());
            if !more {
                return true;
            }
        }
    }

    fn is(&self, words: &[&str]) -> bool {
        self.len == words.len() && (0..self.len).all(|i| self.field(i) == words[i].as_bytes())
    }
}

fn is_name(field: &[u8]) -> bool {
    let fits = |c: char| c > '\u{1f}' && !('\u{7f}'..='\u{9f}').contains(&c) && c != ',' && c != '"';
    (1..=64).contains(&field.len()) && std::str::from_utf8(field).is_ok_and(|text| text.chars().all(fits))
}

fn number(field: &[u8]) -> Option<u64> {
    if field.is_empty() || field.len() > 20 || !field.iter().all(u8::is_ascii_digit) {
        return None;
    }
    Some(field.iter().fold(0u64, |n, c| n.saturating_mul(10).saturating_add(u64::from(c - b'0'))))
}

#[derive(Clone, Copy, PartialEq)]
pub enum Rule {
    Order,
    Equal,
    Losses,
    Jefferson,
    Webster,
    Adams,
}

#[derive(Default)]
pub struct Net {
    pub names: Vec<Vec<u8>>,
    pub cash: Vec<u64>,
    pub rules: Vec<Rule>,
    pub debtor: Vec<u32>,
    pub creditor: Vec<u32>,
    pub class: Vec<u8>,
    pub claim: Vec<u32>,
    index: HashMap<Vec<u8>, u32, QuickBuild>,
}

fn read_banks(net: &mut Net, text: &[u8]) -> Result<(), Fault> {
    let no = |row, kind, number| refused("banks", row, kind, number);
    net.index.reserve(MAX_BANKS);
    let mut r = Records::of(text);
    if !r.next() || !r.is(&["name", "cash", "rule"]) {
        return no(0, "header", 1);
    }
    let mut row = 0;
    while r.next() {
        row += 1;
        if r.blank {
            continue;
        }
        if net.names.len() == MAX_BANKS {
            return no(row, "too many", 12);
        }
        if r.len != 3 {
            return no(row, "fields", 2);
        }
        let name = r.field(0);
        if !is_name(name) {
            return no(row, "name", 3);
        }
        if net.index.insert(name.to_vec(), net.names.len() as u32).is_some() {
            return no(row, "double bank", 7);
        }
        let Some(cash) = number(r.field(1)) else { return no(row, "number", 4) };
        if cash > MAX_CASH {
            return no(row, "limit", 6);
        }
        let rule = match r.field(2) {
            b"order" => Rule::Order,
            b"equal" => Rule::Equal,
            b"losses" => Rule::Losses,
            b"jefferson" => Rule::Jefferson,
            b"webster" => Rule::Webster,
            b"adams" => Rule::Adams,
            _ => return no(row, "rule", 5),
        };
        net.names.push(name.to_vec());
        net.cash.push(cash);
        net.rules.push(rule);
    }
    Ok(())
}

fn read_debts(net: &mut Net, text: &[u8]) -> Result<(), Fault> {
    let no = |row, kind, number| refused("debts", row, kind, number);
    let mut seen = HashSet::with_capacity_and_hasher(MAX_DEBTS, QuickBuild::default());
    let mut r = Records::of(text);
    if !r.next() || !r.is(&["debtor", "creditor", "class", "claim"]) {
        return no(0, "header", 1);
    }
    let (mut row, mut owed) = (0, 0);
    while r.next() {
        row += 1;
        if r.blank {
            continue;
        }
        if net.claim.len() == MAX_DEBTS {
            return no(row, "too many", 12);
        }
        if r.len != 4 {
            return no(row, "fields", 2);
        }
        let mut ends = [0; 2];
        for (i, end) in ends.iter_mut().enumerate() {
            match net.index.get(r.field(i)) {
                Some(bank) => *end = *bank,
                None if is_name(r.field(i)) => return no(row, "unknown bank", 8),
                None => return no(row, "name", 3),
            }
        }
        let [debtor, creditor] = ends;
        if debtor == creditor {
            return no(row, "self debt", 9);
        }
        let class = match r.field(2) {
            [digit @ b'1'..=b'9'] => digit - b'0',
            _ => return no(row, "class", 10),
        };
        let Some(claim) = number(r.field(3)) else { return no(row, "number", 4) };
        if claim > MAX_CLAIM {
            return no(row, "limit", 6);
        }
        if !seen.insert((debtor * 1000 + creditor) * 10 + u32::from(class)) {
            return no(row, "double debt", 11);
        }
        owed += claim;
        if owed > MAX_OWED {
            return no(row, "total", 13);
        }
        net.debtor.push(debtor);
        net.creditor.push(creditor);
        net.class.push(class);
        net.claim.push(claim as u32);
    }
    Ok(())
}

fn fetch(name: &str, file: &str, most: usize) -> Result<Vec<u8>, Fault> {
    let mut bytes = Vec::new();
    let read = File::open(name).and_then(|f| f.take(most as u64 + 1).read_to_end(&mut bytes));
    read.map_err(|_| Fault(3, format!("clearing: cannot read {name}\n")))?;
    if bytes.len() > most {
        refused(file, 0, "file size", 14)
    } else {
        Ok(bytes)
    }
}

pub fn read(banks: &str, debts: &str) -> Result<Net, Fault> {
    let (banks, debts) = (fetch(banks, "banks", MAX_FILE)?, fetch(debts, "debts", MAX_FILE)?);
    let mut net = Net::default();
    read_banks(&mut net, &banks)?;
    read_debts(&mut net, &debts)?;
    Ok(net)
}

// A raise of a debt to what has then been paid on it in all.
#[derive(Clone, Copy)]
pub struct Raise {
    pub stamp: u32,
    pub debt: u32,
    pub to: u32,
}

pub fn read_journal(net: &Net, name: &str) -> Result<Vec<Raise>, Fault> {
    let no = |row, kind, number| refused("journal", row, kind, number);
    let text = fetch(name, "journal", MAX_JOURNAL)?;
    let key = |debtor: u32, creditor: u32, class: u8| (debtor * 1000 + creditor) * 10 + u32::from(class);
    let debts: HashMap<u32, u32, QuickBuild> =
        (0..net.claim.len()).map(|x| (key(net.debtor[x], net.creditor[x], net.class[x]), x as u32)).collect();
    let mut r = Records::of(&text);
    if !r.next() || !r.is(&["stamp", "debtor", "creditor", "class", "to"]) {
        return no(0, "header", 1);
    }
    let (mut row, mut journal) = (0, Vec::new());
    while r.next() {
        row += 1;
        if r.blank {
            continue;
        }
        if r.len == 2 && r.field(0) == b"rounds" {
            break;
        }
        if r.len != 5 {
            return no(row, "fields", 2);
        }
        let Some(stamp) = number(r.field(0)) else { return no(row, "number", 4) };
        if stamp > u64::from(u32::MAX) {
            return no(row, "limit", 6);
        }
        let ends = (net.index.get(r.field(1)), net.index.get(r.field(2)));
        let (Some(debtor), Some(creditor)) = ends else { return no(row, "unknown bank", 8) };
        let [digit @ b'1'..=b'9'] = r.field(3) else { return no(row, "class", 10) };
        let Some(debt) = debts.get(&key(*debtor, *creditor, digit - b'0')) else { return no(row, "unknown debt", 15) };
        let Some(to) = number(r.field(4)) else { return no(row, "number", 4) };
        if to > MAX_CLAIM {
            return no(row, "limit", 6);
        }
        journal.push(Raise { stamp: stamp as u32, debt: *debt, to: to as u32 });
    }
    Ok(journal)
}
