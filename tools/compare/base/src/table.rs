//! Table files: what they hold, how they are read and written.

use crate::NONE;
use crate::table_check::is_right;

#[derive(Clone, Debug, PartialEq, Eq)]
pub struct Rule {
    pub left: u16,
    pub len: u8,
    pub kind: u8,
    pub pick: u8,
    pub mark: u32,
    pub low: u32,
    pub high: u32,
}

#[derive(Clone, Debug, PartialEq, Eq)]
pub struct Record {
    pub state: u16,
    pub class: u16,
    pub shift: Option<u16>,
    pub rules: Vec<u16>,
}

#[derive(Clone, Debug, PartialEq, Eq)]
pub struct Goto {
    pub state: u16,
    pub nonterm: u16,
    pub target: u16,
}

#[derive(Clone, Debug, PartialEq, Eq)]
pub struct Table {
    pub states: u16,
    pub classes: u16,
    pub nonterms: u16,
    pub rules: Vec<Rule>,
    pub records: Vec<Record>,
    pub gotos: Vec<Goto>,
    pub error_used: bool,
}

/// The bytes that are still to be read; every read says `None` where they end too early.
struct Bytes<'a>(&'a [u8]);

impl<'a> Bytes<'a> {
    fn take(&mut self, n: usize) -> Option<&'a [u8]> {
        let (front, rest) = self.0.split_at_checked(n)?;
        self.0 = rest;
        Some(front)
    }

    fn number(&mut self, bytes: usize) -> Option<u32> {
        let front = self.take(bytes)?;
        Some(front.iter().fold(0, |sum, &b| sum << 8 | b as u32))
    }

    fn u8(&mut self) -> Option<u8> {
        Some(self.number(1)? as u8)
    }

    fn u16(&mut self) -> Option<u16> {
        Some(self.number(2)? as u16)
    }

    fn field(&mut self, tag: u8) -> Option<Bytes<'a>> {
        if self.u8()? != tag {
            return None;
        }
        let len = self.u16()? as usize;
        Some(Bytes(self.take(len)?))
    }

    fn done(&self) -> bool {
        self.0.is_empty()
    }
}

impl Table {
    /// The table of a right file; `None` for a file that answer 2 refuses.
    pub fn decode(file: &[u8]) -> Option<Table> {
        if file.len() > 65536 {
            return None;
        }
        let mut bytes = Bytes(file);
        let mut fields = [1, 2, 3, 4, 5].map(|tag| bytes.field(tag));
        if !bytes.done() {
            return None;
        }
        let [counts, rules, records, gotos, error] = &mut fields;
        let counts = counts_of(counts.as_mut()?)?;
        let table = Table {
            states: counts[0],
            classes: counts[1],
            nonterms: counts[2],
            rules: rules_of(rules.as_mut()?, counts[3])?,
            records: records_of(records.as_mut()?)?,
            gotos: gotos_of(gotos.as_mut()?)?,
            error_used: flag_of(error.as_mut()?)?,
        };
        is_right(&table).then_some(table)
    }

    pub fn encode(&self) -> Vec<u8> {
        let counts = [self.states, self.classes, self.nonterms, self.rules.len() as u16];
        let mut file = Vec::new();
        put_field(&mut file, 1, counts.iter().flat_map(|n| n.to_be_bytes()).collect());
        put_field(&mut file, 2, self.rules.iter().flat_map(rule_bytes).collect());
        put_field(&mut file, 3, self.records.iter().flat_map(record_bytes).collect());
        put_field(&mut file, 4, self.gotos.iter().flat_map(goto_bytes).collect());
        put_field(&mut file, 5, vec![self.error_used as u8]);
        file
    }
}

fn counts_of(bytes: &mut Bytes) -> Option<[u16; 4]> {
    let counts = [bytes.u16()?, bytes.u16()?, bytes.u16()?, bytes.u16()?];
    bytes.done().then_some(counts)
}

fn rules_of(bytes: &mut Bytes, count: u16) -> Option<Vec<Rule>> {
    if bytes.0.len() != 17 * count as usize {
        return None;
    }
    (0..count).map(|_| rule_of(bytes)).collect()
}

fn rule_of(bytes: &mut Bytes) -> Option<Rule> {
    Some(Rule {
        left: bytes.u16()?,
        len: bytes.u8()?,
        kind: bytes.u8()?,
        pick: bytes.u8()?,
        mark: bytes.number(4)?,
        low: bytes.number(4)?,
        high: bytes.number(4)?,
    })
}

fn records_of(bytes: &mut Bytes) -> Option<Vec<Record>> {
    let mut records = Vec::new();
    while !bytes.done() {
        records.push(record_of(bytes)?);
    }
    Some(records)
}

fn record_of(bytes: &mut Bytes) -> Option<Record> {
    let (state, class, shift, n) = (bytes.u16()?, bytes.u16()?, bytes.u16()?, bytes.u8()?);
    let rules = (0..n).map(|_| bytes.u16()).collect::<Option<_>>()?;
    let shift = (shift != NONE).then_some(shift);
    Some(Record { state, class, shift, rules })
}

fn gotos_of(bytes: &mut Bytes) -> Option<Vec<Goto>> {
    let mut gotos = Vec::new();
    while !bytes.done() {
        let (state, nonterm, target) = (bytes.u16()?, bytes.u16()?, bytes.u16()?);
        gotos.push(Goto { state, nonterm, target });
    }
    Some(gotos)
}

fn flag_of(bytes: &mut Bytes) -> Option<bool> {
    let flag = bytes.u8()?;
    (bytes.done() && flag <= 1).then_some(flag == 1)
}

fn put_field(file: &mut Vec<u8>, tag: u8, data: Vec<u8>) {
    file.push(tag);
    file.extend((data.len() as u16).to_be_bytes());
    file.extend(data);
}

fn rule_bytes(rule: &Rule) -> Vec<u8> {
    let mut bytes = rule.left.to_be_bytes().to_vec();
    bytes.extend([rule.len, rule.kind, rule.pick]);
    bytes.extend([rule.mark, rule.low, rule.high].iter().flat_map(|n| n.to_be_bytes()));
    bytes
}

fn record_bytes(record: &Record) -> Vec<u8> {
    let head = [record.state, record.class, record.shift.unwrap_or(NONE)];
    let mut bytes: Vec<u8> = head.iter().flat_map(|n| n.to_be_bytes()).collect();
    bytes.push(record.rules.len() as u8);
    bytes.extend(record.rules.iter().flat_map(|n| n.to_be_bytes()));
    bytes
}

fn goto_bytes(goto: &Goto) -> Vec<u8> {
    [goto.state, goto.nonterm, goto.target].iter().flat_map(|n| n.to_be_bytes()).collect()
}
