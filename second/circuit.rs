// Reader of circuit texts: gives the nets of a good text, or the number and line of its first fault.

use crate::lines::{cut, fields, Line};

pub const MOST_BYTES: usize = 16_384;
pub const MOST_LINES: usize = 256;
pub const LONGEST_NAME: usize = 16;

#[derive(Clone, Copy)]
pub struct Refusal {
    pub number: usize,
    pub line: usize,
}

#[derive(Clone, Copy, PartialEq)]
pub enum Value {
    Zero,
    One,
    Either,
}

pub enum Net {
    Input,
    Latch { next: usize, start: Value },
    And(usize, usize),
    Xor(usize, usize),
    Inverse(usize),
}

pub struct Circuit {
    pub names: Vec<Vec<u8>>,
    pub nets: Vec<Net>,
}

impl Circuit {
    pub fn find(&self, name: &[u8]) -> Option<usize> {
        self.names.iter().position(|own| own == name)
    }
}

struct Record<'a> {
    letter: u8,
    name: &'a [u8],
    rest: Vec<&'a [u8]>,
}

pub fn read(text: &[u8]) -> Result<Circuit, Refusal> {
    if text.len() > MOST_BYTES {
        return Err(Refusal { number: 1, line: 0 });
    }
    let mut records = Vec::new();
    for (index, line) in cut(text).iter().enumerate() {
        match judge(index, line, &records) {
            Ok(record) => records.push(record),
            Err(number) => {
                return Err(Refusal {
                    number,
                    line: index + 1,
                })
            }
        }
    }
    link(&records)
}

pub fn value(field: &[u8]) -> Option<Value> {
    match field {
        b"0" => Some(Value::Zero),
        b"1" => Some(Value::One),
        b"-" => Some(Value::Either),
        _ => None,
    }
}

fn judge<'a>(index: usize, line: &Line<'a>, above: &[Record<'a>]) -> Result<Record<'a>, usize> {
    if index >= MOST_LINES {
        return Err(2);
    }
    if !line.closed {
        return Err(3);
    }
    let record = record(line.bytes).ok_or(4usize)?;
    if !well_built(record.name) || !record.others().iter().all(|name| well_built(name)) {
        return Err(5);
    }
    if place(above, record.name).is_some() {
        return Err(6);
    }
    if record.is_gate() && record.rest.iter().any(|name| place(above, name).is_none()) {
        return Err(7);
    }
    if record.letter == b'L' && value(record.rest[1]).is_none() {
        return Err(8);
    }
    Ok(record)
}

fn record(line: &[u8]) -> Option<Record<'_>> {
    let fields = fields(line);
    let wanted = match fields[0] {
        b"I" => 2,
        b"N" => 3,
        b"L" | b"A" | b"X" => 4,
        _ => return None,
    };
    if fields.len() != wanted {
        return None;
    }
    Some(Record {
        letter: fields[0][0],
        name: fields[1],
        rest: fields[2..].to_vec(),
    })
}

impl Record<'_> {
    fn is_gate(&self) -> bool {
        matches!(self.letter, b'A' | b'X' | b'N')
    }

    fn others(&self) -> &[&[u8]] {
        if self.letter == b'L' {
            &self.rest[..1]
        } else {
            &self.rest
        }
    }
}

pub fn well_built(name: &[u8]) -> bool {
    let fits = |byte: &u8| matches!(*byte, b'a'..=b'z' | b'0'..=b'9' | b'_');
    !name.is_empty() && name.len() <= LONGEST_NAME && name.iter().all(fits)
}

fn place(records: &[Record], name: &[u8]) -> Option<usize> {
    records.iter().position(|record| record.name == name)
}

fn link(records: &[Record]) -> Result<Circuit, Refusal> {
    let mut nets = Vec::new();
    for (index, record) in records.iter().enumerate() {
        nets.push(net(record, records).ok_or(Refusal {
            number: 9,
            line: index + 1,
        })?);
    }
    let names = records.iter().map(|record| record.name.to_vec()).collect();
    Ok(Circuit { names, nets })
}

fn net(record: &Record, records: &[Record]) -> Option<Net> {
    let other = |index: usize| place(records, record.rest[index]);
    Some(match record.letter {
        b'I' => Net::Input,
        b'L' => Net::Latch {
            next: other(0)?,
            start: value(record.rest[1])?,
        },
        b'A' => Net::And(other(0)?, other(1)?),
        b'X' => Net::Xor(other(0)?, other(1)?),
        _ => Net::Inverse(other(0)?),
    })
}
