// Reader of trace texts: lays out what circuit and length ask for and holds the text against it.

use crate::circuit::{value, Circuit, Net, Refusal, Value};
use crate::lines::{cut, fields, Line};

pub const LONGEST: usize = 63;

pub struct Trace {
    pub length: usize,
    pub target: usize,
    pub starts: Vec<Value>,
    pub inputs: Vec<Value>,
}

impl Trace {
    pub fn dashes(&self) -> usize {
        let all = self.starts.iter().chain(&self.inputs);
        all.filter(|value| **value == Value::Either).count()
    }
}

pub fn read(text: &[u8], circuit: &Circuit) -> Result<Trace, Refusal> {
    let lines = cut(text);
    let (length, target) = first(lines.first(), circuit).ok_or(Refusal {
        number: 27,
        line: 1,
    })?;
    let (starts, heads) = layout(circuit, length);
    let mut values = Vec::new();
    for (index, head) in heads.iter().enumerate() {
        values.push(later(lines.get(index + 1), head).ok_or(fault(index + 2))?);
    }
    if lines.len() > heads.len() + 1 {
        return Err(fault(heads.len() + 2));
    }
    let inputs = values.split_off(starts);
    Ok(Trace {
        length,
        target,
        starts: values,
        inputs,
    })
}

fn fault(line: usize) -> Refusal {
    Refusal { number: 28, line }
}

fn first(line: Option<&Line>, circuit: &Circuit) -> Option<(usize, usize)> {
    let line = line.filter(|line| line.closed)?;
    match fields(line.bytes)[..] {
        [b"run", length, target] => Some((number(length)?, circuit.find(target)?)),
        _ => None,
    }
}

fn number(field: &[u8]) -> Option<usize> {
    (0..=LONGEST).find(|length| length.to_string().as_bytes() == field)
}

fn layout(circuit: &Circuit, length: usize) -> (usize, Vec<Vec<u8>>) {
    let mut heads = Vec::new();
    for (net, name) in circuit.nets.iter().zip(&circuit.names) {
        if matches!(
            net,
            Net::Latch {
                start: Value::Either,
                ..
            }
        ) {
            heads.push([b"s\t", &name[..], b"\t"].concat());
        }
    }
    let starts = heads.len();
    for frame in 0..=length {
        for (net, name) in circuit.nets.iter().zip(&circuit.names) {
            if matches!(net, Net::Input) {
                heads.push([format!("i\t{frame}\t").as_bytes(), &name[..], b"\t"].concat());
            }
        }
    }
    (starts, heads)
}

fn later(line: Option<&Line>, head: &[u8]) -> Option<Value> {
    let line = line.filter(|line| line.closed)?;
    value(line.bytes.strip_prefix(head)?)
}
