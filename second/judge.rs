// What the documents say about one case: the answer or the refusal that the player owes.

use crate::circuit::{self, Refusal};
use crate::frames;
use crate::trace;

#[derive(Clone)]
pub struct Hold {
    pub name: Vec<u8>,
    pub bit: bool,
}

pub struct Case {
    pub kind: &'static str,
    pub circuit: Vec<u8>,
    pub trace: Vec<u8>,
    pub hold: Option<Hold>,
    pub known: Option<String>,
}

impl Case {
    pub fn new(kind: &'static str, circuit: Vec<u8>, trace: Vec<u8>, hold: Option<Hold>) -> Case {
        let known = None;
        Case {
            kind,
            circuit,
            trace,
            hold,
            known,
        }
    }
}

pub enum Outcome {
    Answer {
        nets: usize,
        frames: usize,
        dashes: usize,
        word: &'static str,
    },
    Refused(Refusal),
}

impl Outcome {
    pub fn output(&self) -> String {
        match self {
            Outcome::Answer {
                nets,
                frames,
                dashes,
                word,
            } => {
                format!("nets {nets}, frames {frames}, dashes {dashes}: {word}\n")
            }
            Outcome::Refused(refusal) => format!("no\t{}\t{}\n", refusal.number, refusal.line),
        }
    }

    pub fn status(&self) -> i32 {
        match self {
            Outcome::Answer { .. } => 0,
            Outcome::Refused(_) => 1,
        }
    }
}

pub fn judge(case: &Case) -> Outcome {
    replay(case).unwrap_or_else(Outcome::Refused)
}

fn replay(case: &Case) -> Result<Outcome, Refusal> {
    let circuit = circuit::read(&case.circuit)?;
    let held = match &case.hold {
        None => None,
        Some(hold) => {
            let net = circuit.find(&hold.name).ok_or(Refusal {
                number: 11,
                line: 0,
            })?;
            Some((net, hold.bit))
        }
    };
    let trace = trace::read(&case.trace, &circuit)?;
    Ok(Outcome::Answer {
        nets: circuit.nets.len(),
        frames: trace.length + 1,
        dashes: trace.dashes(),
        word: frames::answer(&circuit, &trace, held),
    })
}
