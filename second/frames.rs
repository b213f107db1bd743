// Evaluator of frames: works out all frames of a trace, in plain bits or in three-way values.

use crate::circuit::{Circuit, Net, Value};
use crate::trace::Trace;

pub trait Carried: Copy {
    fn from_bit(bit: bool) -> Self;
    fn from_dash() -> Self;
    fn inverse(self) -> Self;
    fn and(self, other: Self) -> Self;
    fn xor(self, other: Self) -> Self;

    fn from_value(value: Value) -> Self {
        match value {
            Value::Zero => Self::from_bit(false),
            Value::One => Self::from_bit(true),
            Value::Either => Self::from_dash(),
        }
    }
}

impl Carried for bool {
    fn from_bit(bit: bool) -> bool {
        bit
    }

    fn from_dash() -> bool {
        panic!("a dash has no place among plain bits")
    }

    fn inverse(self) -> bool {
        !self
    }

    fn and(self, other: bool) -> bool {
        self & other
    }

    fn xor(self, other: bool) -> bool {
        self ^ other
    }
}

#[derive(Clone, Copy, PartialEq)]
pub struct Allowed {
    pub zero: bool,
    pub one: bool,
}

impl Allowed {
    fn has(self, bit: bool) -> bool {
        if bit {
            self.one
        } else {
            self.zero
        }
    }
}

fn combine(a: Allowed, b: Allowed, rule: fn(bool, bool) -> bool) -> Allowed {
    let mut answer = Allowed {
        zero: false,
        one: false,
    };
    for (x, y) in [(false, false), (false, true), (true, false), (true, true)] {
        if a.has(x) && b.has(y) {
            answer.one |= rule(x, y);
            answer.zero |= !rule(x, y);
        }
    }
    answer
}

impl Carried for Allowed {
    fn from_bit(bit: bool) -> Allowed {
        Allowed {
            zero: !bit,
            one: bit,
        }
    }

    fn from_dash() -> Allowed {
        Allowed {
            zero: true,
            one: true,
        }
    }

    fn inverse(self) -> Allowed {
        combine(self, self, |x, _| !x)
    }

    fn and(self, other: Allowed) -> Allowed {
        combine(self, other, |x, y| x && y)
    }

    fn xor(self, other: Allowed) -> Allowed {
        combine(self, other, |x, y| x != y)
    }
}

type Held = Option<(usize, bool)>;

pub fn answer(circuit: &Circuit, trace: &Trace, held: Held) -> &'static str {
    let allowed: Allowed = last(circuit, trace, held);
    let three = match (allowed.zero, allowed.one) {
        (false, true) => "on",
        (true, false) => "off",
        _ => "unsure",
    };
    if trace.dashes() > 0 {
        return three;
    }
    let bits = if last::<bool>(circuit, trace, held) {
        "on"
    } else {
        "off"
    };
    assert!(
        bits == three,
        "plain bits and three-way values differ without a dash"
    );
    bits
}

fn last<V: Carried>(circuit: &Circuit, trace: &Trace, held: Held) -> V {
    let mut now = frame(circuit, trace, held, 0, &[]);
    for number in 1..=trace.length {
        now = frame(circuit, trace, held, number, &now);
    }
    now[trace.target]
}

fn frame<V: Carried>(
    circuit: &Circuit,
    trace: &Trace,
    held: Held,
    number: usize,
    before: &[V],
) -> Vec<V> {
    let mut starts = trace.starts.iter();
    let inputs = trace.inputs.len() / (trace.length + 1);
    let mut sent = trace.inputs.iter().skip(number * inputs);
    let mut now: Vec<V> = Vec::new();
    for (index, net) in circuit.nets.iter().enumerate() {
        let carried = match *net {
            Net::Input => V::from_value(*sent.next().expect("a value for each input")),
            Net::Latch { next, .. } if number > 0 => before[next],
            Net::Latch {
                start: Value::Either,
                ..
            } => V::from_value(*starts.next().expect("a value for each free start")),
            Net::Latch { start, .. } => V::from_value(start),
            Net::And(a, b) => now[a].and(now[b]),
            Net::Xor(a, b) => now[a].xor(now[b]),
            Net::Inverse(a) => now[a].inverse(),
        };
        now.push(match held {
            Some((net, bit)) if net == index => V::from_bit(bit),
            _ => carried,
        });
    }
    now
}
