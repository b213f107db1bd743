// The plan: kinds of cases in a fixed round, each case made from the seed and its place in the plan.

use crate::compare::Runner;
use crate::damage::{one_byte, one_line, spoiled_name};
use crate::damage_circuit::{at_byte_limit, at_line_limit, one_field};
use crate::damage_trace::{first_line, later_line};
use crate::fixed;
use crate::judge::{judge, Case, Hold, Outcome};
use crate::lines::{text, Fields};
use crate::make::{self, Style};
use crate::seed::Seed;
use std::io;

const ROUND: [(&str, usize); 16] = [
    ("small", 10),
    ("small, held", 10),
    ("wide", 3),
    ("held net missing", 3),
    ("held name odd", 1),
    ("circuit bytes", 6),
    ("circuit lines", 5),
    ("circuit fields", 8),
    ("circuit limits", 4),
    ("trace bytes", 6),
    ("trace lines", 5),
    ("trace first line", 4),
    ("trace later lines", 5),
    ("both damaged", 4),
    ("every byte", 9),
    ("fillings", 3),
];

pub fn run(runner: &mut Runner, seed: u64) -> io::Result<()> {
    for case in fixed::all() {
        if runner.full() {
            return Ok(());
        }
        runner.check(&case, None)?;
    }
    let round: Vec<&'static str> = ROUND
        .iter()
        .flat_map(|(kind, times)| vec![*kind; *times])
        .collect();
    let mut turn = 0;
    for slot in 0u64.. {
        if runner.full() {
            break;
        }
        let kind = round[slot as usize * 31 % round.len()];
        let mut seed = Seed::new(seed, slot);
        match kind {
            "every byte" => {
                runner.check(&fixed::every_byte(turn), None)?;
                turn += 1;
            }
            "fillings" => fillings(runner, &mut seed)?,
            _ => drop(runner.check(&one(kind, &mut seed), None)?),
        }
    }
    Ok(())
}

fn one(kind: &'static str, seed: &mut Seed) -> Case {
    match kind {
        "small" | "small, held" | "wide" | "held net missing" | "held name odd" => good(seed, kind),
        "circuit limits" => limits(seed, kind),
        _ => damaged(seed, kind),
    }
}

fn small(seed: &mut Seed, least: usize) -> Vec<Fields> {
    let count = seed.within(least, 12);
    make::circuit(seed, count)
}

fn wide(seed: &mut Seed) -> Vec<Fields> {
    if seed.chance(15) {
        return make::largest_circuit(seed);
    }
    let count = seed.within(236, 256);
    let style = [Style::Long, Style::Long, Style::Alike, Style::Mixed][seed.below(4)];
    make::styled_circuit(seed, count, style)
}

fn some_trace(seed: &mut Seed, circuit: &[Fields]) -> Vec<Fields> {
    let target = if circuit.is_empty() {
        b"a".to_vec()
    } else {
        make::target(seed, circuit)
    };
    let (length, density) = (make::length(seed), make::density(seed));
    make::trace(seed, circuit, &target, length, density)
}

fn some_bit(seed: &mut Seed, name: Vec<u8>) -> Hold {
    let bit = seed.chance(50);
    Hold { name, bit }
}

fn known_hold(seed: &mut Seed, circuit: &[Fields], trace: &[Fields]) -> Hold {
    let wanted: &[u8] = seed.pick(&[b"I", b"L", b"A", b"X", b"N"]);
    let fits: Vec<&Fields> = circuit.iter().filter(|net| net[0] == wanted).collect();
    let name = match fits.len() {
        0 => trace[0][2].clone(),
        _ if seed.chance(20) => trace[0][2].clone(),
        count => fits[seed.below(count)][1].clone(),
    };
    some_bit(seed, name)
}

fn said(circuit: &[Fields], trace: &[Fields], hold: Option<Hold>) -> String {
    judge(&Case::new("", text(circuit), text(trace), hold)).output()
}

fn telling_hold(seed: &mut Seed, circuit: &[Fields], trace: &[Fields]) -> Hold {
    let without = said(circuit, trace, None);
    let tries = if seed.chance(60) { 8 } else { 0 };
    for _ in 0..tries {
        let hold = known_hold(seed, circuit, trace);
        if said(circuit, trace, Some(hold.clone())) != without {
            return hold;
        }
    }
    known_hold(seed, circuit, trace)
}

fn missing_hold(seed: &mut Seed, circuit: &[Fields]) -> Hold {
    let mut name = make::name(seed, Style::Mixed);
    if !circuit.is_empty() && seed.chance(60) {
        name = circuit[seed.below(circuit.len())][1].clone();
        match seed.below(3) {
            0 if name.len() > 1 => drop(name.pop()),
            1 if name.len() < 16 => name.push(b'0'),
            _ => name[0] = b'q',
        }
    }
    some_bit(seed, name)
}

fn odd_hold(seed: &mut Seed, circuit: &[Fields]) -> Hold {
    let odd: [&[u8]; 8] = [
        b"",
        b"-",
        b" ",
        b"\x7f",
        b"UP",
        b"a\tb",
        b"a\n",
        b"\xc3\xa9",
    ];
    let mut name = seed.pick(&odd).to_vec();
    if !circuit.is_empty() && seed.chance(40) {
        let at = seed.below(circuit.len());
        name = spoiled_name(seed, &circuit[at][1]);
        name.retain(|byte| *byte != 0);
    }
    some_bit(seed, name)
}

fn some_hold(seed: &mut Seed, circuit: &[Fields], trace: &[Fields]) -> Option<Hold> {
    match seed.below(10) {
        0..=1 => Some(known_hold(seed, circuit, trace)),
        2 => Some(missing_hold(seed, circuit)),
        _ => None,
    }
}

fn good(seed: &mut Seed, kind: &'static str) -> Case {
    let circuit = if kind == "wide" {
        wide(seed)
    } else {
        small(seed, 0)
    };
    let trace = some_trace(seed, &circuit);
    let hold = match kind {
        "small, held" => Some(telling_hold(seed, &circuit, &trace)),
        "held net missing" => Some(missing_hold(seed, &circuit)),
        "held name odd" => Some(odd_hold(seed, &circuit)),
        "wide" if seed.chance(40) => Some(known_hold(seed, &circuit, &trace)),
        _ => None,
    };
    Case::new(kind, text(&circuit), text(&trace), hold)
}

fn limits(seed: &mut Seed, kind: &'static str) -> Case {
    let missing = missing_hold(seed, &[]);
    let hold = seed.chance(10).then_some(missing);
    if seed.chance(50) {
        return Case::new(kind, at_byte_limit(seed), Vec::new(), hold);
    }
    let (lines, circuit) = at_line_limit(seed);
    let whole = |net: &Fields| net.len() > 1 && (net[0] != b"L" || net.len() == 4);
    let mut trace = Vec::new();
    if lines.iter().all(whole) {
        trace = some_trace(seed, &lines);
    }
    Case::new(kind, circuit, text(&trace), hold)
}

fn damaged(seed: &mut Seed, kind: &'static str) -> Case {
    let circuit = if seed.chance(8) {
        wide(seed)
    } else {
        small(seed, 1)
    };
    let trace = some_trace(seed, &circuit);
    let hold = some_hold(seed, &circuit, &trace);
    let (mut circuit_text, mut trace_text) = (text(&circuit), text(&trace));
    let both = kind == "both damaged";
    for _ in 0..[1, 1, 1, 2, 3][seed.below(5)] {
        if both || kind.starts_with("circuit") {
            circuit_text = damage_circuit(seed, kind, circuit_text);
        }
        if both || kind.starts_with("trace") {
            trace_text = damage_trace(seed, kind, trace_text, &circuit);
        }
    }
    Case::new(kind, circuit_text, trace_text, hold)
}

fn as_fields(text: &[u8]) -> Vec<Fields> {
    let whole = text.strip_suffix(b"\n").unwrap_or(text);
    let split = |line: &[u8]| {
        line.split(|byte| *byte == b'\t')
            .map(<[u8]>::to_vec)
            .collect()
    };
    whole.split(|byte| *byte == b'\n').map(split).collect()
}

fn damage_circuit(seed: &mut Seed, kind: &str, mut circuit: Vec<u8>) -> Vec<u8> {
    let any = seed.pick(&["circuit bytes", "circuit lines", "circuit fields"]);
    match if kind == "both damaged" { any } else { kind } {
        "circuit bytes" => one_byte(seed, &mut circuit),
        "circuit lines" => one_line(seed, &mut circuit),
        _ => {
            let mut lines = as_fields(&circuit);
            one_field(seed, &mut lines);
            circuit = text(&lines);
        }
    }
    circuit
}

fn damage_trace(seed: &mut Seed, kind: &str, mut trace: Vec<u8>, circuit: &[Fields]) -> Vec<u8> {
    let any = seed.pick(&[
        "trace bytes",
        "trace lines",
        "trace first line",
        "trace later lines",
    ]);
    let mut lines = as_fields(&trace);
    match if kind == "both damaged" { any } else { kind } {
        "trace bytes" => {
            one_byte(seed, &mut trace);
            return trace;
        }
        "trace lines" => {
            one_line(seed, &mut trace);
            return trace;
        }
        "trace first line" => first_line(seed, &mut lines, circuit),
        _ => later_line(seed, &mut lines, circuit),
    }
    text(&lines)
}

fn settled(seed: &mut Seed) -> Option<(Case, Vec<Fields>)> {
    let wanted = seed.pick(&["on", "off"]);
    for _ in 0..200 {
        let circuit = small(seed, 1);
        let trace = some_trace(seed, &circuit);
        let known = known_hold(seed, &circuit, &trace);
        let hold = seed.chance(25).then_some(known);
        let case = Case::new("fillings", text(&circuit), text(&trace), hold);
        if matches!(judge(&case), Outcome::Answer { dashes: 1.., word, .. } if word == wanted) {
            return Some((case, trace));
        }
    }
    None
}

fn fillings(runner: &mut Runner, seed: &mut Seed) -> io::Result<()> {
    let Some((mut case, trace)) = settled(seed) else {
        return Ok(());
    };
    let got = runner.check(&case, None)?;
    let Some(word) = got.word() else {
        return Ok(());
    };
    let ways: [&[&str]; 5] = [&["0"], &["1"], &["0", "1"], &["0", "1"], &["0", "1"]];
    for bits in ways {
        if runner.full() {
            break;
        }
        case.trace = text(&make::fill(seed, &trace, bits));
        runner.check(&case, Some(word))?;
    }
    Ok(())
}
