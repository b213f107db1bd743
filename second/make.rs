// Maker of well-formed circuits and traces, as lines of fields.

use crate::lines::Fields;
use crate::seed::Seed;

const LETTERS: &[u8] = b"abcdefghijklmnopqrstuvwxyz0123456789_";
const WORDS: [&str; 18] = [
    "0", "1", "63", "00", "run", "i", "s", "l", "a", "x", "n", "on", "off", "unsure", "no", "_",
    "__", "1_",
];

#[derive(Clone, Copy)]
pub enum Style {
    Mixed,
    Long,
    Short,
    Alike,
    Words,
}

fn letters(seed: &mut Seed, count: usize) -> Vec<u8> {
    (0..count)
        .map(|_| LETTERS[seed.below(LETTERS.len())])
        .collect()
}

pub fn name(seed: &mut Seed, style: Style) -> Vec<u8> {
    let short = seed.within(1, 2);
    let any = seed.within(1, 16);
    match style {
        Style::Mixed => letters(seed, any),
        Style::Long => letters(seed, 16),
        Style::Short => letters(seed, short),
        Style::Alike => [vec![b'a'; any - 1], letters(seed, 1)].concat(),
        Style::Words => seed.pick(&WORDS).as_bytes().to_vec(),
    }
}

fn names(seed: &mut Seed, count: usize, style: Style) -> Vec<Vec<u8>> {
    let mut names: Vec<Vec<u8>> = Vec::new();
    while names.len() < count {
        let mut fresh = name(seed, style);
        while names.contains(&fresh) {
            let another = if seed.chance(50) { style } else { Style::Mixed };
            fresh = name(seed, another);
        }
        names.push(fresh);
    }
    names
}

fn any_style(seed: &mut Seed) -> Style {
    [
        Style::Mixed,
        Style::Long,
        Style::Short,
        Style::Alike,
        Style::Words,
    ][seed.below(5)]
}

pub fn circuit(seed: &mut Seed, count: usize) -> Vec<Fields> {
    let style = any_style(seed);
    styled_circuit(seed, count, style)
}

pub fn styled_circuit(seed: &mut Seed, count: usize, style: Style) -> Vec<Fields> {
    let names = names(seed, count, style);
    (0..count).map(|index| line(seed, &names, index)).collect()
}

fn line(seed: &mut Seed, names: &[Vec<u8>], index: usize) -> Fields {
    let letter = if index == 0 {
        seed.pick(&["I", "I", "L"])
    } else {
        letter(seed)
    };
    let mut fields = vec![letter.as_bytes().to_vec(), names[index].clone()];
    match letter {
        "I" => {}
        "L" => {
            fields.push(names[seed.below(names.len())].clone());
            fields.push(seed.pick(&["0", "1", "-"]).as_bytes().to_vec());
        }
        "N" => fields.push(above(seed, names, index)),
        _ => fields.extend([above(seed, names, index), above(seed, names, index)]),
    }
    fields
}

fn letter(seed: &mut Seed) -> &'static str {
    seed.pick(&["I", "I", "L", "L", "L", "A", "A", "X", "X", "N"])
}

fn above(seed: &mut Seed, names: &[Vec<u8>], index: usize) -> Vec<u8> {
    let near = index.saturating_sub(4);
    let from = if seed.chance(60) { near } else { 0 };
    names[seed.within(from, index - 1)].clone()
}

pub fn largest_circuit(seed: &mut Seed) -> Vec<Fields> {
    let names = names(seed, 256, Style::Long);
    let mut lines = vec![vec![
        b"L".to_vec(),
        names[0].clone(),
        names[255].clone(),
        b"-".to_vec(),
    ]];
    for index in 1..256 {
        let letter = seed.pick(&["A", "X", "X"]).into();
        lines.push(vec![
            letter,
            names[index].clone(),
            above(seed, &names, index),
            names[index - 1].clone(),
        ]);
    }
    lines
}

pub fn length(seed: &mut Seed) -> usize {
    match seed.below(10) {
        0..=4 => seed.below(5),
        5..=7 => seed.below(16),
        8 => seed.below(64),
        _ => 63,
    }
}

pub fn target(seed: &mut Seed, circuit: &[Fields]) -> Vec<u8> {
    let from = if seed.chance(60) {
        circuit.len() / 2
    } else {
        0
    };
    circuit[seed.within(from, circuit.len() - 1)][1].clone()
}

pub fn density(seed: &mut Seed) -> usize {
    [0, 4, 15, 60, 100][seed.below(5)]
}

pub fn trace(
    seed: &mut Seed,
    circuit: &[Fields],
    target: &[u8],
    length: usize,
    density: usize,
) -> Vec<Fields> {
    let count = length.to_string().into_bytes();
    let mut lines = vec![vec![b"run".to_vec(), count, target.to_vec()]];
    for net in circuit
        .iter()
        .filter(|net| net[0] == b"L" && net[3] == b"-")
    {
        lines.push(vec![b"s".to_vec(), net[1].clone(), value(seed, density)]);
    }
    for frame in 0..=length {
        let frame = frame.to_string().into_bytes();
        for net in circuit.iter().filter(|net| net[0] == b"I") {
            lines.push(vec![
                b"i".to_vec(),
                frame.clone(),
                net[1].clone(),
                value(seed, density),
            ]);
        }
    }
    lines
}

fn value(seed: &mut Seed, density: usize) -> Vec<u8> {
    if seed.chance(density) {
        return b"-".to_vec();
    }
    seed.pick(&["0", "1"]).as_bytes().to_vec()
}

pub fn fill(seed: &mut Seed, trace: &[Fields], bits: &[&str]) -> Vec<Fields> {
    let mut filled = trace.to_vec();
    for fields in filled.iter_mut().skip(1) {
        let value = fields.last_mut().expect("a value");
        if *value == b"-" {
            *value = seed.pick(bits).as_bytes().to_vec();
        }
    }
    filled
}
