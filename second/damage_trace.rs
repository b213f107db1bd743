// Damage to the fields of a trace: its first line, and the words, frames, names and values below it.

use crate::damage::{field_count, spoiled_name};
use crate::lines::Fields;
use crate::seed::Seed;

const POWERS: [u128; 5] = [64, 1 << 8, 1 << 16, 1 << 32, 1 << 64];

fn spoiled_number(seed: &mut Seed, number: &[u8]) -> Vec<u8> {
    let plain = String::from_utf8_lossy(number).into_owned();
    let value: u128 = plain.parse().unwrap_or(0);
    match seed.below(8) {
        0 => format!("0{plain}"),
        1 => seed
            .pick(&["", "00", "-", "-0", "-1", "x", "1e1", "0x1", "6_3"])
            .to_string(),
        2 => format!("{}", value + POWERS[seed.below(POWERS.len())]),
        3 => seed
            .pick(&["64", "65", "99", "100", "128", "256", "640"])
            .to_string(),
        4 => format!("{plain}{}", seed.pick(&[" ", "\r", "0", "\0", ".0"])),
        5 => format!("{}{plain}", seed.pick(&[" ", "+", "-", "\0"])),
        6 => format!("{}", value + 1),
        _ => format!("{}", value.saturating_sub(1)),
    }
    .into_bytes()
}

fn other_net(seed: &mut Seed, circuit: &[Fields], name: &[u8]) -> Vec<u8> {
    if circuit.is_empty() || seed.chance(50) {
        return if seed.chance(30) {
            b"nowhere".to_vec()
        } else {
            spoiled_name(seed, name)
        };
    }
    let at = seed.below(circuit.len());
    circuit[at].get(1).cloned().unwrap_or_default()
}

pub fn first_line(seed: &mut Seed, lines: &mut [Fields], circuit: &[Fields]) {
    let fields = &mut lines[0];
    if fields.len() != 3 || seed.chance(15) {
        return field_count(seed, fields);
    }
    match seed.below(7) {
        0 => {
            fields[0] = seed
                .pick(&[
                    "", "Run", "RUN", "ru", "runs", "run ", " run", "i", "s", "\0run",
                ])
                .into()
        }
        1..=4 => fields[1] = spoiled_number(seed, &fields[1]),
        _ => fields[2] = other_net(seed, circuit, &fields[2]),
    }
}

pub fn later_line(seed: &mut Seed, lines: &mut [Fields], circuit: &[Fields]) {
    if lines.len() < 2 {
        return first_line(seed, lines, circuit);
    }
    let at = seed.within(1, lines.len() - 1);
    let fields = &mut lines[at];
    if fields.len() < 3 || seed.chance(15) {
        return field_count(seed, fields);
    }
    let last = fields.len() - 1;
    match seed.below(6) {
        0 => {
            fields[0] = seed
                .pick(&["", "i", "s", "I", "S", "is", "run", "l", "i ", " s"])
                .into()
        }
        1 => fields[1] = spoiled_number(seed, &fields[1]),
        2 => fields[last - 1] = other_net(seed, circuit, &fields[last - 1]),
        _ => fields[last] = spoiled_value(seed, &fields[last]),
    }
}

fn spoiled_value(seed: &mut Seed, value: &[u8]) -> Vec<u8> {
    let values: [&[u8]; 14] = [
        b"", b"2", b"x", b"U", b"u", b"00", b"01", b"10", b"--", b"-1", b"\0", b"\xb1", b" ", b"*",
    ];
    if seed.chance(30) {
        let ends: [&[u8]; 4] = [b"\r", b" ", b"\0", b"\t"];
        return [value, seed.pick(&ends)].concat();
    }
    seed.pick(&values).to_vec()
}
