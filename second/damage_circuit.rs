// Damage to the fields of a circuit, and circuits at the limits of lines and bytes.

use crate::circuit::{MOST_BYTES, MOST_LINES};
use crate::damage::{field_count, spoiled_name};
use crate::lines::{text, Fields};
use crate::make::{styled_circuit, Style};
use crate::seed::Seed;

pub fn one_field(seed: &mut Seed, lines: &mut [Fields]) {
    if lines.is_empty() {
        return;
    }
    let at = seed.below(lines.len());
    match seed.below(7) {
        0 => letter(seed, &mut lines[at]),
        1 => field_count(seed, &mut lines[at]),
        2 => own_name(seed, lines, at),
        3 => doubled_name(seed, lines),
        4 => operand(seed, lines),
        5 => start(seed, lines),
        _ => next(seed, lines),
    }
}

fn letter(seed: &mut Seed, fields: &mut Fields) {
    let letters: [&[u8]; 19] = [
        b"I", b"L", b"A", b"X", b"N", b"i", b"l", b"a", b"x", b"n", b"O", b"M", b"", b"II", b"AX",
        b" I", b"\0", b"\xc9", b"R",
    ];
    fields[0] = seed.pick(&letters).to_vec();
}

fn field(lines: &[Fields], at: usize, index: usize) -> Vec<u8> {
    lines[at].get(index).cloned().unwrap_or_default()
}

fn own_name(seed: &mut Seed, lines: &mut [Fields], at: usize) {
    let fresh = spoiled_name(seed, &field(lines, at, 1));
    if let Some(name) = lines[at].get_mut(1) {
        *name = fresh;
    }
}

fn doubled_name(seed: &mut Seed, lines: &mut [Fields]) {
    let at = seed.below(lines.len());
    let other = seed.within(at, lines.len() - 1);
    let fresh = field(lines, at, 1);
    if let Some(name) = lines[other].get_mut(1) {
        *name = fresh;
    }
}

fn some_line(seed: &mut Seed, lines: &[Fields], letters: &[&[u8]]) -> Option<usize> {
    let fits = |at: &usize| letters.contains(&&lines[*at][0][..]) && lines[*at].len() > 2;
    let places: Vec<usize> = (0..lines.len()).filter(fits).collect();
    if places.is_empty() {
        return None;
    }
    Some(places[seed.below(places.len())])
}

fn operand(seed: &mut Seed, lines: &mut [Fields]) {
    let Some(at) = some_line(seed, lines, &[b"A", b"X", b"N"]) else {
        return doubled_name(seed, lines);
    };
    let index = seed.within(2, lines[at].len() - 1);
    let below = seed.within(at, lines.len() - 1);
    lines[at][index] = match seed.below(4) {
        0 => field(lines, at, 1),
        1 => field(lines, below, 1),
        2 => b"nowhere".to_vec(),
        _ => spoiled_name(seed, &lines[at][index]),
    };
}

fn start(seed: &mut Seed, lines: &mut [Fields]) {
    let Some(at) = some_line(seed, lines, &[b"L"]) else {
        return doubled_name(seed, lines);
    };
    let starts: [&[u8]; 15] = [
        b"", b"2", b"00", b"01", b"10", b"--", b"-1", b"U", b"u", b"0\r", b"-\r", b" 0", b"\0",
        b"\xb9", b"x",
    ];
    if let Some(value) = lines[at].get_mut(3) {
        *value = seed.pick(&starts).to_vec();
    }
}

fn next(seed: &mut Seed, lines: &mut [Fields]) {
    for _ in 0..seed.within(1, 2) {
        let Some(at) = some_line(seed, lines, &[b"L"]) else {
            return doubled_name(seed, lines);
        };
        let unknown = seed.chance(70);
        lines[at][2] = if unknown {
            b"nowhere".to_vec()
        } else {
            spoiled_name(seed, &lines[at][2])
        };
    }
}

pub fn at_line_limit(seed: &mut Seed) -> (Vec<Fields>, Vec<u8>) {
    let counts = [255, MOST_LINES, MOST_LINES, 257, 257, 258, 300, 512, 513];
    let count = counts[seed.below(counts.len())];
    let mut lines = styled_circuit(seed, count, Style::Short);
    if seed.chance(40) {
        one_field(seed, &mut lines);
    }
    let mut bytes = text(&lines);
    if seed.chance(30) {
        bytes.pop();
    }
    if seed.chance(10) {
        bytes.push(b'\n');
    }
    (lines, bytes)
}

pub fn at_byte_limit(seed: &mut Seed) -> Vec<u8> {
    let count = seed.within(1, MOST_LINES + 40);
    let mut lines = styled_circuit(seed, count, Style::Mixed);
    let sizes = [
        MOST_BYTES - 1,
        MOST_BYTES,
        MOST_BYTES,
        MOST_BYTES + 1,
        MOST_BYTES + 1,
        MOST_BYTES + 2,
        81_920,
    ];
    let size = sizes[seed.below(sizes.len())];
    let missing = size.saturating_sub(text(&lines).len());
    let at = seed.below(lines.len());
    let index = seed.below(lines[at].len());
    let filler = *b"a0-\t\n\0"[..].get(seed.below(9)).unwrap_or(&b'a');
    lines[at][index].extend(vec![filler; missing]);
    let mut bytes = text(&lines);
    if seed.chance(15) {
        bytes.pop();
        bytes.push(b'x');
    }
    bytes
}
