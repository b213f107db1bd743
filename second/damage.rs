// Damage that fits circuit and trace texts alike: single bytes, whole lines, names and fields.

use crate::lines::Fields;
use crate::seed::Seed;

const ODD_BYTES: [u8; 24] = [
    0, 9, 9, 10, 10, 13, 32, b'-', b'0', b'1', b'2', b'/', b':', b'A', b'Z', b'_', b'`', b'a',
    b'z', b'{', 127, 128, 0xc3, 255,
];

fn odd_byte(seed: &mut Seed) -> u8 {
    if seed.chance(30) {
        return seed.below(256) as u8;
    }
    ODD_BYTES[seed.below(ODD_BYTES.len())]
}

pub fn one_byte(seed: &mut Seed, text: &mut Vec<u8>) {
    let byte = odd_byte(seed);
    if text.is_empty() {
        return text.push(byte);
    }
    let at = seed.below(text.len());
    let after = (at + 1).min(text.len() - 1);
    match seed.below(8) {
        0..=2 => text[at] = byte,
        3 => drop(text.remove(at)),
        4 => text.insert(seed.within(0, text.len()), byte),
        5 => text.insert(at, text[at]),
        6 => text.swap(at, after),
        _ => text.truncate(at),
    }
}

pub fn one_line(seed: &mut Seed, text: &mut Vec<u8>) {
    let mut lines: Vec<Vec<u8>> = text
        .split_inclusive(|byte| *byte == b'\n')
        .map(<[u8]>::to_vec)
        .collect();
    if lines.is_empty() {
        lines.push(Vec::new());
    }
    match seed.below(3) {
        0 => shift(seed, &mut lines),
        1 => intrude(seed, &mut lines),
        _ => spoil_end(seed, &mut lines),
    }
    *text = lines.concat();
}

fn shift(seed: &mut Seed, lines: &mut Vec<Vec<u8>>) {
    let (at, other) = (seed.below(lines.len()), seed.below(lines.len()));
    let after = (at + 1).min(lines.len() - 1);
    match seed.below(5) {
        0 => lines.swap(at, other),
        1 => lines.swap(at, after),
        2 => lines.insert(other, lines[at].clone()),
        3 => drop(lines.remove(at)),
        _ => {
            let moved = lines.remove(at);
            lines.insert(other, moved);
        }
    }
}

fn intrude(seed: &mut Seed, lines: &mut Vec<Vec<u8>>) {
    let intruders: [&[u8]; 8] = [
        b"\n",
        b" \n",
        b"\t\n",
        b"\r\n",
        b"# remark\n",
        b"x",
        b"\0\n",
        b"\xef\xbb\xbf",
    ];
    let at = [0, lines.len(), seed.within(0, lines.len())][seed.below(3)];
    lines.insert(at, seed.pick(&intruders).to_vec());
}

fn spoil_end(seed: &mut Seed, lines: &mut [Vec<u8>]) {
    let at = if seed.chance(40) {
        lines.len() - 1
    } else {
        seed.below(lines.len())
    };
    let line = &mut lines[at];
    line.pop();
    let ends: [&[u8]; 9] = [
        b"", b"\r\n", b"\r", b"\t\n", b" \n", b"\t", b"\0\n", b"\n\n", b"\x0b\n",
    ];
    line.extend(seed.pick(&ends));
}

pub fn spoiled_name(seed: &mut Seed, name: &[u8]) -> Vec<u8> {
    let mut spoiled = name.to_vec();
    match seed.below(9) {
        0 => spoiled.clear(),
        1 => spoiled.resize(16, b'q'),
        2 => spoiled.resize(17, b'q'),
        3 => spoiled.resize(seed.within(18, 300), b'q'),
        4 => spoiled.make_ascii_uppercase(),
        5 => drop(spoiled.pop()),
        6 => spoiled.push(b'z'),
        7 => spoiled.insert(0, odd_byte(seed)),
        _ => one_byte(seed, &mut spoiled),
    }
    spoiled
}

pub fn field_count(seed: &mut Seed, fields: &mut Fields) {
    let at = seed.below(fields.len());
    match seed.below(7) {
        0 => drop(fields.remove(at)),
        1 => fields.insert(at, fields[at].clone()),
        2 => fields.insert(seed.within(0, fields.len()), Vec::new()),
        3 => fields.push(Vec::new()),
        4 => fields.swap(at, 0),
        5 => *fields = vec![fields.join(&b' ')],
        _ => fields.truncate(at),
    }
}
