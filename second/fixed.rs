// Cases taken from the documents, each with the line that they say the player prints.

use crate::judge::{Case, Hold};

const KIND: &str = "documents";
const SIX: &str =
    "I\tup\nI\tdown\nL\tlower\tnl\t0\nN\tnd\tdown\nA\tnl\tup\tnd\nA\tboth\tlower\tdown\n";
const BOTH: &str = "run\t1\tboth\ni\t0\tup\t1\ni\t0\tdown\t0\ni\t1\tup\t-\ni\t1\tdown\t1\n";
const PAIR: &str = "I\ta\nI\tb\n";

fn case(circuit: &str, trace: &str, known: &str) -> Case {
    Case {
        kind: KIND,
        circuit: circuit.into(),
        trace: trace.into(),
        hold: None,
        known: Some(format!("{known}\n")),
    }
}

fn held(circuit: &str, trace: &str, name: &str, bit: bool, known: &str) -> Case {
    Case {
        hold: Some(Hold {
            name: name.into(),
            bit,
        }),
        ..case(circuit, trace, known)
    }
}

pub fn all() -> Vec<Case> {
    let mut cases = example();
    cases.extend(example_runs());
    cases.extend(damaged_traces());
    cases.extend(damaged_circuits());
    cases.extend(orders());
    cases.extend(tables());
    cases.extend(holds());
    cases.extend(latches());
    cases.extend(limits());
    cases
}

fn example() -> Vec<Case> {
    vec![
        case(SIX, BOTH, "nets 6, frames 2, dashes 1: on"),
        held(SIX, BOTH, "lower", false, "nets 6, frames 2, dashes 1: off"),
        held(SIX, BOTH, "sluice", true, "no\t11\t0"),
        case(
            SIX,
            &BOTH.replace("0\tup\t1", "0\tup\t-"),
            "nets 6, frames 2, dashes 2: unsure",
        ),
        case(
            SIX,
            "run\t0\tboth\ni\t0\tup\t-\ni\t0\tdown\t-\n",
            "nets 6, frames 1, dashes 2: off",
        ),
        case("", "run\t0\ta\n", "no\t27\t1"),
        held("", "", "a", false, "no\t11\t0"),
    ]
}

fn example_runs() -> Vec<Case> {
    let rows = [
        ("up", '1', '0'),
        ("down", '0', '1'),
        ("lower", '0', '1'),
        ("nd", '1', '0'),
        ("nl", '1', '0'),
        ("both", '0', '1'),
    ];
    let zero = "i\t0\tup\t1\ni\t0\tdown\t0\n";
    let one = "i\t1\tup\t0\ni\t1\tdown\t1\n";
    let mut cases = Vec::new();
    for (name, first, second) in rows {
        let short = format!("run\t0\t{name}\n{zero}");
        let long = format!("run\t1\t{name}\n{zero}{one}");
        cases.push(case(SIX, &short, &known(6, 1, 0, word(first))));
        cases.push(case(SIX, &long, &known(6, 2, 0, word(second))));
    }
    cases
}

fn damaged_traces() -> Vec<Case> {
    let swapped = "run\t1\tboth\ni\t0\tdown\t0\ni\t0\tup\t1\ni\t1\tup\t-\ni\t1\tdown\t1\n";
    let without = BOTH.replace("i\t1\tdown\t1\n", "");
    vec![
        case(SIX, "", "no\t27\t1"),
        case(SIX, &BOTH.replace("run\t1", "run\t01"), "no\t27\t1"),
        case(SIX, &BOTH.replace("run\t1", "run\t64"), "no\t27\t1"),
        case(SIX, &BOTH.replace("both", "sluice"), "no\t27\t1"),
        case(SIX, "run\t1\tboth", "no\t27\t1"),
        case(SIX, swapped, "no\t28\t2"),
        case(SIX, &BOTH.replace("up\t-", "up\tx"), "no\t28\t4"),
        case(SIX, &without, "no\t28\t5"),
        case(SIX, BOTH.trim_end(), "no\t28\t5"),
        case(SIX, &format!("{BOTH}x"), "no\t28\t6"),
        case(SIX, &format!("{BOTH}\n"), "no\t28\t6"),
        case(SIX, &format!("{BOTH}i\t2\tup\t0\n"), "no\t28\t6"),
        case(SIX, &BOTH.replace("run\t1", "run\t2"), "no\t28\t6"),
    ]
}

fn damaged_circuits() -> Vec<Case> {
    let faults = [
        ("I\ta\n\n", 4, 2),
        ("I a\n", 4, 1),
        ("I\ta\nN\ta\tB\n", 5, 2),
        ("I\t\ta\n", 4, 1),
        ("I\ta\t\n", 4, 1),
        ("I\t\n", 5, 1),
        ("I\ta\nN\tb\t\n", 5, 2),
        ("L\ta\ta\t\n", 8, 1),
        ("I\ta\r\n", 5, 1),
        ("L\ta\ta\t0\r\n", 8, 1),
        ("N\ta\ta\n", 7, 1),
        ("I\ta\nA\tb\ta\tc\nI\tc\n", 7, 2),
        ("I\ta\nL\tb\ta\t2\nQ\tc\n", 8, 2),
        ("L\ta\tc\t0\nL\tb\td\t0\nI\tc\n", 9, 2),
        ("I\ta", 3, 1),
        ("I\tabcdefghijklmnopq\n", 5, 1),
        ("I\ta\nI\ta\n", 6, 2),
        ("i\ta\n", 4, 1),
        ("II\ta\n", 4, 1),
        ("L\ta\tx\t0\nL\tb\ty\t0\n", 9, 1),
        ("L\ta\tx\t0\nL\tb\tb\t2\n", 8, 2),
        ("L\ta\tx\t0\nI\tb", 3, 2),
        ("I\ta\nN\ta\tb\n", 6, 2),
        ("I\ta\nL\ta\tb\t2\n", 6, 2),
        ("I\ta\nL\ta\tB\t2\n", 5, 2),
        ("I\tA\tb\n", 4, 1),
        ("Q", 3, 1),
    ];
    let refused = |number: i32, line: i32| format!("no\t{number}\t{line}");
    faults
        .map(|(circuit, number, line)| case(circuit, "run\t0\ta\n", &refused(number, line)))
        .into()
}

fn orders() -> Vec<Case> {
    let own = "L\ta\ta\t0\nL\tb\tc\t1\nI\tc\n";
    let long = "I\tabcdefghijklmnop\n";
    let replay = "run\t0\tabcdefghijklmnop\ni\t0\tabcdefghijklmnop\t1\n";
    let two = "run\t1\tb\ni\t0\tc\t0\ni\t1\tc\t1\n";
    vec![
        case(own, "run\t0\tb\ni\t0\tc\t0\n", &known(3, 1, 0, "on")),
        case(own, two, &known(3, 2, 0, "off")),
        case(long, replay, &known(1, 1, 0, "on")),
        case("I\ta\nI\ta\nQ\n", "", "no\t6\t2"),
        held("I\ta\nQ\n", "", "b", true, "no\t4\t2"),
        held("I\ta\n", "", "b", true, "no\t11\t0"),
        held("I\ta\n", "", "a", true, "no\t27\t1"),
        held("I\ta\n", "run\t0\ta\n", "a", true, "no\t28\t2"),
    ]
}

fn word(value: char) -> &'static str {
    match value {
        '0' => "off",
        '1' => "on",
        _ => "unsure",
    }
}

fn known(nets: usize, frames: usize, dashes: usize, word: &str) -> String {
    format!("nets {nets}, frames {frames}, dashes {dashes}: {word}")
}

fn tables() -> Vec<Case> {
    let mut cases = table("A", ["000", "01U", "0UU"]);
    cases.extend(table("X", ["01U", "10U", "UUU"]));
    for (a, dashes, answer) in [("0", 0, "on"), ("1", 0, "off"), ("-", 1, "unsure")] {
        let trace = format!("run\t0\tt\ni\t0\ta\t{a}\n");
        cases.push(case(
            "I\ta\nN\tt\ta\n",
            &trace,
            &known(2, 1, dashes, answer),
        ));
    }
    let dashed = "run\t0\tt\ni\t0\ta\t-\n";
    cases.push(case(
        "I\ta\nX\tt\ta\ta\n",
        dashed,
        &known(2, 1, 1, "unsure"),
    ));
    cases
}

fn table(letter: &str, rows: [&str; 3]) -> Vec<Case> {
    let circuit = format!("{PAIR}{letter}\tt\ta\tb\n");
    let mut cases = Vec::new();
    for (a, answers) in ["0", "1", "-"].iter().zip(rows) {
        for (b, answer) in ["0", "1", "-"].iter().zip(answers.chars()) {
            let dashes = usize::from(*a == "-") + usize::from(*b == "-");
            let trace = format!("run\t0\tt\ni\t0\ta\t{a}\ni\t0\tb\t{b}\n");
            cases.push(case(&circuit, &trace, &known(3, 1, dashes, word(answer))));
        }
    }
    cases
}

fn holds() -> Vec<Case> {
    let (input, free) = ("I\ta\n", "L\ta\ta\t-\nN\tb\ta\n");
    let (dash, bit) = ("run\t0\ta\ni\t0\ta\t-\n", "run\t0\ta\ni\t0\ta\t1\n");
    let start = "run\t1\tb\ns\ta\t-\n";
    vec![
        held(input, dash, "a", true, &known(1, 1, 1, "on")),
        held(input, bit, "a", false, &known(1, 1, 0, "off")),
        held(free, start, "a", false, &known(2, 2, 1, "on")),
        held(free, start, "b", false, &known(2, 2, 1, "off")),
        case(free, start, &known(2, 2, 1, "unsure")),
        case(free, "run\t63\tb\ns\ta\t1\n", &known(2, 64, 0, "off")),
    ]
}

fn latches() -> Vec<Case> {
    let (one, pair) = ("L\ta\ta\t0\n", "L\ta\tb\t0\nL\tb\ta\t1\n");
    vec![
        held(one, "run\t0\ta\n", "a", true, &known(1, 1, 0, "on")),
        held(one, "run\t9\ta\n", "a", true, &known(1, 10, 0, "on")),
        held(pair, "run\t1\ta\n", "b", false, &known(2, 2, 0, "off")),
        held(pair, "run\t2\ta\n", "b", true, &known(2, 3, 0, "on")),
        case(pair, "run\t1\ta\n", &known(2, 2, 0, "on")),
        case(pair, "run\t1\tb\n", &known(2, 2, 0, "off")),
        case(pair, "run\t2\ta\n", &known(2, 3, 0, "off")),
    ]
}

fn inputs(count: usize) -> String {
    (0..count)
        .map(|index| format!("I\tn{index:015}\n"))
        .collect()
}

fn dashed(count: usize, length: usize) -> String {
    let line = |at: usize| format!("i\t{}\tn{:015}\t-\n", at / count, at % count);
    let lines: String = (0..count * (length + 1)).map(line).collect();
    format!("run\t{length}\tn{:015}\n{lines}", 0)
}

fn limits() -> Vec<Case> {
    let (most, over) = (inputs(256), inputs(257));
    let mut cases = vec![
        case(&most, &dashed(256, 0), &known(256, 1, 256, "unsure")),
        case(&most, &dashed(256, 63), &known(256, 64, 16_384, "unsure")),
        case(&over, &dashed(257, 0), "no\t2\t257"),
        case(&format!("{most}x"), "", "no\t2\t257"),
        case(most.trim_end(), "", "no\t3\t256"),
        case(&format!("{most}\n"), "", "no\t2\t257"),
        case(&format!("Q\n{over}"), "", "no\t4\t1"),
        case(&format!("L\tx\ty\t0\n{most}"), "", "no\t2\t257"),
    ];
    cases.extend(byte_limits());
    cases
}

fn byte_limits() -> Vec<Case> {
    let long = |size: usize| format!("I\ta\nI\t{}\n", "b".repeat(size - 7));
    let behind = format!("{BOTH}{}", "\n".repeat(1_000_000));
    vec![
        case(&long(16_384), "", "no\t5\t2"),
        case(&long(16_385), "", "no\t1\t0"),
        case(&"x".repeat(16_384), "", "no\t3\t1"),
        case(&"x".repeat(16_385), "", "no\t1\t0"),
        case(&"I\ta\n".repeat(250_000), "", "no\t1\t0"),
        case(SIX, &"x".repeat(1_000_000), "no\t27\t1"),
        case(SIX, &behind, "no\t28\t6"),
    ]
}

pub fn every_byte(turn: usize) -> Case {
    let byte = (turn % 256) as u8;
    let in_name = turn / 256 % 2 == 0;
    let plan = if in_name {
        name_byte(byte)
    } else {
        value_byte(byte)
    };
    Case {
        kind: "every byte",
        ..plan
    }
}

fn name_byte(byte: u8) -> Case {
    let known = match byte {
        b'\t' => "no\t4\t1",
        b'\n' => "no\t4\t2",
        b'a'..=b'z' | b'0'..=b'9' | b'_' => "nets 1, frames 1, dashes 0: on",
        _ => "no\t5\t1",
    };
    let name = [b'a', byte];
    let circuit = [b"I\t", &name[..], b"\n"].concat();
    let trace = [b"run\t0\t", &name[..], b"\ni\t0\t", &name[..], b"\t1\n"].concat();
    Case {
        circuit,
        trace,
        ..case("", "", known)
    }
}

fn value_byte(byte: u8) -> Case {
    let known = match byte {
        b'0' => "nets 2, frames 1, dashes 0: off",
        b'1' => "nets 2, frames 1, dashes 0: on",
        b'-' => "nets 2, frames 1, dashes 1: unsure",
        _ => "no\t28\t3",
    };
    let trace = [&b"run\t0\tb\ni\t0\ta\t0\ni\t0\tb\t"[..], &[byte], b"\n"].concat();
    Case {
        trace,
        ..case(PAIR, "", known)
    }
}
