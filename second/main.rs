// second: makes cases from a fixed seed, runs the player on them, and compares with its own reading.

mod cases;
mod circuit;
mod compare;
mod damage;
mod damage_circuit;
mod damage_trace;
mod fixed;
mod frames;
mod judge;
mod lines;
mod make;
mod seed;
mod trace;
mod twist;

use compare::Runner;
use std::ffi::OsString;
use std::io;
use std::path::Path;
use std::process::ExitCode;
use twist::{Twist, TWISTS};

const SEED: u64 = 1;
const COUNT: usize = 6_000;
const SELFTEST_COUNT: usize = 400;
const USAGE: &str = "second PLAYER [SEED] [COUNT]
second --selftest PLAYER [SEED] [COUNT]
second --falsify WHAT PLAYER [SEED] [COUNT]
WHAT: number, line, answer, dashes, nets, frames, status, end, sentence or filling";

fn main() -> ExitCode {
    let words: Vec<OsString> = std::env::args_os().skip(1).collect();
    let done = match words.first().and_then(|word| word.to_str()) {
        Some("--selftest") => selftest(&words[1..]),
        Some("--falsify") => falsified(&words[1..]),
        _ => compare(&words, None),
    };
    match done {
        Ok(true) => ExitCode::SUCCESS,
        Ok(false) => ExitCode::from(1),
        Err(error) => {
            eprintln!("second: {error}");
            ExitCode::from(2)
        }
    }
}

fn misused() -> io::Error {
    io::Error::new(io::ErrorKind::InvalidInput, format!("call it as\n{USAGE}"))
}

fn number(words: &[OsString], index: usize, usual: u64) -> io::Result<u64> {
    match words.get(index) {
        None => Ok(usual),
        Some(word) => word
            .to_str()
            .and_then(|word| word.parse().ok())
            .ok_or_else(misused),
    }
}

fn choices(words: &[OsString], count: usize) -> io::Result<(&Path, u64, usize)> {
    let player = words.first().ok_or_else(misused)?;
    if words.len() > 3 {
        return Err(misused());
    }
    Ok((
        Path::new(player),
        number(words, 1, SEED)?,
        number(words, 2, count as u64)? as usize,
    ))
}

fn compare(words: &[OsString], twist: Option<Twist>) -> io::Result<bool> {
    let (player, seed, count) = choices(words, COUNT)?;
    let mut runner = Runner::new(player, count, twist, true)?;
    cases::run(&mut runner, seed)?;
    runner.summary();
    println!(
        "second: {} cases, {} disagreements",
        runner.cases, runner.disagreements
    );
    Ok(runner.disagreements == 0)
}

fn falsified(words: &[OsString]) -> io::Result<bool> {
    let what = words.first().and_then(|word| word.to_str());
    let twist = TWISTS
        .iter()
        .find(|(name, _)| Some(*name) == what)
        .ok_or_else(misused)?;
    compare(&words[1..], Some(twist.1))
}

fn selftest(words: &[OsString]) -> io::Result<bool> {
    let (player, seed, count) = choices(words, SELFTEST_COUNT)?;
    let mut all = true;
    for (name, twist) in TWISTS {
        let mut runner = Runner::new(player, count, Some(twist), false)?;
        cases::run(&mut runner, seed)?;
        let (twisted, noticed) = (runner.twisted, runner.noticed);
        let good = twisted > 0 && noticed == twisted;
        let verdict = if good { "noticed" } else { "NOT NOTICED" };
        println!("{name}: {twisted} cases falsified, {noticed} of them reported: {verdict}");
        all &= good;
    }
    Ok(all)
}
