// The comparison: runs the player on each case and holds its output against what is owed.

use crate::judge::{judge, Case, Outcome};
use crate::twist::{Expectation, Twist};
use std::ffi::OsStr;
use std::fs;
use std::io;
use std::os::unix::ffi::OsStrExt;
use std::path::{Path, PathBuf};
use std::process::{Command, Stdio};

pub struct Got {
    pub out: Vec<u8>,
    pub sentence: Vec<u8>,
    pub status: Option<i32>,
}

impl Got {
    pub fn word(&self) -> Option<&'static str> {
        ["on", "off"]
            .iter()
            .copied()
            .find(|word| self.ends_with(word))
    }

    pub fn ends_with(&self, word: &str) -> bool {
        self.out.ends_with(format!(": {word}\n").as_bytes())
    }

    fn shown(&self) -> String {
        let (out, sentence) = (self.out.escape_ascii(), self.sentence.escape_ascii());
        let status = match self.status {
            Some(status) => format!("status {status}"),
            None => "ended by a signal".to_string(),
        };
        format!("{status}, output \"{out}\", standard error \"{sentence}\"")
    }
}

fn held(case: &Case) -> String {
    match &case.hold {
        None => "none".to_string(),
        Some(hold) => format!("\"{}\" {}", hold.name.escape_ascii(), u8::from(hold.bit)),
    }
}

struct Folder {
    path: PathBuf,
}

impl Folder {
    fn make() -> io::Result<Folder> {
        let mut tries = 0;
        loop {
            let name = format!("second-{}-{tries}", std::process::id());
            let path = std::env::temp_dir().join(name);
            match fs::create_dir(&path) {
                Ok(()) => return Ok(Folder { path }),
                Err(error) if error.kind() == io::ErrorKind::AlreadyExists && tries < 100 => {
                    tries += 1
                }
                Err(error) => return Err(error),
            }
        }
    }
}

impl Drop for Folder {
    fn drop(&mut self) {
        let _ = fs::remove_dir_all(&self.path);
    }
}

pub struct Tally {
    kind: &'static str,
    words: [usize; 4],
}

pub struct Runner {
    player: PathBuf,
    folder: Folder,
    twist: Option<Twist>,
    loud: bool,
    most: usize,
    pub cases: usize,
    pub disagreements: usize,
    pub twisted: usize,
    pub noticed: usize,
    tallies: Vec<Tally>,
    refusals: [usize; 29],
}

impl Runner {
    pub fn new(player: &Path, most: usize, twist: Option<Twist>, loud: bool) -> io::Result<Runner> {
        Ok(Runner {
            player: fs::canonicalize(player)?,
            folder: Folder::make()?,
            twist,
            loud,
            most,
            cases: 0,
            disagreements: 0,
            twisted: 0,
            noticed: 0,
            tallies: Vec::new(),
            refusals: [0; 29],
        })
    }

    pub fn full(&self) -> bool {
        self.cases >= self.most
    }

    pub fn check(&mut self, case: &Case, word: Option<&'static str>) -> io::Result<Got> {
        let outcome = judge(case);
        self.note(case.kind, &outcome);
        let sound = case
            .known
            .as_ref()
            .is_none_or(|known| *known == outcome.output());
        let mut expected = Expectation::new(outcome, word);
        let got = self.play(case)?;
        let plain = expected.agrees(&got);
        let twisted = self.twist.is_some_and(|twist| expected.falsify(twist));
        let agreed = expected.agrees(&got);
        self.twisted += usize::from(twisted && plain);
        self.noticed += usize::from(twisted && plain && !agreed);
        if !sound || !agreed {
            self.disagreements += 1;
            self.report(case, &expected, &got);
        }
        Ok(got)
    }

    fn play(&self, case: &Case) -> io::Result<Got> {
        let (circuit, trace) = (
            self.folder.path.join("circuit"),
            self.folder.path.join("trace"),
        );
        fs::write(&circuit, &case.circuit)?;
        fs::write(&trace, &case.trace)?;
        let mut command = Command::new(&self.player);
        command.arg(&circuit).arg(&trace).stdin(Stdio::null());
        if let Some(hold) = &case.hold {
            command
                .arg(OsStr::from_bytes(&hold.name))
                .arg(if hold.bit { "1" } else { "0" });
        }
        let output = command.output()?;
        Ok(Got {
            out: output.stdout,
            sentence: output.stderr,
            status: output.status.code(),
        })
    }

    fn note(&mut self, kind: &'static str, outcome: &Outcome) {
        self.cases += 1;
        let index = match outcome {
            Outcome::Answer { word, .. } => {
                ["on", "off", "unsure"].iter().position(|each| each == word)
            }
            Outcome::Refused(refusal) => {
                self.refusals[refusal.number] += 1;
                None
            }
        };
        if !self.tallies.iter().any(|tally| tally.kind == kind) {
            self.tallies.push(Tally {
                kind,
                words: [0; 4],
            });
        }
        for tally in self.tallies.iter_mut().filter(|tally| tally.kind == kind) {
            tally.words[index.unwrap_or(3)] += 1;
        }
    }

    fn report(&self, case: &Case, expected: &Expectation, got: &Got) {
        if !self.loud {
            return;
        }
        println!("disagreement, case {} ({})", self.cases, case.kind);
        println!("  circuit: \"{}\"", case.circuit.escape_ascii());
        println!("  trace: \"{}\"", case.trace.escape_ascii());
        println!("  hold: {}", held(case));
        if let Some(known) = &case.known {
            println!("  documents: \"{}\"", known.escape_default());
        }
        println!("  expected: {}", expected.shown());
        println!("  got: {}", got.shown());
    }

    pub fn summary(&self) {
        for tally in &self.tallies {
            let [on, off, unsure, refused] = tally.words;
            let all = on + off + unsure + refused;
            println!(
                "{}: {all} cases ({on} on, {off} off, {unsure} unsure, {refused} refused)",
                tally.kind
            );
        }
        let counts = self
            .refusals
            .iter()
            .enumerate()
            .filter(|(_, count)| **count > 0);
        let shown: Vec<String> = counts
            .map(|(number, count)| format!("{number}: {count}"))
            .collect();
        println!("refusals owed: {}", shown.join(", "));
    }
}
