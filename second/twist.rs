// What is owed in one case, and the ways to falsify it that show whether the comparison notices.

use crate::compare::Got;
use crate::judge::Outcome;

#[derive(Clone, Copy)]
pub enum Twist {
    Number,
    Line,
    Answer,
    Dashes,
    Nets,
    Frames,
    Status,
    End,
    Sentence,
    Filling,
}

pub const TWISTS: [(&str, Twist); 10] = [
    ("number", Twist::Number),
    ("line", Twist::Line),
    ("answer", Twist::Answer),
    ("dashes", Twist::Dashes),
    ("nets", Twist::Nets),
    ("frames", Twist::Frames),
    ("status", Twist::Status),
    ("end", Twist::End),
    ("sentence", Twist::Sentence),
    ("filling", Twist::Filling),
];

pub struct Expectation {
    out: String,
    status: i32,
    sentence: Option<bool>,
    word: Option<&'static str>,
    outcome: Outcome,
}

fn other(word: &str) -> &'static str {
    match word {
        "on" => "off",
        "off" => "unsure",
        _ => "on",
    }
}

impl Expectation {
    pub fn new(outcome: Outcome, word: Option<&'static str>) -> Expectation {
        let sentence = matches!(outcome, Outcome::Refused(_)).then_some(true);
        Expectation {
            out: outcome.output(),
            status: outcome.status(),
            sentence,
            word,
            outcome,
        }
    }

    pub fn agrees(&self, got: &Got) -> bool {
        got.out == self.out.as_bytes()
            && got.status == Some(self.status)
            && self
                .sentence
                .is_none_or(|wanted| wanted != got.sentence.is_empty())
            && self.word.is_none_or(|word| got.ends_with(word))
    }

    pub fn falsify(&mut self, twist: Twist) -> bool {
        let done = match twist {
            Twist::Status => falsify_status(&mut self.status),
            Twist::Sentence => falsify_sentence(&mut self.sentence),
            Twist::Filling => falsify_word(&mut self.word),
            Twist::End => return self.out.pop().is_some(),
            _ => falsify_outcome(&mut self.outcome, twist),
        };
        self.out = self.outcome.output();
        done
    }

    pub fn shown(&self) -> String {
        let mut shown = format!(
            "status {}, output \"{}\"",
            self.status,
            self.out.escape_default()
        );
        match self.sentence {
            Some(true) => shown += ", something on standard error",
            Some(false) => shown += ", nothing on standard error",
            None => {}
        }
        if let Some(word) = self.word {
            shown += &format!(", answer {word} as before the dashes were filled");
        }
        shown
    }
}

fn falsify_status(status: &mut i32) -> bool {
    *status = 1 - *status;
    true
}

fn falsify_sentence(sentence: &mut Option<bool>) -> bool {
    let there = sentence.is_some();
    *sentence = sentence.map(|wanted| !wanted);
    there
}

fn falsify_word(word: &mut Option<&'static str>) -> bool {
    let there = word.is_some();
    *word = word.map(other);
    there
}

fn falsify_outcome(outcome: &mut Outcome, twist: Twist) -> bool {
    match (outcome, twist) {
        (Outcome::Refused(refusal), Twist::Number) => refusal.number += 1,
        (Outcome::Refused(refusal), Twist::Line) => refusal.line += 1,
        (Outcome::Answer { word, .. }, Twist::Answer) => *word = other(word),
        (Outcome::Answer { dashes, .. }, Twist::Dashes) => *dashes += 1,
        (Outcome::Answer { nets, .. }, Twist::Nets) => *nets += 1,
        (Outcome::Answer { frames, .. }, Twist::Frames) => *frames += 1,
        _ => return false,
    }
    true
}
