//! `refusals`: what each number means, where its place points, who gives it, what causes it and what to try. The sentences are
//! the binding's; docs/REFUSALS.md is written from what this command answers.

mod asked;
mod givers;
mod images;
mod texts;

use crate::failure::Failure;
use crate::print;
use anhkhovet::{Counted, Refusal};
use givers::{CALLS, COMMANDS};
use serde_json::{json, Value};

/// What is told of a number beside its sentence.
pub struct Rule {
    pub number: u64,
    /// What has to hold: the number is given exactly where it does not.
    rule: &'static str,
    /// Where the place points.
    place: &'static str,
    /// What usually causes it.
    cause: &'static str,
    /// What to try.
    advice: &'static str,
}

const NOWHERE: &str = "It is 0 and points nowhere.";

/// The sentence of the small program's own number, which no call of the library gives.
const TOO_MUCH_INPUT: (u64, &str) = (37, "the input is longer than 65,536 bytes");

/// No number has a sentence of its own for a higher place.
const PLACES: u64 = 5;

/// Lines of one refusal are as long at most.
const WIDTH: usize = 100;

/// Before a line of a rule stands a word of this width.
const WORD: usize = 10;

const MORE: &str = "`anhkhovet refusals N` says more of one of them\n";

/// All, in the order of their numbers.
fn all() -> Vec<&'static Rule> {
    let rules = [images::RULES, asked::RULES, texts::RULES];
    let mut rules: Vec<&Rule> = rules.into_iter().flatten().collect();
    rules.sort_by_key(|rule| rule.number);
    rules
}

/// The places for which a sentence is, from that of a refusal on.
fn places(refusal: Refusal) -> String {
    match refusal.counted() {
        Counted::Line => format!("{} and up", refusal.place),
        _ => refusal.place.to_string(),
    }
}

/// The rule of a number, as a word of the command line.
pub fn of_word(word: &str) -> Result<u64, String> {
    let numbers = all().into_iter().map(|rule| rule.number);
    let mut known = numbers.filter(|number| number.to_string() == word);
    let missing = "no refusal has that number; `anhkhovet refusals` lists those that there are";
    known.next().ok_or_else(|| missing.to_string())
}

impl Rule {
    /// The binding's sentences with the places that each is for; most numbers have one sentence.
    fn sentences(&self) -> Vec<(String, &'static str)> {
        let number = self.number;
        if number == TOO_MUCH_INPUT.0 {
            return vec![(String::new(), TOO_MUCH_INPUT.1)];
        }
        let refusals = (0..=PLACES).map(|place| Refusal { number, place });
        let told = refusals.map(|refusal| (places(refusal), refusal.sentence()));
        let mut sentences: Vec<(String, &str)> = told.collect();
        sentences.dedup_by_key(|(_, sentence)| *sentence);
        sentences
    }

    fn object(&self) -> Value {
        let sentences = self.sentences();
        let by_place = sentences[1..].iter();
        let by_place =
            by_place.map(|(place, sentence)| json!({ "place": place, "sentence": sentence }));
        json!({
            "number": self.number,
            "sentence": sentences[0].1,
            "by_place": by_place.collect::<Vec<_>>(),
            "rule": self.rule,
            "place": self.place,
            "calls": givers::of(self.number, &CALLS),
            "commands": givers::of(self.number, &COMMANDS),
            "cause": self.cause,
            "advice": self.advice,
        })
    }

    fn lines(&self) -> String {
        let sentences = self.sentences();
        let mut lines = format!("refused {}: {}\n", self.number, sentences[0].1);
        for (place, sentence) in &sentences[1..] {
            lines += &format!("  place {place}: {sentence}\n");
        }
        let calls = listed(&givers::of(self.number, &CALLS));
        let commands = listed(&givers::of(self.number, &COMMANDS));
        let givers = wrapped("calls", &calls) + &wrapped("commands", &commands);
        lines += &wrapped("rule", self.rule);
        lines += &wrapped("place", self.place);
        lines + &givers + &self.advised()
    }

    fn advised(&self) -> String {
        wrapped("cause", self.cause) + &wrapped("try", self.advice)
    }

    /// What stands below a refusal, whose sentence is told already: where the place points is left out where the sentence says it,
    /// or where it points nowhere.
    fn behind(&self) -> String {
        let points = self.sentences().len() == 1 && !self.place.starts_with("It is 0 ");
        let place = if points {
            wrapped("place", self.place)
        } else {
            String::new()
        };
        wrapped("rule", self.rule) + &place + &self.advised()
    }
}

fn listed(givers: &[&str]) -> String {
    if givers.is_empty() {
        return "none".to_string();
    }
    givers.join(", ")
}

/// A text with a word before its first line, in lines that fit a window.
fn wrapped(word: &str, text: &str) -> String {
    let mut lines = String::new();
    let mut line = format!("{word:<WORD$}");
    for next in text.split(' ') {
        if line.chars().count() + 1 + next.chars().count() > WIDTH {
            lines += &format!("{line}\n");
            line = " ".repeat(WORD);
        }
        line += if line.len() > WORD { " " } else { "" };
        line += next;
    }
    lines + &line + "\n"
}

/// One line for each number.
fn list(rules: &[&Rule]) -> String {
    let line = |rule: &&Rule| format!("{:>3}  {}\n", rule.number, rule.sentences()[0].1);
    rules.iter().map(line).collect::<String>() + MORE
}

/// What helps after a refusal, in words and as an object.
pub fn help(number: u64) -> (String, Value) {
    let rule = all().into_iter().find(|rule| rule.number == number);
    rule.map_or_else(Default::default, |rule| (rule.behind(), rule.object()))
}

pub fn refusals(number: Option<u64>, json: bool) -> Result<(), Failure> {
    let mut rules = all();
    rules.retain(|rule| number.map_or(true, |number| number == rule.number));
    let lines = || match number {
        Some(_) => rules.iter().map(|rule| rule.lines()).collect(),
        None => list(&rules),
    };
    let object = || {
        let mut object =
            json!({ "refusals": rules.iter().map(|rule| rule.object()).collect::<Vec<_>>() });
        if number.is_none() {
            let order = CALLS
                .iter()
                .map(|(call, numbers)| json!({ "call": call, "numbers": givers::order(numbers) }));
            object["orders"] = order.collect();
        }
        object
    };
    print::answer(json, lines, object)
}
