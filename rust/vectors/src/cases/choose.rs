//! Which cases are stored: real images from samples, and generated ones that reach each answer of each call.

use super::kinds::kinds;
use super::record::Recorder;
use super::{Case, CHECK_IN, CLOSE, FIND, FRAME, IMAGE, MEND, MOST_WORDS, MOVE, PROFILE};
use super::{SPLIT, STEPS, SURVEY, TEXT};
use compare::cases::case;
use compare::cowd::is_cowd;
use compare::rng::Rng;
use compare::run::Run;
use compare::side::Plain;
use compare::tally::Call;
use std::collections::BTreeMap;
use std::io;
use std::ops::Range;
use std::path::{Path, PathBuf};
use std::thread;

const SEED: u64 = 21;
/// How many of the generators' cases are tried.
const TRIED: u64 = 32_000;
/// How many threads share them; what is chosen does not depend on it.
const THREADS: u64 = 2;
/// The program's limits.
const MOST_LAYERS: usize = 17;
const MOST_ROOM: u64 = 65_536;

/// What has so many kinds of answers that one of each is enough.
const ONCE: [u64; 8] = [SURVEY, SPLIT, CHECK_IN, MEND, MOVE, PROFILE, CLOSE, STEPS];

/// Samples small enough to be stored a second time.
const SAMPLES: [&str; 3] = ["cowd-s001", "vmdkstream", "stream-optimized-data"];

/// The program's input.
pub fn input(root: &Path) -> io::Result<Vec<u8>> {
    let mut bytes = Vec::new();
    for name in SAMPLES {
        let image = std::fs::read(root.join(format!("samples/{name}.vmdk")))?;
        bytes.extend(sample(image).to_bytes());
    }
    for case in generated() {
        bytes.extend(case.to_bytes());
    }
    Ok(bytes)
}

/// A sample, with both ends of each grain asked for; a COWD one, which no other call takes, is moved.
fn sample(image: Vec<u8>) -> Case {
    if is_cowd(&image) {
        return Case {
            asked: MOVE,
            bytes: image,
            room: MOST_ROOM,
            ..Case::default()
        };
    }
    let head = plain::header(&image);
    let mut sectors: Vec<u64> = Vec::new();
    let mut first = 0;
    while first < head.capacity {
        sectors.extend([first, (first + head.grain_size).min(head.capacity) - 1]);
        first += head.grain_size;
    }
    sectors.push(head.capacity);
    Case {
        asked: IMAGE,
        sectors,
        bytes: image,
        room: MOST_ROOM,
        ..Case::default()
    }
}

/// Generated cases, as long as they give an answer that was not given often enough yet.
fn generated() -> Vec<Case> {
    let mut reached: BTreeMap<String, u64> = BTreeMap::new();
    let mut chosen = Vec::new();
    for (case, answers) in candidates() {
        let seldom = |answer: &String| {
            reached
                .get(answer)
                .map_or(true, |times| *times < wanted(&case, answer))
        };
        if answers.iter().any(seldom) {
            for answer in answers {
                *reached.entry(answer).or_default() += 1;
            }
            chosen.push(case);
        }
    }
    chosen
}

/// How often a kind of answer is stored.
fn wanted(case: &Case, answer: &str) -> u64 {
    let refused = !answer.contains(" 0 ");
    match (is_short(case), refused) {
        (true, _) => 15,
        // By its place one is enough.
        _ if answer.contains(" 8 at ") => 1,
        (false, _) if ONCE.contains(&case.asked) => 1,
        (false, true) => 2,
        // By all its groups, by its dirty number, or at sector 1, one is enough.
        (false, false) if case.asked == FRAME || answer.ends_with("at 1") => 1,
        (false, false) if answer.starts_with("header ") => 1,
        (false, false) => 3,
    }
}

/// What the generators ask, small images first, with the kinds of its answers.
fn candidates() -> Vec<(Case, Vec<String>)> {
    let mut candidates: Vec<_> = thread::scope(|scope| {
        let share = |thread| TRIED * thread / THREADS;
        let tried = |thread| scope.spawn(move || asked(share(thread)..share(thread + 1)));
        let parts: Vec<_> = (0..THREADS).map(tried).collect();
        let parts = parts.into_iter().map(|part| part.join().unwrap());
        parts.flatten().collect()
    });
    // Of texts the short ones are too plain to be preferred.
    candidates.sort_by_key(|(case, _)| if is_short(case) { 0 } else { case.bytes.len() });
    candidates
}

/// What some of the generators' cases ask.
fn asked(numbers: Range<u64>) -> Vec<(Case, Vec<String>)> {
    let recorder = Recorder::default();
    let mut run = Run::new([&recorder, &Plain], Call::all(), PathBuf::new());
    let mut asked = Vec::new();
    for number in numbers {
        case(&mut run, &mut Rng::new(SEED, number), number);
        for case in recorder.take().into_iter().filter(fits) {
            let lines = case.lines();
            let answers = lines.iter().flat_map(|line| kinds(&case, line)).collect();
            asked.push((case, answers));
        }
    }
    asked
}

/// Texts and lists are short, images are not: a COWD table alone takes 16 KB.
fn is_short(case: &Case) -> bool {
    [TEXT, FIND].contains(&case.asked)
}

/// Whether a case is one for the program, and small enough to be stored.
fn fits(case: &Case) -> bool {
    let most = match case.asked {
        TEXT | FIND => 4 << 10,
        // A COWD image with a grain of 8 sectors.
        MOVE => 24 << 10,
        // What meets the profile has no byte less, and may have some more.
        PROFILE => 65 << 10,
        _ => 20 << 10,
    };
    let short = case.lengths.len() <= MOST_LAYERS && case.room <= MOST_ROOM;
    // The program lends no longer list.
    let cut = case.asked == MEND && case.lengths[1] > MOST_WORDS as u64;
    case.bytes.len() <= most && short && !cut
}
