//! Closing on both sides: starts of streams cut anywhere, whole streams and any image, in outputs of every length about the needed
//! one.

mod made;
mod walked;

use crate::cowd::is_cowd;
use crate::ones::number;
use crate::rng::Rng;
use crate::run::Run;
use crate::tally::Call;
use made::made;
use plain::Closed;
use walked::{Kind, Stop, Walked};

/// More than any tail of a generated start takes.
const MOST: usize = 3 << 20;

impl Run<'_> {
    pub fn close(&mut self, image: &[u8], room: usize) {
        let answer = self.lend_output(Call::Close, &[image], room, |side, out| {
            side.close(image, out)
        });
        if answer.number != 0 {
            self.tally.refused(Call::Close, answer.number, answer.place);
            self.count_cowd(Call::Close, [answer.number, answer.place], image);
        }
        for row in rows(answer, image, room as u64) {
            self.tally.answered(Call::Close, row);
        }
    }
}

/// Rows, and whether they hold.
type Rows = Vec<(&'static str, bool)>;

/// The rows of an answer, with an output of so many bytes.
pub fn rows(answer: Closed, image: &[u8], room: u64) -> Vec<&'static str> {
    let rows = judged_rows(answer, image, room).into_iter();
    rows.filter(|(_, holds)| *holds)
        .map(|(row, _)| row)
        .collect()
}

fn judged_rows(answer: Closed, image: &[u8], room: u64) -> Rows {
    match answer.number {
        0 => [closed(answer, image, room), blocks(image), stops(image)].concat(),
        1..=6 => vec![("1 to 6, 41 too", judged(image))],
        21 => {
            let needed = needed(image);
            vec![
                ("21, a byte short", room + 1 == needed),
                ("21, no output", room == 0),
            ]
        }
        41 => unclosed(image, room),
        _ => Vec::new(),
    }
}

/// Whether the header of a refused start also has a redundant directory.
fn judged(image: &[u8]) -> bool {
    image.starts_with(b"KDMV") && image.len() >= 512 && number(image, 48, 8) != 0
}

/// Rows of what is kept.
fn closed(answer: Closed, image: &[u8], room: u64) -> Rows {
    let walked = Walked::of(image);
    let entries = walked.entries();
    let last = (walked.capacity - 1) / walked.grain_size;
    let has = |is: &dyn Fn(u64) -> bool| {
        walked
            .grains()
            .any(|grain| is(grain.first / walked.grain_size))
    };
    let descriptor = number(image, 28, 8);
    let whole = plain::check(image).number == 0;
    vec![
        ("written, exact room", room == answer.length),
        ("written, room left", room > answer.length),
        ("closed, nothing there", walked.overhead == walked.sectors),
        (
            "closed, no grain",
            answer.grains == 0 && walked.end < walked.sectors,
        ),
        (
            "closed, all kept",
            answer.grains > 0 && answer.sectors == walked.sectors,
        ),
        ("closed, odd length", image.len() % 512 != 0),
        ("closed, whole stream", whole),
        ("closed, several tables", entries.len() > 1),
        (
            "closed, entry passed",
            entries.windows(2).any(|two| two[0] + 1 < two[1]),
        ),
        ("closed, first entry not", entries.first() > Some(&0)),
        ("closed, grain 0", has(&|grain| grain == 0)),
        ("closed, entry 511", has(&|grain| grain % 512 == 511)),
        ("closed, last grain", has(&|grain| grain == last)),
        ("closed, long directory", walked.directory() > 1),
        ("closed, descriptor", descriptor != 0),
        ("closed, no descriptor", descriptor == 0),
        (
            "closed, up to overhead",
            descriptor != 0 && descriptor + number(image, 36, 8) == walked.overhead,
        ),
        ("closed, overhead 2", walked.overhead == 2),
        ("closed, dirty", image[72] != 0),
    ]
}

/// Rows of the blocks that are kept, and of those after them.
fn blocks(image: &[u8]) -> Rows {
    let walked = Walked::of(image);
    let grains = walked.grains().count();
    let before = walked
        .blocks
        .iter()
        .rposition(|block| block.kind == Kind::Grain);
    let kept = &walked.blocks[..before.map_or(0, |last| last + 1)];
    let dropped = &walked.blocks[kept.len()..];
    let has = |kind| kept.iter().any(|block| block.kind == kind);
    let size = |size| kept.iter().any(|block| block.size == size);
    vec![
        ("table between", has(Kind::Table)),
        ("table first", grains > 0 && kept[0].kind == Kind::Table),
        ("directory between", has(Kind::Directory)),
        (
            "long directory between",
            has(Kind::Directory) && walked.directory() > 1,
        ),
        (
            "table dropped",
            dropped.iter().any(|block| block.kind == Kind::Table),
        ),
        (
            "directory dropped",
            dropped.iter().any(|block| block.kind == Kind::Directory),
        ),
        ("size 500", size(500)),
        ("size 501", size(501)),
        ("size 1012", size(1012)),
        ("size 1013", size(1013)),
    ]
}

/// Rows of what ends the walk.
fn stops(image: &[u8]) -> Rows {
    let walked = Walked::of(image);
    let is = |stop| walked.stop == Some(stop);
    let other = match walked.stop {
        Some(Stop::Kind(kind)) => kind,
        _ => 0,
    };
    let first = || number(image, walked.end * 512, 8);
    let past = is(Stop::PastCapacity);
    let just = past && first() < walked.capacity + walked.grain_size;
    vec![
        (
            "to the end",
            walked.stop.is_none() && !walked.blocks.is_empty(),
        ),
        ("stop, type 0", is(Stop::Kind(0))),
        ("stop, type 3", is(Stop::Kind(3))),
        ("stop, type above 3", other > 3),
        (
            "stop, low byte 1 or 2",
            other > 3 && [1, 2].contains(&(other % 256)),
        ),
        ("stop, grain cut", is(Stop::Cut(Kind::Grain))),
        ("stop, table cut", is(Stop::Cut(Kind::Table))),
        ("stop, directory cut", is(Stop::Cut(Kind::Directory))),
        ("stop, no multiple", is(Stop::NoMultiple)),
        ("stop, at capacity", just),
        ("stop, far past", past && !just),
        ("stop, the same grain", is(Stop::Again)),
        ("stop, a lower grain", is(Stop::Below)),
    ]
}

/// Rows of refusal 41.
fn unclosed(image: &[u8], room: u64) -> Rows {
    let [first, count, redundant, directory, overhead] =
        [28, 36, 48, 56, 64].map(|at| number(image, at, 8));
    let sectors = image.len() as u64 / 512;
    let end = u128::from(first) + u128::from(count);
    let half = (first == 0) != (count == 0);
    vec![
        ("41, 21 too", room == 0),
        ("41, directory told", directory != u64::MAX),
        ("41, redundant", redundant != 0 && directory == u64::MAX),
        ("41, overhead 0", overhead == 0),
        ("41, overhead 1", overhead == 1),
        ("41, overhead F + 1", overhead == sectors + 1),
        ("41, overhead past", overhead > sectors + 1),
        ("41, half a descriptor", half),
        (
            "41, a sector past",
            end == u128::from(overhead) + 1 && !half,
        ),
        ("41, end that wraps", end > u128::from(u64::MAX) && !half),
    ]
}

/// The length of the tail; 0 where there is none.
fn needed(image: &[u8]) -> u64 {
    plain::close(image, &mut vec![0; MOST]).length
}

/// What is kept and the tail.
fn joined(image: &[u8]) -> Option<Vec<u8>> {
    let mut tail = vec![0; MOST];
    let closed = plain::close(image, &mut tail);
    let kept = image.get(..closed.sectors as usize * 512)?;
    (closed.number == 0).then(|| [kept, &tail[..closed.length as usize]].concat())
}

/// A start, now and then what it is closed to and an image, and each COWD one.
pub fn case(run: &mut Run, rng: &mut Rng, image: &[u8], which: u64) {
    let start = made(rng, which);
    ask(run, rng, &start);
    if is_cowd(image) || rng.one_in(4) {
        ask(run, rng, image);
    }
    if let (0, Some(mut whole)) = (rng.below(8), joined(&start)) {
        if rng.one_in(2) {
            whole.truncate(whole.len() - rng.index(whole.len().min(4096)));
        }
        ask(run, rng, &whole);
    }
}

/// Asks with an output that is exact, a byte short, longer, or of any length.
fn ask(run: &mut Run, rng: &mut Rng, image: &[u8]) {
    let needed = needed(image);
    let room = match rng.below(8) {
        0..=3 => needed,
        4 => needed.saturating_sub(1),
        5 => needed + rng.within(1, 700),
        6 => rng.below(needed + 1),
        _ => rng.pick(&[0, 512, needed + 1]),
    };
    run.close(image, room as usize);
}
