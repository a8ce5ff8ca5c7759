//! Both moves on both sides: of images of either kind, of what the plain side moved, in outputs of every length about the needed one.

use crate::cases::made;
use crate::cowd::{grain_at, has_no_table, head, is_cowd, PER_TABLE};
use crate::image::{anywhere, size, Plan};
use crate::ones::{directories, number};
use crate::rng::Rng;
use crate::run::Run;
use crate::tally::Call;
use plain::{Written, ZERO};
use std::borrow::Cow;

impl Run<'_> {
    pub fn to_kdmv(&mut self, image: &[u8], room: usize) {
        let number = self.write(Call::ToKdmv, &[image], room, |side, out| {
            side.to_kdmv(image, out)
        });
        self.count_move(Call::ToKdmv, number, image, room);
    }

    pub fn to_cowd(&mut self, image: &[u8], room: usize) {
        let number = self.write(Call::ToCowd, &[image], room, |side, out| {
            side.to_cowd(image, out)
        });
        self.count_move(Call::ToCowd, number, image, room);
    }

    fn count_move(&mut self, call: Call, number: u64, image: &[u8], room: usize) {
        let rows = match number {
            0 => moved(call, image, &Laid::of(self.written())),
            21 => short(call, image, room),
            44 => unmovable(call, image, room),
            _ => unmoved(call, number, image, room),
        };
        for (row, holds) in rows {
            if holds {
                self.tally.answered(call, row);
            }
        }
    }
}

/// Rows, and whether they hold.
type Rows = Vec<(&'static str, bool)>;

/// A result, and where its parts stand.
struct Laid<'a> {
    bytes: &'a [u8],
    capacity: u64,
    grain_size: u64,
    per_table: u64,
    tables_end: u64,
    /// Each grain's entry.
    entries: Vec<u64>,
}

impl Laid<'_> {
    fn of(bytes: &[u8]) -> Laid<'_> {
        let head = head(bytes);
        let (front, per_table) = match is_cowd(bytes) {
            true => (4, PER_TABLE),
            false => (1, 512),
        };
        let n = (head.capacity - 1) / (per_table * head.grain_size) + 1;
        let first_table = front + (n - 1) / 128 + 1;
        let grains = (head.capacity - 1) / head.grain_size + 1;
        let entry = |grain| number(bytes, first_table * 512 + grain * 4, 4);
        Laid {
            bytes,
            capacity: head.capacity,
            grain_size: head.grain_size,
            per_table,
            tables_end: first_table + n * per_table / 128,
            entries: (0..grains).map(entry).collect(),
        }
    }

    /// The grains that are stored.
    fn stored(&self) -> Vec<u64> {
        let grains = (0..).zip(&self.entries);
        grains.filter(|(_, at)| **at > 1).map(|(g, _)| g).collect()
    }

    /// Whether a grain has no byte that is not 0.
    fn is_blank(&self, grain: u64) -> bool {
        let at = self.entries[grain as usize] as usize * 512;
        let bytes = &self.bytes[at..at + self.grain_size as usize * 512];
        bytes.iter().all(|byte| *byte == 0)
    }
}

/// Rows of an image that was moved.
fn moved(call: Call, image: &[u8], laid: &Laid) -> Rows {
    let stored = laid.stored();
    let source = |grain: &u64| match is_cowd(image) {
        true => grain_at(image, *grain),
        false => plain::lookup(image, grain * laid.grain_size).sector,
    };
    let sectors: Vec<u64> = stored.iter().map(source).collect();
    let last = laid.entries.len() as u64 - 1;
    let whole = laid.capacity % laid.grain_size == 0;
    let table = |grain: &u64| grain / laid.per_table;
    vec![
        ("moved, no grain", stored.is_empty()),
        (
            "moved, order turned",
            sectors.windows(2).any(|two| two[1] < two[0]),
        ),
        (
            "moved, end in a grain",
            !whole && stored.last() == Some(&last),
        ),
        (
            "moved, stored zeros",
            stored.iter().any(|grain| laid.is_blank(*grain)),
        ),
        ("moved, n above 1", last >= laid.per_table),
        (
            "moved, several tables",
            stored.first().map(table) != stored.last().map(table),
        ),
        ("moved, no table", has_no_table(image, last)),
        ("moved, with a gap", laid.tables_end % laid.grain_size != 0),
        (
            "moved, normal form",
            result(back(call), laid.bytes).as_deref() == Some(image),
        ),
    ]
}

fn short(call: Call, image: &[u8], room: usize) -> Rows {
    let result = result(call, image);
    let is = |length: &dyn Fn(&[u8]) -> usize| result.as_deref().map(length) == Some(room);
    vec![
        ("21, a byte short", is(&|bytes| bytes.len() - 1)),
        ("21, no grain fits", is(&front)),
    ]
}

/// The bytes of a result before its first stored grain; all where there is none.
fn front(result: &[u8]) -> usize {
    let laid = Laid::of(result);
    let stored = laid.stored().len() * laid.grain_size as usize * 512;
    result.len() - stored
}

/// Rows of refusal 44.
fn unmovable(call: Call, image: &[u8], room: usize) -> Rows {
    let head = head(image);
    let mut rows = vec![
        ("44, 21 too", room == 0),
        ("44, grain size 1", head.grain_size == 1),
        ("44, grain size 2", head.grain_size == 2),
        ("44, grain size 4", head.grain_size == 4),
    ];
    if call == Call::ToCowd {
        let zeros = zeros(image);
        let is_zero = |sector| plain::lookup(image, sector).kind == ZERO;
        let tables = directories(image)[0].contains(&1);
        rows.push(("44, directory entry 1", tables));
        rows.push(("44, table entry 1", !tables));
        let last = zeros == 1 && is_zero(head.capacity - 1);
        rows.push(("44, last grain alone", last));
    }
    rows
}

/// How many grains of an image are zero.
fn zeros(image: &[u8]) -> u64 {
    let (mut row, mut tally) = ([0; 6], [0; 63]);
    plain::survey(image, &[image.len() as u64], &mut row, &mut tally).zero
}

/// Rows of the other refusals: where 23 comes from, and what else would hold.
fn unmoved(call: Call, refused: u64, image: &[u8], room: usize) -> Rows {
    let head = head(image);
    let dirty = head.dirty != 0;
    let packed = !is_cowd(image) && refused == 23 && number(image, 77, 2) == 1;
    let clean = match refused {
        27 => answer(call, &cleaned(image), room),
        _ => Written::default(),
    };
    let unmovable = head.grain_size < 8 || (call == Call::ToCowd && zeros(image) > 0);
    vec![
        ("23, the other kind", refused == 23 && !packed),
        ("23, packed", packed),
        (
            "23, 44 too",
            refused == 23 && call == Call::ToCowd && unmovable,
        ),
        ("23, 27 too", refused == 23 && dirty),
        ("27, other than 1", refused == 27 && head.dirty != 1),
        ("27, low byte 0", refused == 27 && head.dirty % 256 == 0),
        ("27, 21 too", refused == 27 && clean.number == 21),
        ("27, 44 too", refused == 27 && clean.number == 44),
        ("27, room enough", refused == 27 && clean.number == 0),
        ("8 to 12, 27 too", (8..=12).contains(&refused) && dirty),
    ]
}

fn back(call: Call) -> Call {
    match call {
        Call::ToKdmv => Call::ToCowd,
        _ => Call::ToKdmv,
    }
}

/// The plain side's answer, whose output is dropped.
fn answer(call: Call, image: &[u8], room: usize) -> Written {
    into(call, image, &mut vec![0; room])
}

fn into(call: Call, image: &[u8], out: &mut [u8]) -> Written {
    match call {
        Call::ToKdmv => plain::to_kdmv(image, out),
        _ => plain::to_cowd(image, out),
    }
}

/// The image with the dirty number 0. A footer, which has it too, comes with grains that are refused 23.
fn cleaned(image: &[u8]) -> Vec<u8> {
    let mut image = image.to_vec();
    let dirty = if is_cowd(&image) { 1648..1652 } else { 72..73 };
    if let Some(bytes) = image.get_mut(dirty) {
        bytes.fill(0);
    }
    image
}

/// What the plain side makes of an image, had it been clean. Where the directory is large it is not made.
pub fn result(call: Call, image: &[u8]) -> Option<Vec<u8>> {
    let head = head(image);
    if head.number != 0 || head.capacity / head.grain_size > 512 * 200 {
        return None;
    }
    // At most 200 tables and a little stand before the grains.
    let grains = (head.capacity - 1) / head.grain_size + 1;
    let stored = (grains * head.grain_size * 512).min(image.len() as u64);
    let mut out = vec![0; (stored + (4096 << 9)) as usize];
    let clean: Cow<[u8]> = match head.dirty {
        0 => image.into(),
        _ => cleaned(image).into(),
    };
    let written = into(call, &clean, &mut out);
    out.truncate(written.length as usize);
    (written.number == 0).then_some(out)
}

/// Both moves of an image, then those of one that suits them, there and back; half of those that are COWD are damaged, since no
/// other call judges it.
pub fn case(run: &mut Run, rng: &mut Rng, image: &[u8]) {
    for call in [Call::ToKdmv, Call::ToCowd] {
        ask(run, rng, call, image);
    }
    let cowd = rng.one_in(2);
    let few = cowd && rng.one_in(4);
    let plan = Plan {
        cowd,
        packed: Some(false),
        size: Some(size(rng, few, false)),
        most_sectors: rng.pick(&[40, 40, 130, 4100]),
        ..Plan::default()
    };
    let (which, damages) = (rng.below(16), rng.pick(&[0, 0, 1, 2]));
    let image = match cowd && rng.one_in(8) {
        true => anywhere(rng, true),
        false => made(rng, plan, which, if cowd { damages } else { 0 }).bytes,
    };
    let call = if cowd { Call::ToKdmv } else { Call::ToCowd };
    ask(run, rng, call, &image);
    match result(call, &image) {
        Some(other) => ask(run, rng, back(call), &other),
        None => ask(run, rng, back(call), &image),
    }
}

/// Asks for a move into an output that is exact, a byte short, longer, one without its grains, or anything.
pub fn ask(run: &mut Run, rng: &mut Rng, call: Call, image: &[u8]) {
    let result = result(call, image).unwrap_or_default();
    let needed = result.len() as u64;
    let room = match rng.below(8) {
        0..=2 => needed,
        3 => needed.saturating_sub(1),
        4 => needed + rng.within(1, 700),
        5 => rng.below(needed + 1),
        6 if needed > 0 => front(&result) as u64,
        _ => rng.pick(&[0, 1, 511, 512, needed + 1]),
    };
    match call {
        Call::ToKdmv => run.to_kdmv(image, room as usize),
        _ => run.to_cowd(image, room as usize),
    }
}
