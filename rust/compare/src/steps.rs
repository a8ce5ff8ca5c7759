//! The lookup's steps on both sides, and issue 29 in the table: by what stands on the way to an answer or a refusal.

use crate::ones::number;
use crate::run::Run;
use crate::tally::Call;
use plain::{Located, Steps, ZERO};

/// Rows, and whether they hold.
type Rows = Vec<(&'static str, bool)>;

impl Run<'_> {
    pub fn steps(&mut self, image: &[u8], sector: u64) {
        let answers = self.sides.map(|side| side.steps(image, sector));
        let both = [&answers[0], &answers[1]];
        self.compare(Call::Steps, both, true, &[image], &sector);
        let located = Located {
            number: answers[1].number,
            layer: 0,
            place: answers[1].place,
            kind: answers[1].kind,
            sector: answers[1].sector,
            size: answers[1].size,
            offset: answers[1].offset,
        };
        self.count_sector(Call::Steps, located, image, sector);
        for row in rows(answers[1], image) {
            self.tally.answered(Call::Steps, row);
        }
    }
}

/// The rows of an answer in which a way is told.
pub fn rows(steps: Steps, image: &[u8]) -> Vec<&'static str> {
    let rows = match steps.number {
        0 => [entries(steps, image), places(steps, image)].concat(),
        8 => misplaced(steps),
        9 | 10 => [places(steps, image), outside(steps, image)].concat(),
        _ => Vec::new(),
    };
    let hold = rows.into_iter().filter(|(_, holds)| *holds);
    hold.map(|(row, _)| row).collect()
}

/// By the entry that decides, and by what one of 1 is.
fn entries(steps: Steps, image: &[u8]) -> Rows {
    let named = steps.table_at != 0;
    let ones = [steps.directory_entry, steps.table_entry].contains(&1);
    let sector = ones && steps.one_is_zero == 0;
    let first = image[4] == 1;
    vec![
        ("no table, absent", steps.directory_entry == 0),
        ("no table, zeros", !named && steps.directory_entry == 1),
        ("in table, absent", named && steps.table_entry == 0),
        ("in table, zeros", named && steps.kind == ZERO),
        ("table at 1", named && steps.directory_entry == 1),
        ("1 a sector, version 1", sector && first),
        ("1 a sector, no flag", sector && !first),
    ]
}

/// By where the entries stand, and which directory has them.
fn places(steps: Steps, image: &[u8]) -> Rows {
    let named = steps.table_at != 0;
    let (index, entry) = (steps.grain / 512, steps.grain % 512);
    let head = plain::header(image);
    vec![
        ("second table", named && index > 0),
        ("first of another table", named && index > 0 && entry == 0),
        ("last of a table", named && entry == 511),
        ("later directory sector", index > 127),
        ("footer's directory", image[56..64] == [255; 8]),
        ("redundant directory", image[48..56] != [0; 8]),
        (
            "grain cut short",
            (steps.grain + 1) * head.grain_size > head.capacity,
        ),
    ]
}

/// Of 8, by the part that is outside.
fn misplaced(steps: Steps) -> Rows {
    let [zeros, sector, later] = match steps.place {
        2 => [
            "8 at 2, 1 is zeros",
            "8 at 2, 1 a sector",
            "8 at 2, later grain",
        ],
        _ => [
            "8 at 4, 1 is zeros",
            "8 at 4, 1 a sector",
            "8 at 4, later grain",
        ],
    };
    vec![
        (zeros, steps.one_is_zero == 1),
        (sector, steps.one_is_zero == 0),
        (later, steps.grain > 0),
        ("8 at 4, top byte", steps.directory_entry >> 24 != 0),
    ]
}

/// Of 9 and 10, by the table's entry and the marker.
fn outside(steps: Steps, image: &[u8]) -> Rows {
    let packed = image[77] == 1;
    if steps.number == 10 {
        let empty = number(image, steps.table_entry * 512 + 8, 4) == 0;
        return vec![
            ("10, 1 is zeros", steps.one_is_zero == 1),
            ("10, 1 a sector", steps.one_is_zero == 0),
            ("10, no bytes", empty),
            ("10, another grain", !empty),
        ];
    }
    vec![
        ("9, 1 is zeros", steps.one_is_zero == 1),
        ("9, 1 a sector", steps.one_is_zero == 0),
        ("9, stored", !packed),
        ("9, packed", packed),
        ("9, entry 1", steps.table_entry == 1),
        ("9, top byte", steps.table_entry >> 24 != 0),
    ]
}
