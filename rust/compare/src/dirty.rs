//! Request A5 in the table: what dirty images were answered, and where 27 and another refusal would hold.

use crate::run::Run;
use crate::tally::Call;
use plain::Refusal;

/// The result for these layers, lower first, had they been clean.
pub fn written(layers: &[&[u8]], room: usize) -> Result<Vec<u8>, Refusal> {
    let clean: Vec<Vec<u8>> = layers.iter().map(|image| cleaned(image)).collect();
    match &clean[..] {
        [lower, upper] => plain::collapse(lower, upper, room),
        _ => plain::normal(&clean[0], room),
    }
}

/// The image with dirty byte 0. A footer, which has the byte too, comes with grains that are refused 23.
fn cleaned(image: &[u8]) -> Vec<u8> {
    let mut image = image.to_vec();
    if image.starts_with(b"KDMV") && is_dirty(&image) {
        image[72] = 0;
    }
    image
}

fn is_dirty(image: &[u8]) -> bool {
    plain::header(image).dirty != 0
}

impl Run<'_> {
    /// Rows of an accepted image, by its dirty number.
    pub(crate) fn count_dirty(&mut self, call: Call, image: &[u8]) {
        if !is_dirty(image) {
            return;
        }
        let rows = [
            ("accepted, dirty", true),
            ("accepted, dirty footer", image[56..64] == [255; 8]),
        ];
        self.count_those(call, &rows);
    }

    /// The row of a sector that a dirty image serves.
    pub(crate) fn count_served(&mut self, call: Call, image: &[u8]) {
        self.count_those(call, &[("from a dirty image", is_dirty(image))]);
    }

    /// Rows of a refusal to write, where a layer is dirty: by which of them, and by what else would hold.
    pub(crate) fn count_unwritten(
        &mut self,
        call: Call,
        number: u64,
        layers: &[&[u8]],
        room: usize,
    ) {
        let dirty: Vec<bool> = layers.iter().map(|image| is_dirty(image)).collect();
        if !dirty.contains(&true) {
            return;
        }
        let is_one = |image: &&[u8]| plain::header(image).dirty == 1;
        let fits = number == 27 && written(layers, room).is_ok();
        let rows = [
            ("27, lower alone", number == 27 && dirty == [true, false]),
            ("27, upper alone", number == 27 && dirty == [false, true]),
            ("27, both", number == 27 && dirty == [true, true]),
            (
                "27, other than 1",
                number == 27 && !layers.iter().any(is_one),
            ),
            ("27, 21 too", number == 27 && !fits),
            ("27, room enough", fits),
            ("8 to 12, 27 too", (8..=12).contains(&number)),
            ("23, 27 too", number == 23),
            ("22, 27 too", number == 22),
        ];
        self.count_those(call, &rows);
    }

    fn count_those(&mut self, call: Call, rows: &[(&str, bool)]) {
        for (row, holds) in rows {
            if *holds {
                self.tally.answered(call, row);
            }
        }
    }
}

#[cfg(test)]
mod tests {
    use crate::image::{build, suited, Field, Plan, Shape};
    use crate::rng::Rng;
    use plain::{check, header, lookup};
    use std::collections::BTreeSet;

    #[test]
    fn the_number_is_handed_out_and_decides_nothing_else() {
        let mut numbers = [BTreeSet::new(), BTreeSet::new()];
        for case in 0..3000 {
            let rng = &mut Rng::new(12, case);
            let plan = Plan {
                most_sectors: 100,
                ..Plan::default()
            };
            let shape = Shape::choose(rng, suited(plan, case));
            let mut built = build(rng, shape);
            numbers[usize::from(built.shape.footer)].insert(built.shape.dirty);
            let open = built.bytes.clone();
            assert_eq!(header(&open).dirty, built.shape.dirty, "{case}");

            for start in built.headers() {
                let at = start + 72;
                built.put(Field { at, size: 1 }, 0);
            }
            let clean = &built.bytes;
            assert_eq!(header(clean).dirty, 0, "{case}");
            assert_eq!(check(clean), check(&open), "{case}");
            for sector in built.asked {
                assert_eq!(lookup(clean, sector), lookup(&open, sector), "{case}");
            }
        }
        // With a footer or without one, 0, 1, 2 and 255.
        assert!(numbers.iter().all(|all| all.iter().eq(&[0, 1, 2, 255])));
    }
}
