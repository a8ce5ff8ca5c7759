//! Single sectors on both sides: the lookup, the chain and the grain reader.

use crate::cowd::is_cowd;
use crate::run::Run;
use crate::tally::Call;
use plain::{Located, ABSENT, PACKED, STORED, ZERO};

impl Run<'_> {
    pub fn lookup(&mut self, image: &[u8], sector: u64) {
        let answers = self.sides.map(|side| side.lookup(image, sector));
        self.compare(
            Call::Lookup,
            [&answers[0], &answers[1]],
            true,
            &[image],
            &sector,
        );
        self.count_sector(Call::Lookup, answers[1], image, sector);
    }

    /// Rows of a sector of one image.
    pub(crate) fn count_sector(&mut self, call: Call, located: Located, image: &[u8], sector: u64) {
        self.count_located(call, located);
        self.count_cowd(call, [located.number, located.place], image);
        self.count_past(call, located.number, image, sector);
        self.count_met(call, located, image);
        self.count_source(call, located, image, sector);
    }

    pub fn chain(&mut self, layers: &[u8], lengths: &[u64], sector: u64) {
        let answers = self.sides.map(|side| side.chain(layers, lengths, sector));
        let both = [&answers[0], &answers[1]];
        self.compare(Call::Chain, both, true, &[layers], &(lengths, sector));
        self.count_located(Call::Chain, answers[1]);
        if ![0, 8].contains(&answers[1].number) {
            return self.count_headed_layer(answers[1], layers, lengths, sector);
        }
        let layer = answers[1].layer as usize;
        let below = layer + 1 < lengths.len();
        match (answers[1].number, answers[1].kind) {
            (0, ABSENT) => {}
            (0, _) if below => self.tally.answered(Call::Chain, "under the top layer"),
            (8, _) if below => self.tally.answered(Call::Chain, "8, below the top"),
            _ => {}
        }
        let from: u64 = lengths[..layer].iter().sum();
        let image = &layers[from as usize..(from + lengths[layer]) as usize];
        self.count_met(Call::Chain, answers[1], image);
        self.count_source(Call::Chain, answers[1], image, sector);
    }

    /// Rows of a layer whose header is refused.
    fn count_headed_layer(
        &mut self,
        located: Located,
        layers: &[u8],
        lengths: &[u64],
        sector: u64,
    ) {
        if !matches!(located.number, 1..=7 | 43) {
            return;
        }
        let mut rest = layers;
        let mut images = Vec::new();
        for length in lengths {
            let (image, after) = rest.split_at(*length as usize);
            images.push(image);
            rest = after;
        }
        let named = images[located.layer as usize];
        self.count_cowd(Call::Chain, [located.number, located.place], named);
        self.count_past(Call::Chain, located.number, named, sector);
        self.count_layers(located, &images);
    }

    pub(crate) fn count_located(&mut self, call: Call, located: Located) {
        if located.number != 0 {
            self.tally.refused(call, located.number, located.place);
            return;
        }
        let row = match located.kind {
            ABSENT => "absent",
            ZERO => "zero",
            STORED => "stored",
            PACKED => "packed",
            _ => "unknown",
        };
        self.tally.answered(call, row);
    }

    pub fn read(&mut self, image: &[u8], sector: u64) {
        let answers = self.sides.map(|side| side.read(image, sector));
        self.compare(
            Call::Read,
            [&answers[0], &answers[1]],
            true,
            &[image],
            &sector,
        );
        let row = match (answers[1].at % 512, answers[1].length) {
            (_, 0) => "empty part",
            (0, _) => "stored",
            _ => "packed",
        };
        self.tally.answered(Call::Read, row);
        let gone = is_cowd(image) && image.len() >= 2048;
        if gone && answers[1].length == 0 {
            self.tally.answered(Call::Read, "empty part of COWD");
        }
        let located = plain::lookup(image, sector);
        self.count_met(Call::Read, located, image);
        self.count_source(Call::Read, located, image, sector);
    }
}
