//! Real streams that broke off: VMDKstream's, cut anywhere. Each is closed into an accepted image with every whole grain.

use anhkhovet::{check, close, lookup, read, Refusal, Source};
use std::collections::BTreeSet;
use std::fs;

const SECTOR: usize = 512;

fn sample(name: &str) -> Vec<u8> {
    fs::read(format!("../../samples/{name}.vmdk")).unwrap()
}

fn number(bytes: &[u8], at: usize, length: usize) -> usize {
    let bytes = bytes[at..at + length].iter().rev();
    bytes.fold(0, |sum, byte| sum << 8 | usize::from(*byte))
}

/// A stream, and where its blocks stand.
struct Stream {
    bytes: Vec<u8>,
    overhead: usize,
    /// The sector of each marker.
    markers: Vec<usize>,
    /// Each grain's first virtual sector, and the sectors from its marker to its end.
    grains: Vec<(u64, usize, usize)>,
}

impl Stream {
    /// As the stream itself counts: a marker's first number is that of the sectors behind it, unless it is a grain's.
    fn of(name: &str) -> Stream {
        let bytes = sample(name);
        let overhead = number(&bytes, 64, 8);
        let (mut markers, mut grains) = (Vec::new(), Vec::new());
        let mut at = overhead;
        while at < bytes.len() / SECTOR {
            let marker = &bytes[at * SECTOR..][..16];
            let (first, size) = (number(marker, 0, 8), number(marker, 8, 4));
            markers.push(at);
            let next = match (size, number(marker, 12, 4)) {
                (0, 0) => break,
                (0, _) => at + 1 + first,
                _ => at + (12 + size + SECTOR - 1) / SECTOR,
            };
            if size > 0 {
                grains.push((first as u64, at, next));
            }
            at = next;
        }
        Stream {
            bytes,
            overhead,
            markers,
            grains,
        }
    }

    /// A start of it, closed: all whole grains are kept, with their bytes, and nothing else.
    fn close_cut(&self, length: usize) -> Vec<u8> {
        let start = &self.bytes[..length];
        let mut tail = vec![0; 1 << 16];
        let closed = close(start, &mut tail).unwrap();
        let whole = |(_, _, end): &&(u64, usize, usize)| end * SECTOR <= length;
        let kept: Vec<_> = self.grains.iter().filter(whole).collect();
        assert_eq!(closed.grains, kept.len() as u64, "cut at {length}");
        let end = kept.last().map_or(self.overhead, |(_, _, end)| *end);
        assert_eq!(closed.sectors, end as u64, "cut at {length}");

        let image = [closed.kept(start), &tail[..closed.length as usize]].concat();
        assert_eq!(check(&image), check(&self.bytes), "cut at {length}");
        let firsts: BTreeSet<u64> = kept.iter().map(|(first, _, _)| *first).collect();
        let disk = check(&image).unwrap();
        for sector in 0..disk.capacity {
            let first = sector - sector % disk.grain_size;
            if firsts.contains(&first) {
                assert_eq!(lookup(&image, sector), lookup(&self.bytes, sector));
                assert!(read(&image, sector) == read(&self.bytes, sector));
            } else {
                assert_eq!(lookup(&image, sector), Ok(Source::Absent));
            }
        }
        image
    }

    fn cut_everywhere(&self, random: usize) {
        let (least, all) = (self.overhead * SECTOR, self.bytes.len());
        for length in all - 4096.min(all - least)..=all {
            self.close_cut(length);
        }
        for marker in &self.markers {
            for length in [-1, 0, 1, 12, 16, 511, 512] {
                let length = (marker * SECTOR) as i64 + length;
                self.close_cut((length as usize).clamp(least, all));
            }
        }
        let mut place = 12_345_usize;
        for _ in 0..random {
            place = place.wrapping_mul(6_364_136_223_846_793_005) + 1_442_695_040;
            self.close_cut(least + (place >> 20) % (all - least + 1));
        }
    }
}

#[test]
fn streams_cut_anywhere() {
    Stream::of("vmdkstream").cut_everywhere(1000);
}

/// Whole it is closed into itself, but for the number of sectors behind the footer's marker, which 002 has as 0.
#[test]
fn a_whole_stream() {
    let stream = Stream::of("vmdkstream");
    let mut expected = stream.bytes.clone();
    let footer = expected.len() - 3 * SECTOR;
    assert_eq!(number(&expected, footer, 8), 1);
    expected[footer] = 0;
    let closed = stream.close_cut(stream.bytes.len());
    assert_eq!(closed, expected);
}

/// Before overhead there is no start that can be closed.
#[test]
fn cut_before_overhead() {
    let stream = Stream::of("vmdkstream");
    let refused = |number| Err(Refusal { number, place: 0 });
    for length in [512, 513, 128 * SECTOR - 1] {
        assert_eq!(close(&stream.bytes[..length], &mut []), refused(41));
    }
    assert_eq!(close(&stream.bytes[..511], &mut []), refused(1));
}

/// qemu-img's have their directory at the start, and a copy of it.
#[test]
fn streams_of_qemu() {
    for name in ["stream-optimized", "stream-optimized-data", "tool-packed"] {
        let image = sample(name);
        assert!(check(&image).is_ok());
        let refused = Err(Refusal {
            number: 41,
            place: 0,
        });
        assert_eq!(close(&image, &mut [0; 1 << 16]), refused);
        assert_eq!(close(&image[..image.len() / 2], &mut []), refused);
    }
}
