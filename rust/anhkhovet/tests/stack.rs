//! Each call on a thread with the stack that the documentation states, and images that all of them go through to the end.

use anhkhovet::{
    chain, check, check_in, close, collapse, descriptor, find, frame, header, lookup, mend, normal,
    profile, raw, read, split, survey, to_cowd, to_kdmv, words_needed, Side, STACK,
};
use std::{fs, thread};

/// What the documentation states for all other calls.
const LITTLE: usize = 16 << 10;

fn sample(name: &str) -> Vec<u8> {
    fs::read(format!("../../samples/{name}.vmdk")).unwrap()
}

/// Too little stack ends this whole program, and so the test.
fn on(stack: usize, call: impl FnOnce() + Send + 'static) {
    let thread = thread::Builder::new().stack_size(stack);
    thread.spawn(call).unwrap().join().unwrap();
}

#[test]
fn calls_that_check() {
    let images = ["tool-base", "tool-packed", "vmdkstream"].map(sample);
    on(STACK, move || {
        assert!(images.iter().all(|image| check(image).is_ok()));
        let lengths: Vec<u64> = images.iter().map(|image| image.len() as u64).collect();
        let said = survey(&images.concat(), &lengths).unwrap();
        assert!(said.rows.iter().all(Result::is_ok));
    });
    let (lower, upper) = (sample("tool-base"), sample("tool-middle"));
    let text = "# Disk DescriptorFile\nversion=1\nCID=1\nparentCID=1\ncreateType=\"\"\nRW 2048 SPARSE \"a\"";
    let file = lower.clone();
    on(STACK, move || {
        let lengths = [file.len() as u64];
        assert!(split(text.as_bytes(), &file, &lengths, 2).is_ok());
    });
    let mut out = vec![0; 1 << 20];
    on(STACK, move || {
        assert!(normal(&lower, &mut out).is_ok());
        assert!(collapse(&lower, &upper, &mut out).is_ok());
    });
}

#[test]
fn the_profile() {
    let image = sample("tool-base");
    let mut form = vec![0; 2 * image.len()];
    on(STACK, move || {
        let length = normal(&image, &mut form).unwrap() as usize;
        form.truncate(length);
        assert!(profile(&form).is_ok());
        form.push(0);
        assert!(profile(&form).is_err());
    });
}

#[test]
fn moves() {
    let (old, young) = (sample("cowd-s001"), sample("tool-base"));
    let mut out = vec![0; 1 << 20];
    on(STACK, move || {
        assert!(to_kdmv(&old, &mut out).is_ok());
        assert!(to_cowd(&young, &mut out).is_ok());
    });
}

#[test]
fn mending() {
    let sound = ["tool-base", "tool-packed"].map(sample);
    on(STACK, move || {
        for sound in &sound {
            // Grain 1's entry in the redundant table.
            let mut image = sound.clone();
            image[22 * 512 + 4..22 * 512 + 8].fill(0);
            assert_eq!(mend(&mut image, Side::Primary, &mut [0; 3]), Ok(1));
            assert_eq!(&image, sound);
        }
    });
}

#[test]
fn calls_on_sectors() {
    let images = ["tool-base", "tool-packed", "vmdkstream"].map(sample);
    on(LITTLE, move || {
        for image in &images {
            assert!(frame(image).is_ok());
            let sectors = header(image).unwrap().disk.capacity;
            let found = (0..sectors).filter(|sector| lookup(image, *sector).is_ok());
            assert_eq!(found.count() as u64, sectors);
            assert!((0..sectors).any(|sector| !read(image, sector).is_empty()));
        }
    });
    let layers = ["tool-base", "tool-middle", "tool-top"].map(sample);
    let lengths = layers.clone().map(|layer| layer.len() as u64);
    let layers = layers.concat();
    on(LITTLE, move || {
        assert!((0..2048).all(|sector| chain(&layers, &lengths, sector).is_ok()));
    });
}

#[test]
fn closing() {
    let stream = sample("vmdkstream");
    let mut tail = vec![0; 10 * 512];
    on(LITTLE, move || {
        assert_eq!(close(&stream, &mut tail).map(|kept| kept.grains), Ok(4));
        assert!(close(&stream[..133 * 512], &mut tail[1..]).is_err());
    });
}

/// A list that is just long enough, of ones.
fn list(image: &[u8]) -> Vec<u64> {
    vec![u64::MAX; words_needed(image.len() as u64) as usize]
}

#[test]
fn the_check_in_a_lent_list() {
    let images = ["tool-base", "tool-packed", "vmdkstream"].map(sample);
    let mut lists: Vec<Vec<u64>> = images.iter().map(|image| list(image)).collect();
    on(LITTLE, move || {
        for (image, list) in images.iter().zip(&mut lists) {
            assert!(check_in(image, list).is_ok());
        }
    });
}

/// Tables of the long image, and the first sector behind them.
const TABLES: usize = 210;
const BEHIND: usize = 4 + 4 * TABLES;

/// A file of over 4 GiB whose grains of 8 sectors stand 80 sectors apart, but for the last; a few pages are touched.
fn long(last: u32) -> Vec<u8> {
    let mut image = vec![0; 512 * (BEHIND + 80 * 512 * TABLES)];
    let mut put = |at: usize, bytes: &[u8]| image[at..at + bytes.len()].copy_from_slice(bytes);
    put(0, b"KDMV");
    put(4, &1u32.to_le_bytes());
    put(12, &(512 * 8 * TABLES as u64).to_le_bytes());
    put(20, &8u64.to_le_bytes());
    put(44, &512u32.to_le_bytes());
    put(56, &1u64.to_le_bytes());
    for table in 0..TABLES {
        put(512 + 4 * table, &(4 + 4 * table as u32).to_le_bytes());
    }
    for grain in 0..512 * TABLES {
        let sector = (BEHIND + 80 * grain) as u32;
        put(4 * 512 + 4 * grain, &sector.to_le_bytes());
    }
    put(512 * BEHIND - 4, &last.to_le_bytes());
    image
}

#[test]
fn the_check_in_a_lent_list_of_a_long_image() {
    // The last grain on the one before it, and behind that one.
    let grains = 512 * TABLES;
    let before = (BEHIND + 80 * (grains - 2)) as u32;
    for (last, number, marked) in [(before + 7, 12, grains - 1), (before + 8, 0, grains)] {
        let image = long(last);
        let mut list = list(&image);
        assert!(image.len() > 1 << 32);
        on(LITTLE, move || {
            let found = raw::check_in(&image, &mut list);
            let sum = 1 + 2 + 4 * TABLES + 8 * marked;
            assert_eq!((found.number, found.marked), (number, sum as u64));
            assert!(list.iter().all(|word| *word == 0));
        });
    }
}

#[test]
fn calls_on_texts() {
    let text = sample("two-gb-sparse-data");
    on(LITTLE, move || {
        let said = descriptor(&text).unwrap();
        assert_eq!(find(&said.extents, 4_194_304), Ok(1));
    });
}
