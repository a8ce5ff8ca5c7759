//! The descriptor reader on texts of the greatest length.

use crate::report::{grouped, Figure, Report};
use crate::timing::{best, opaque};
use crate::{agree, side, Outcome, Setup};
use plain::{MOST_EXTENTS, MOST_TEXT};

const HEAD: &str = "# Disk DescriptorFile\nversion=1\nCID=12345678\nparentCID=ffffffff\ncreateType=\"twoGbMaxExtentSparse\"\n";
const EXTENT: &str = "RW 4192256 SPARSE \"disk-s001.vmdk\"\n";
const COMMENT: &str = "# Extent description, as some tool left it here\n";

struct Text {
    label: String,
    text: String,
    /// The refusal that every line has to be read for.
    number: u64,
}

fn texts() -> Vec<Text> {
    let (comments, comment_lines) = lines(format!("{HEAD}{EXTENT}"), COMMENT);
    let (extents, extent_lines) = lines(HEAD.to_string(), EXTENT);
    // As many extents as are accepted, blanks between their words to fill the text.
    let room = (MOST_TEXT - HEAD.len()) / MOST_EXTENTS;
    let words = [
        "RW",
        "65536",
        "FLAT",
        &format!("\"{}\"", "n".repeat(255)),
        "0",
    ];
    let blanks = room - 1 - words.iter().map(|word| word.len()).sum::<usize>();
    let wide = words.join(&" ".repeat(blanks / 4)) + "\n";
    let long = format!("{HEAD}{EXTENT}comment = ");
    let left = MOST_TEXT - long.len();
    let text = |label: String, text, number| Text {
        label,
        text: filled(text),
        number,
    };
    vec![
        text(format!("{comment_lines} comment lines"), comments, 0),
        text(
            format!("{extent_lines} extent lines, refused 35"),
            extents,
            35,
        ),
        text(
            format!("{MOST_EXTENTS} extent lines, wide"),
            HEAD.to_string() + &wide.repeat(MOST_EXTENTS),
            0,
        ),
        text("one long line".to_string(), long + &"x".repeat(left), 0),
    ]
}

/// As many times `line` as fit, and how many that are.
fn lines(head: String, line: &str) -> (String, String) {
    let times = (MOST_TEXT - head.len()) / line.len();
    (head + &line.repeat(times), grouped(times as u64))
}

/// With blanks at the end, to the greatest length: a last line of blanks is an empty one.
fn filled(text: String) -> String {
    let left = MOST_TEXT - text.len();
    text + &" ".repeat(left)
}

pub fn measure(setup: &Setup, report: &mut Report) -> Outcome {
    setup.progress("descriptor");
    // Each call is short, so that more rounds cost little.
    let rounds = setup.rounds * 30;
    for Text {
        label,
        text,
        number,
    } in texts()
    {
        let text = text.as_bytes();
        let expected = plain::descriptor(text, MOST_EXTENTS);
        agree("descriptor", &expected.0.number, &number)?;
        agree("descriptor", &side::describe(text), &expected)?;
        let each = |time| Figure::each(time, MOST_TEXT as u64, " a byte");
        let ours = best(rounds, || side::describe(text));
        let label = format!("{} bytes, {label}", grouped(MOST_TEXT as u64));
        report.measure("descriptor", &label, &Ok(each(ours)));
        let plain = best(rounds, || plain::descriptor(text, MOST_EXTENTS));
        report.against("plain", &Ok(each(plain)));
        let pass = best(rounds, || sum(text));
        report.against("a sum of the bytes, one by one", &Ok(each(pass)));
        let newlines = best(rounds, || newlines(text));
        report.against("a count of newlines, vectors allowed", &Ok(each(newlines)));
    }
    Ok(())
}

/// One pass that takes each byte by itself.
fn sum(text: &[u8]) -> u64 {
    text.iter().fold(0, |sum: u64, byte| {
        opaque(sum.wrapping_add(u64::from(*byte)))
    })
}

/// One pass as fast as vectors make it: counts of a byte each, for as many bytes as such a count can hold.
fn newlines(text: &[u8]) -> u64 {
    let count = |part: &[u8]| {
        part.iter().fold(0_u8, |count, byte| {
            count.wrapping_add(u8::from(*byte == b'\n'))
        })
    };
    text.chunks(255).map(|part| u64::from(count(part))).sum()
}

#[test]
fn texts_of_the_greatest_length() {
    for text in texts() {
        assert_eq!(text.text.len(), MOST_TEXT, "{}", text.label);
        let described = plain::descriptor(text.text.as_bytes(), MOST_EXTENTS).0;
        assert_eq!(described.number, text.number, "{}", text.label);
    }
    assert_eq!((sum(b"ab"), newlines(b"a\n\nb")), (195, 2));
}
