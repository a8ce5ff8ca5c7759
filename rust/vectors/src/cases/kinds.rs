//! What kinds of answers the lines of a case are, so that one or a few of each are stored.

use super::{Case, CLOSE, MEND, STEPS};
use compare::cowd::{grain_at, head, is_cowd, kept_check};
use compare::marks::that_meets;
use compare::mends::rows;
use compare::profiles::part;
use compare::{starts, steps};
use plain::{Mended, Steps, STORED};

/// What a word of a list holds before a call, as it is printed.
const HELD: &str = "170";

/// What kinds of answers a line has: a tally one for each refusal number, a survey one for each place of 8 in its rows, mending,
/// closing and the lookup's steps one for each row of the comparison's table, any other line one.
pub fn kinds(case: &Case, line: &str) -> Vec<String> {
    if case.asked == MEND {
        return mended(case, line);
    }
    if case.asked == CLOSE {
        return closed(case, line);
    }
    if case.asked == STEPS {
        return stepped(case, line);
    }
    if let Some(words) = line.strip_prefix("survey 0 ") {
        let words: Vec<&str> = words.split(' ').skip(5).collect();
        let rows = words.chunks_exact(6).filter(|row| row[4] == "8");
        let places = rows.map(|row| format!("survey's 8 at {}", row[5]));
        return places.chain([kind(case, line)]).collect();
    }
    let counts = match line.strip_prefix("tally ") {
        Some(counts) => counts.split(' ').enumerate(),
        None => return vec![kind(case, line)],
    };
    let some = counts.filter(|(_, count)| !["", "0", HELD].contains(count));
    some.map(|(word, _)| format!("tally {}", word + 1))
        .collect()
}

/// What kind of answer a line is: its call, its number and what else tells it from others.
fn kind(case: &Case, line: &str) -> String {
    let words: Vec<&str> = line.split(' ').collect();
    let [call, number] = [words[0], words[1]];
    let cowd = is_cowd(&case.bytes);
    match call {
        "record" => call.to_string(),
        _ if number == "43" => gone(case, call, words[2]),
        "lookup" | "chain" | "split" if number == "8" => format!("{call} 8 at {}", words[3]),
        "check" | "check_in" | "profile" | "steps" | "frame" | "normal" | "collapse"
            if number == "8" =>
        {
            format!("{call} 8 at {}", words[2])
        }
        // By what an entry of 1 is, or flag 0x4 in version 1.
        "check" if !cowd && ["0", "5", "11", "12"].contains(&number) => {
            let (first, flag) = (case.bytes[4] == 1, case.bytes[8] & 0x4);
            format!("{call} {number} {first} {flag}")
        }
        "check_in" => format!("{call} {cowd} {}", marked(case, &words)),
        // By the dirty number, told or not.
        "header" if number == "0" => format!("{call} {number} {}", words[7] == "0"),
        "read" => format!("{call} {} {cowd}", number == "0"),
        "lookup" => {
            let at_1 = if words[5] == "1" { "at 1" } else { "" };
            format!("{call} {number} {} {cowd} {at_1}", words[4])
        }
        "chain" | "split" => format!("{call} {number} {}", words[4]),
        "profile" if number == "42" => {
            let place = words[2].parse().unwrap_or(0);
            format!("{call} {number} {}", part(&case.bytes, place))
        }
        "to_kdmv" | "to_cowd" if number == "0" => moved(case, call, words[3]),
        "to_kdmv" | "to_cowd" if number == "44" => {
            // By the grain size, or by a zero grain.
            let grain_size = head(&case.bytes).grain_size;
            format!("{call} {number} {grain_size}")
        }
        "normal" | "collapse" if number == "0" => {
            // By its length too, since the shortest results have no grain.
            let length: u64 = words[3].parse().unwrap_or(0);
            format!("{call} {number} {} {}", length == case.room, length / 8192)
        }
        "frame" if number == "0" => {
            let mut areas: Vec<&[&str]> = words[4..].chunks(3).collect();
            areas.truncate(words[3].parse().unwrap_or(0));
            let mut groups: Vec<&str> = areas.iter().map(|area| area[0]).collect();
            groups.dedup();
            // A table that an entry of 1 names, whatever else is there.
            let tables = [["5", "1", "4"], ["6", "1", "4"]];
            let at_1 = tables.iter().find(|table| areas.contains(&&table[..]));
            let group = at_1.map_or(groups.concat(), |table| table.concat());
            format!("{call} {number} {group}")
        }
        "survey" if number == "0" => {
            // By the kinds of grains among its totals.
            let some = words[3..7]
                .iter()
                .map(|count| u64::from(*count != "0").to_string());
            format!("{call} {number} {}", some.collect::<String>())
        }
        "normal" | "collapse" | "descriptor" | "find" => format!("{call} {number}"),
        _ => format!("{call} {number} {cowd}"),
    }
}

/// What kind of 43 it is: by the layer or the extent's file that is named, or by what the check that the moves keep would say.
fn gone(case: &Case, call: &str, named: &str) -> String {
    let named: usize = named.parse().unwrap_or(0);
    let mut lengths = case.lengths.iter().map(|length| *length as usize);
    let told = match call {
        "chain" => format!("{} {}", named == 0, named + 1 == lengths.len()),
        "split" => {
            let from = lengths.by_ref().take(1 + named).sum::<usize>();
            let file = &case.bytes[from..from + lengths.next().unwrap_or(0)];
            let magics: [&[u8]; 2] = [b"COWD", b"KDMV"];
            let magic = magics.iter().position(|magic| file.starts_with(magic));
            format!("{magic:?} {}", file.is_empty())
        }
        "collapse" => is_cowd(&case.bytes).to_string(),
        // All of a file's own rules but those of its header are one kind.
        _ => kept_check(&case.bytes).number.min(8).to_string(),
    };
    format!("{call} 43 {told}")
}

/// What kind of a move's answer it is: by the room, by whether a grain is stored, and whether capacity ends inside a grain.
fn moved(case: &Case, call: &str, length: &str) -> String {
    let head = head(&case.bytes);
    let whole = head.capacity % head.grain_size == 0;
    let last = head.capacity - 1;
    let stored = match is_cowd(&case.bytes) {
        true => grain_at(&case.bytes, last / head.grain_size) != 0,
        false => plain::lookup(&case.bytes, last).kind == STORED,
    };
    let exact = length == case.room.to_string();
    format!("{call} 0 {exact} {stored} {whole}")
}

/// What kind of answer of the check in a list it is: by footer, redundant directory and room, by the area that meets, by what
/// else would be answered, or by whether there was a list at all.
fn marked(case: &Case, words: &[&str]) -> String {
    let image = &case.bytes;
    let number = words[1];
    match number {
        "0" => {
            let (footer, redundant) = (image[56..64] == [255; 8], image[48..56] != [0; 8]);
            let rest = words.contains(&HELD);
            format!("{number} {footer} {redundant} {rest}")
        }
        "12" => that_meets(image, words[5].parse().unwrap_or(0)).to_string(),
        "21" => format!("{number} {}", plain::check(image).number),
        _ => format!("{number} {}", case.room > 0),
    }
}

/// The kinds of a closing's answer: its number, and its rows.
fn closed(case: &Case, line: &str) -> Vec<String> {
    let answer = plain::close(&case.bytes, &mut vec![0; case.room as usize]);
    let rows = starts::rows(answer, &case.bytes, case.room).into_iter();
    let kinds = rows.map(|row| format!("close, {row}"));
    kinds.chain([kind(case, line)]).collect()
}

/// The kinds of a lookup's steps: their answer, and their rows.
fn stepped(case: &Case, line: &str) -> Vec<String> {
    let words = line.split(' ').skip(1);
    let mut numbers = words.map(|word| word.parse().unwrap_or(0));
    let mut next = || numbers.next().unwrap_or(0);
    let told = Steps {
        number: next(),
        place: next(),
        one_is_zero: next(),
        grain: next(),
        directory_at: next(),
        directory_entry: next(),
        table_at: next(),
        table_entry: next(),
        kind: next(),
        sector: next(),
        size: next(),
        offset: next(),
    };
    let own = match told.number {
        0 => {
            // By what 1 means, and by both entries: 0, 1 or another.
            let [directory, table] =
                [told.directory_entry, told.table_entry].map(|entry| entry.min(2));
            format!(
                "steps 0 {} {directory} {table} {}",
                told.one_is_zero, told.kind
            )
        }
        _ => kind(case, line),
    };
    let rows = steps::rows(told, &case.bytes).into_iter();
    let kinds = rows.map(|row| format!("steps, {row}"));
    kinds.chain([own]).collect()
}

/// The kinds of a mending's answer: its number, with the good side, and what is told of it.
fn mended(case: &Case, line: &str) -> Vec<String> {
    let mut words = line
        .split(' ')
        .skip(1)
        .map(|word| word.parse().unwrap_or(0));
    let [number, place, count] = [(); 3].map(|()| words.next().unwrap_or(0));
    let answer = Mended {
        number,
        place,
        count,
    };
    let (good, room) = (case.lengths[0], case.lengths[1] as usize);
    let mut kinds = vec![format!("mend {number} {}", good != 0)];
    if number == 8 {
        kinds.push(format!("mend 8 at {place}"));
    }
    if count > 0 {
        let image = &case.bytes;
        let zeros = image[4] > 1 && image[8] & 0x4 != 0;
        let (packed, footer) = (image[77], image[56..64] == [255; 8]);
        kinds.push(format!("mend {number} {packed} {footer} {zeros}"));
    }
    for row in rows(answer, &case.bytes, good, room) {
        kinds.push(format!("mend {number} {row}"));
    }
    kinds
}

#[cfg(test)]
mod tests {
    use crate::cases::{Case, MOVE};
    use crate::input::Input;
    use crate::stored::root;
    use compare::cowd::is_cowd;
    use std::collections::BTreeSet;

    /// COWD's own rules are asked for by the moves alone: the stored cases reach each of them, and what the move adds.
    #[test]
    fn every_rule_of_cowd() {
        let bytes = std::fs::read(root().join("crates/cases/stdin")).unwrap();
        let mut input = Input::new(&bytes);
        let mut numbers = BTreeSet::new();
        while !input.is_empty() {
            let case = Case::read(&mut input);
            if case.asked == MOVE && is_cowd(&case.bytes) {
                let line = case.lines().remove(0);
                numbers.insert(line.split(' ').nth(1).unwrap().parse::<u64>().unwrap());
            }
        }
        assert!(
            numbers.iter().eq(&[0, 1, 3, 6, 8, 9, 12, 21, 27, 44]),
            "{numbers:?}"
        );
    }
}
