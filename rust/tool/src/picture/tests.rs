use super::kind::{Kind, KINDS};
use super::part::{Owner, Part};
use super::parts::Parts;
use super::sweep::{sweep, Run};
use super::titles::{title, Strip};
use anhkhovet::{Area, Group, Refusal};

/// Numbers as if by chance, the same in every run.
struct Chance(u64);

impl Chance {
    fn below(&mut self, end: u64) -> u64 {
        self.0 ^= self.0 << 13;
        self.0 ^= self.0 >> 7;
        self.0 ^= self.0 << 17;
        self.0 % end
    }
}

/// Parts in a row, of kinds by chance out of some, with grains by chance.
fn row(chance: &mut Chance, kinds: &[Kind], count: u64) -> Vec<Part> {
    let mut first = 0;
    let parts = (0..count).map(|number| {
        let kind = kinds[chance.below(kinds.len() as u64) as usize];
        let sectors = 1 + chance.below(300);
        let part = match kind {
            Kind::Stored | Kind::Packed => {
                let grain = chance.below(1000);
                Part::of_grains(first, sectors, kind, (grain, grain), number % 3 == 0)
            }
            kind => Part {
                areas: u64::from(kind.is_frame()),
                ..Part::new(first, sectors, kind)
            },
        };
        first += sectors;
        part
    });
    parts.collect()
}

/// The sectors of parts by kind, with those that are hidden, the areas and the grains.
fn sums(parts: &[Part]) -> (Vec<u64>, u64, u64, u64) {
    let kinds = KINDS
        .iter()
        .map(|(kind, ..)| parts.iter().map(|part| part.of(*kind)).sum());
    let sum = |count: fn(&Part) -> u64| parts.iter().map(count).sum();
    let grains = |part: &Part| part.grains.map_or(0, |grains| grains.count);
    (
        kinds.collect(),
        sum(|part| part.hidden),
        sum(|part| part.areas),
        sum(grains),
    )
}

/// Each part begins where the one before ends.
fn in_a_row(parts: &[Part], sectors: u64) {
    let mut at = 0;
    for part in parts {
        assert_eq!(
            (
                part.first,
                part.kinds().map(|(_, sectors)| sectors).sum::<u64>()
            ),
            (at, part.sectors)
        );
        at = part.end();
    }
    assert_eq!(at, sectors);
}

#[test]
fn never_too_many_and_nothing_lost() {
    let all = KINDS.map(|(kind, ..)| kind);
    let mixes: [&[Kind]; 5] = [
        &[Kind::Stored],
        &[Kind::Stored, Kind::Nothing, Kind::Packed],
        &[Kind::Stored, Kind::PrimaryTable],
        &[Kind::Stored, Kind::Shared, Kind::Refused],
        &all,
    ];
    let mut chance = Chance(29);
    for (mix, most) in mixes
        .into_iter()
        .flat_map(|mix| [1, 2, 7, 60, 900].map(|most| (mix, most)))
    {
        for count in [1, most as u64, 3000] {
            let row = row(&mut chance, mix, count);
            let sectors = row.last().map_or(0, Part::end);
            let mut parts = Parts::new(sectors, most);
            row.iter().for_each(|part| parts.push(part.clone()));
            let parts = parts.done();
            assert!(parts.len() <= most, "{} of {most}", parts.len());
            in_a_row(&parts, sectors);
            let (wanted, found) = (sums(&row), sums(&parts));
            // A grain that is met twice in a row is one.
            assert!(found.3 <= wanted.3);
            assert_eq!((found.0, found.1, found.2), (wanted.0, wanted.1, wanted.2));
            // Where there is room each stays by itself, but for what has no edge.
            let edged = |part: &&Part| matches!(part.main(), Kind::Stored | Kind::Packed);
            if count <= most as u64 {
                assert_eq!(
                    parts.iter().filter(edged).count(),
                    row.iter().filter(edged).count()
                );
                assert!(!parts.iter().any(|part| part.together));
            }
        }
    }
}

/// What a file has once stays by itself, however many grains there are, and most of the room is used.
#[test]
fn a_header_is_seen_beside_a_million_grains() {
    let header = Part {
        areas: 1,
        ..Part::new(0, 1, Kind::Header)
    };
    let grains = 1 << 20;
    let mut parts = Parts::new(1 + grains, 500);
    parts.push(header.clone());
    for grain in 0..grains {
        let kind = if grain % 5 == 0 {
            Kind::Nothing
        } else {
            Kind::Stored
        };
        parts.push(Part::of_grains(1 + grain, 1, kind, (grain, grain), false));
    }
    let parts = parts.done();
    assert_eq!(parts[0], header);
    assert!(parts.len() > 250, "{}", parts.len());
    assert!(parts[1..].iter().all(|part| part.together));
}

/// How often each sector is taken, and by what kind.
fn marked(areas: &[Area], runs: &[Run], sectors: u64) -> Vec<Vec<Kind>> {
    let mut marks = vec![Vec::new(); sectors as usize];
    let areas = areas
        .iter()
        .map(|area| (area.first, area.sectors, Kind::of_group(area.group)));
    let runs = runs.iter().map(|run| {
        (
            run.at,
            run.sectors,
            if run.packed {
                Kind::Packed
            } else {
                Kind::Stored
            },
        )
    });
    for (first, count, kind) in areas.chain(runs) {
        for sector in first..(first + count).min(sectors) {
            marks[sector as usize].push(kind);
        }
    }
    marks
}

const SECTORS: u64 = 400;

/// Three areas and four runs of grains of 8 sectors, anywhere in a file.
fn anywhere(chance: &mut Chance) -> (Vec<Area>, Vec<Run>) {
    let groups = [
        Group::Header,
        Group::Descriptor,
        Group::PrimaryTable,
        Group::RedundantTable,
    ];
    let mut chosen = |most: u64| {
        (
            chance.below(SECTORS - 8 * most),
            1 + chance.below(most),
            chance.below(4),
        )
    };
    let areas = (0..3)
        .map(|_| chosen(40))
        .map(|(first, sectors, group)| Area {
            group: groups[group as usize],
            first,
            sectors,
        });
    let areas = areas.collect();
    let runs = (0..4).map(|number| (number, chosen(9)));
    let runs = runs.map(|(number, (at, grains, by))| Run {
        at,
        sectors: if by == 0 { grains } else { 8 * grains },
        grain: 100 * number,
        packed: by == 0,
        hidden: by == 1,
    });
    (areas, runs.collect())
}

#[test]
fn each_sector_is_what_takes_it() {
    let mut chance = Chance(12);
    let mut shared = 0;
    for _ in 0..600 {
        let (areas, runs) = anywhere(&mut chance);
        let marks = marked(&areas, &runs, SECTORS);
        let parts = sweep(areas, runs, 8, Parts::new(SECTORS, 900), SECTORS);
        in_a_row(&parts, SECTORS);
        for part in &parts {
            shared += part.of(Kind::Shared);
            for sector in part.first..part.end() {
                let wanted = match marks[sector as usize].as_slice() {
                    [] => Kind::Nothing,
                    [kind] => *kind,
                    _ => Kind::Shared,
                };
                assert_eq!(part.main(), wanted, "sector {sector}");
            }
        }
    }
    assert!(shared > 1000, "{shared}");
}

/// Two runs of grains that meet in one sector.
#[test]
fn who_shares_is_told() {
    let run = |at, grain| Run {
        at,
        sectors: 16,
        grain,
        packed: false,
        hidden: false,
    };
    let parts = sweep(
        Vec::new(),
        vec![run(15, 7), run(0, 2)],
        8,
        Parts::new(40, 10),
        40,
    );
    let told: Vec<String> = parts.iter().map(|part| title(Strip::File, part)).collect();
    let wanted = [
        "grain 2, stored: file sectors 0 to 7",
        "grain 3, stored: file sectors 8 to 14",
        "in two areas: file sector 15; here are grain 3 and grain 7",
        "grain 7, stored: file sectors 16 to 22",
        "grain 8, stored: file sectors 23 to 30",
        "nothing holds these: file sectors 31 to 39",
    ];
    assert_eq!(told, wanted);
    let sharing = parts[2].sharing.expect("two areas");
    assert_eq!(
        (sharing.one, sharing.other),
        (Owner::Grains(3, 3), Owner::Grains(7, 7))
    );
}

#[test]
fn what_is_put_together_is_told() {
    let mut part = Part::of_grains(128, 1536, Kind::Stored, (3, 14), false);
    part.together = true;
    assert_eq!(
        title(Strip::File, &part),
        "put together: 12 grains, 3 to 14, stored: file sectors 128 to 1,663"
    );
    part.join(&Part::of_grains(1664, 128, Kind::Stored, (1, 1), true));
    let told = "put together: 13 grains between 1 and 14, not in order, stored: file sectors 128 to 1,791; \
                128 sectors hidden by a layer above";
    assert_eq!(title(Strip::File, &part), told);
    part.join(&Part::new(1792, 4, Kind::PrimaryTable));
    assert!(title(Strip::File, &part)
        .starts_with("put together: tables (4 sectors), stored (1,664 sectors); 13 grains"));
    let refused = Part {
        refused: Some(Refusal {
            number: 9,
            place: 7,
        }),
        ..Part::of_grains(896, 128, Kind::Refused, (7, 7), false)
    };
    let told = "grain 7, refused: virtual sectors 896 to 1,023; refused 9 at grain 7: the grain runs past the end of the file";
    assert_eq!(title(Strip::Disk, &refused), told);
}
