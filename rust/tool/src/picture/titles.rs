//! What is said of a part under the pointer.

use super::kind::Kind;
use super::numbers::{counted, grouped, range};
use super::part::{Owner, Part};
use super::span::Span;

/// What a strip is of.
#[derive(Clone, Copy, PartialEq, Eq)]
pub enum Strip {
    File,
    /// What a layer has of the disk.
    Layer,
    Disk,
}

impl Strip {
    fn sectors(self, part: &Part) -> String {
        let of = if self == Strip::File {
            "file"
        } else {
            "virtual"
        };
        let word = if part.sectors == 1 {
            "sector"
        } else {
            "sectors"
        };
        format!("{of} {word} {}", range(part.first, part.sectors))
    }
}

/// Of a disk with grains of so many sectors.
pub fn title(strip: Strip, part: &Part) -> String {
    let mut kinds = part.kinds();
    let single = matches!((kinds.next(), kinds.next()), (Some(_), None));
    let what = if single {
        what(part)
    } else {
        let all: Vec<String> = part
            .kinds()
            .map(|(kind, sectors)| share(kind, sectors))
            .collect();
        let grains = part
            .grains
            .map_or(String::new(), |grains| format!("; {}", named(&grains)));
        format!("{}{grains}", all.join(", "))
    };
    let together = if part.together { "put together: " } else { "" };
    format!(
        "{together}{what}: {}{}",
        strip.sectors(part),
        beside(strip, part)
    )
}

/// What a part of one kind is.
fn what(part: &Part) -> String {
    let kind = part.main();
    match (kind, part.grains) {
        (Kind::Shared, _) => "in two areas".to_string(),
        (Kind::Nothing, _) => "nothing holds these".to_string(),
        (kind, Some(grains)) => format!("{}, {}", named(&grains), kind.word()),
        (kind, None) if part.areas > 1 => {
            format!("{} {}", grouped(part.areas), kind.words(part.areas))
        }
        (kind, None) => kind.word().to_string(),
    }
}

fn share(kind: Kind, sectors: u64) -> String {
    let word = match kind {
        Kind::PrimaryTable | Kind::RedundantTable => kind.words(2),
        kind => kind.word(),
    };
    format!("{word} ({})", counted(sectors, "sector", "sectors"))
}

/// Which grains these are.
fn named(grains: &Span) -> String {
    let Span {
        count,
        lowest,
        highest,
        ..
    } = *grains;
    match (count, grains.in_order) {
        (1, _) => format!("grain {}", grouped(lowest)),
        (_, true) => format!(
            "{} grains, {} to {}",
            grouped(count),
            grouped(lowest),
            grouped(highest)
        ),
        (_, false) => format!(
            "{} grains between {} and {}, not in order",
            grouped(count),
            grouped(lowest),
            grouped(highest)
        ),
    }
}

/// What else there is to say.
fn beside(strip: Strip, part: &Part) -> String {
    let mut told = String::new();
    if let Some(sharing) = part.sharing {
        let more = if sharing.more { ", and others" } else { "" };
        told += &format!(
            "; here are {} and {}{more}",
            owner(sharing.one),
            owner(sharing.other)
        );
    }
    if let Some(refusal) = part.refused {
        let first = if part.grains.map_or(false, |grains| grains.count > 1) {
            "the first is "
        } else {
            ""
        };
        told += &format!("; {first}{refusal}");
    }
    if strip == Strip::Disk && part.layers != 0 {
        let layers: Vec<String> = (0..16)
            .filter(|layer| part.layers >> layer & 1 == 1)
            .map(|layer: u32| layer.to_string())
            .collect();
        let word = if layers.len() == 1 { "layer" } else { "layers" };
        if part.held() > 0 {
            told += &format!("; from {word} {}", layers.join(", "));
        }
    }
    if part.hidden > 0 {
        told += &match part.hidden == part.held() {
            true => "; hidden by a layer above".to_string(),
            false => format!(
                "; {} hidden by a layer above",
                counted(part.hidden, "sector", "sectors")
            ),
        };
    }
    told
}

fn owner(owner: Owner) -> String {
    match owner {
        Owner::Area(kind) => format!("the {}", kind.word()),
        Owner::Grains(first, last) if first == last => format!("grain {}", grouped(first)),
        Owner::Grains(first, last) => format!("grains {}", range(first, last - first + 1)),
    }
}
