//! An image mended from one of its sides, in own bytes, with the list of what that changes.

use crate::alike::disk;
use crate::changes::Changed;
use crate::failure::{Failure, Refusal};
use crate::files::Layers;
use crate::own::Own;
use crate::unmendable::ground;
use crate::write::refusal;
use anhkhovet::{Disk, Group, Side, CHANGE, SECTOR};

/// The refusal of an image that cannot be mended from that side.
pub const NOT_MENDABLE: u64 = 40;

pub struct Mended {
    /// Its own bytes are as they are then.
    pub image: Layers,
    pub disk: Disk,
    pub good: Side,
    /// Entries that differed.
    pub count: u64,
    /// It could be mended from the other side too.
    pub either: bool,
    list: Own,
}

pub fn word(side: Side) -> &'static str {
    match side {
        Side::Primary => "primary",
        Side::Redundant => "redundant",
    }
}

pub fn other(side: Side) -> Side {
    match side {
        Side::Primary => Side::Redundant,
        Side::Redundant => Side::Primary,
    }
}

/// Room for as many changes as there can be: what is not needed of it takes no memory.
fn list(image: &Layers) -> Result<Own, Failure> {
    let areas = image.frame(0).iter();
    let tables = areas.filter(|area| area.group == Group::RedundantTable);
    let entries: u64 = tables.map(|table| table.sectors * SECTOR / 4).sum();
    Own::new(8 * CHANGE * entries as usize).map_err(Failure::system(
        image.path(0),
        "has too many entries for a list of them",
    ))
}

impl Mended {
    pub fn of(mut image: Layers, good: Side) -> Result<Mended, Failure> {
        // Where anything differs a list without room is refused, last of all, and nothing is changed.
        let either = refusal(image.mend(other(good), &mut [])?).is_none();
        let mut list = list(&image)?;
        let answer = image.mend(good, list.words_mut())?;
        image.same()?;
        match answer {
            Ok(count) => Ok(Mended {
                disk: disk(image.bytes(0)).map_err(Failure::refused(image.path(0)))?,
                image,
                good,
                count,
                either,
                list,
            }),
            Err(why) => Err(Failure::Refused(refused(&mut image, good, either, why))),
        }
    }

    /// All changes, in order, with what they mean.
    pub fn changes(&mut self) -> impl Iterator<Item = Result<Changed, Failure>> + '_ {
        let (image, disk) = (&mut self.image, self.disk);
        let changes = anhkhovet::changes(self.list.words(), self.count);
        changes.map(move |change| Changed::of(image, disk, change))
    }
}

fn refused(image: &mut Layers, good: Side, either: bool, why: anhkhovet::Refusal) -> Refusal {
    let mut refusal = Refusal::new(why, Some(image.path(0)));
    if why.number == NOT_MENDABLE {
        refusal.detail = ground(image, good);
        if either {
            let side = word(other(good));
            refusal.detail += &format!("; from its {side} tables it can be mended");
        }
    }
    refusal
}

#[cfg(test)]
mod tests;
