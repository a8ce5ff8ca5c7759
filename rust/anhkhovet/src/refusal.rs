//! Why a call gives no answer.

use std::error::Error;
use std::fmt;

/// A refusal by document 01's rules. Shown, it is its number, its place where that counts something, and a sentence.
#[derive(Clone, Copy, Debug, PartialEq, Eq, Hash)]
pub struct Refusal {
    /// Document 01's number: 1 to 12 of an image, 20 to 24, 27, 40 to 42, 44 and 47 of what is asked, 30 to 36 of a text, 38,
    /// 39 and 45 of an extent, 43 of a COWD image or an extent of one.
    pub number: u64,
    /// The part, the grain, the byte or the line at fault, as [`Refusal::counted`] says, else 0.
    pub place: u64,
}

/// What refusal 8 finds outside the file, in the order of its places from 1 on. Where several parts lie outside, the place is the
/// lowest. A lookup judges, and so names, [`Directory`](MisplacedPart::Directory) and
/// [`PrimaryTable`](MisplacedPart::PrimaryTable) alone.
///
#[doc = concat!("```\n", include_str!("../examples/misplaced.rs"), "```")]
#[derive(Clone, Copy, Debug, PartialEq, Eq, Hash)]
pub enum MisplacedPart {
    /// The text inside the image; also where only one of its two numbers is zero.
    Descriptor,
    /// The directory that lookups go by; also where its sector is 0.
    Directory,
    /// Its copy.
    RedundantDirectory,
    /// A table that the directory names.
    PrimaryTable,
    /// A table that the copy names.
    RedundantTable,
}

/// What a refusal's place counts.
#[derive(Clone, Copy, Debug, PartialEq, Eq)]
pub enum Counted {
    /// It counts nothing, and names the part that does not lie inside the file.
    Part(MisplacedPart),
    /// Grains of the image, from 0.
    Grain,
    /// Bytes of the file, from 0.
    Byte,
    /// Lines of the text, from 1.
    Line,
    /// The place is 0 and says nothing.
    Nothing,
}

/// A refusal of a chain, and the layer that was met.
#[derive(Clone, Copy, Debug, PartialEq, Eq, Hash)]
pub struct ChainRefusal {
    /// Why.
    pub refusal: Refusal,
    /// The layer, from 0 at the base; 0 also where the whole chain is refused.
    pub layer: u64,
}

impl MisplacedPart {
    /// The part of a place of refusal 8; none where that is no place of it.
    fn of(place: u64) -> Option<MisplacedPart> {
        match place {
            1 => Some(MisplacedPart::Descriptor),
            2 => Some(MisplacedPart::Directory),
            3 => Some(MisplacedPart::RedundantDirectory),
            4 => Some(MisplacedPart::PrimaryTable),
            5 => Some(MisplacedPart::RedundantTable),
            _ => None,
        }
    }

    /// What is wrong with it, in words.
    pub fn words(self) -> &'static str {
        match self {
            MisplacedPart::Descriptor => {
                "the descriptor does not lie inside the file, or only one of its two numbers is zero"
            }
            MisplacedPart::Directory => {
                "the directory does not lie inside the file, or its sector is 0"
            }
            MisplacedPart::RedundantDirectory => {
                "the redundant directory does not lie inside the file"
            }
            MisplacedPart::PrimaryTable => "a primary table does not lie inside the file",
            MisplacedPart::RedundantTable => "a redundant table does not lie inside the file",
        }
    }
}

impl Refusal {
    /// No refusal where the number is 0.
    pub(crate) fn unless_zero(number: u64, place: u64) -> Result<(), Refusal> {
        if number == 0 {
            Ok(())
        } else {
            Err(Refusal { number, place })
        }
    }

    /// What does not lie inside the file, by the place of refusal 8.
    pub fn part(&self) -> Option<MisplacedPart> {
        match self.number {
            8 => MisplacedPart::of(self.place),
            _ => None,
        }
    }

    /// What the place counts.
    pub fn counted(&self) -> Counted {
        if let Some(part) = self.part() {
            return Counted::Part(part);
        }
        match self.number {
            9 | 10 => Counted::Grain,
            42 => Counted::Byte,
            32..=34 if self.place > 0 => Counted::Line,
            _ => Counted::Nothing,
        }
    }

    /// What the number means, in words; of 8 with what sticks out. Without its place, as a tally of numbers has it, 8 names all
    /// that may.
    pub fn sentence(&self) -> &'static str {
        if let Some(part) = self.part() {
            return part.words();
        }
        match self.number {
            1 => "the file is too short to hold a header",
            2 => "the file begins with neither KDMV nor COWD, so it is no sparse image",
            3 => "the header has a version that is not known",
            4 => "the header's newline bytes are damaged, as by a copy in text mode",
            5 => {
                "the header's version, flags, compression and directory sector do not fit together"
            }
            6 => "the header's capacity, grain size or number of entries is not allowed",
            7 => "the file needs a footer, and its last sectors are not a right one",
            8 => "the descriptor, a directory or a table does not lie inside the file",
            9 => "the grain runs past the end of the file",
            10 => "the packed grain's marker names another sector or has size 0",
            11 => "the redundant directory and its tables are not equal to the primary ones",
            12 => "two areas of the file share a sector",
            20 => "the sector is at or past the end of the disk",
            21 => "the output or the list is too short for the result",
            22 => "the images do not have the same capacity and grain size",
            23 => "collapse, normal form, lab profile and moves take no compressed image, and a move takes the other kind alone",
            24 => "a chain has 1 to 16 layers, a survey 1 to 1,024 images, a disk of several files one for each extent",
            27 => "the disk was still open when it was copied: shut the machine down and copy it again",
            30 => "the first line is not \"# Disk DescriptorFile\"",
            31 => "there is text after a zero byte",
            32 => "the line is neither an extent nor of the form key = value",
            33 if self.place > 0 => {
                "this line's key is there twice or has a value of the wrong form"
            }
            33 => "version, CID, parentCID or createType is missing",
            34 => "the extent line has a field missing, wrong or too many",
            35 => "there is no extent, or more than 32, or their sectors add up to over 2^31",
            36 => "the descriptor is longer than 65,536 bytes",
            38 => "the image's capacity is not the number of sectors of its extent",
            39 => "the extent is NOACCESS",
            40 => {
                "the image cannot be mended from that side: it has one directory only, its two directories name tables in \
                 different places, header, footer, directories or tables share a sector, or it would still be refused"
            }
            41 => {
                "the file is no start of a stream that can be closed: that has its directory at the end and no redundant one, at \
                 most 2^31 sectors, grains from sector 2 on at least, and its descriptor, if any, before them"
            }
            42 => "from here on the file is not its own normal form",
            43 => "it is a COWD image, or by its line an extent of one, and those are only moved to KDMV",
            44 => "a grain of under 8 sectors has no place in KDMV, and a grain marked as zeros none in COWD",
            45 => "the file is not of its extent's type, or is too short for its sectors",
            47 => "the lab profile has grains of 128 sectors and a capacity that is a multiple of 128",
            _ => "a rule of the format is broken",
        }
    }
}

impl ChainRefusal {
    /// The layer at fault; none where the whole chain is refused.
    pub fn layer_at_fault(&self) -> Option<u64> {
        match self.refusal.number {
            20 | 22 | 24 => None,
            _ => Some(self.layer),
        }
    }
}

impl fmt::Display for Refusal {
    fn fmt(&self, to: &mut fmt::Formatter) -> fmt::Result {
        write!(to, "refused {}", self.number)?;
        match self.counted() {
            Counted::Grain => write!(to, " at grain {}", self.place)?,
            Counted::Byte => write!(to, " at byte {}", self.place)?,
            Counted::Line => write!(to, " at line {}", self.place)?,
            // The sentence has the part.
            Counted::Part(_) | Counted::Nothing => {}
        }
        write!(to, ": {}", self.sentence())
    }
}

impl fmt::Display for ChainRefusal {
    fn fmt(&self, to: &mut fmt::Formatter) -> fmt::Result {
        if let Some(layer) = self.layer_at_fault() {
            write!(to, "layer {layer}: ")?;
        }
        self.refusal.fmt(to)
    }
}

impl Error for Refusal {}

impl Error for ChainRefusal {}
