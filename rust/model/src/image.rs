//! Request P13: what an image is. A raw image is the sectors of a single density disk; an ATR
//! image has a header of 16 bytes in front of its sectors, of single or double density.
//!
//! The length of a lent image tells which it is, and the header of an ATR image has to agree.

use std::ops::Range;

use crate::directory::slot_start;
use crate::disk::{Density, Double, Single};
use crate::fault::{Fault, Variant};
use crate::status::{Outcome, Status};
use crate::{Model, RIGHT};

/// Bytes of a header.
pub const HEADER: usize = 16;
/// The bytes of a header that have to agree. The others are written as zero.
pub const AGREEING: usize = 7;
/// The bytes that a header begins with.
const SIGNATURE: [u8; 2] = [0x96, 0x02];
/// A header gives the length of the sectors in units of so many bytes.
const UNIT: usize = 16;

/// What an image is.
#[derive(Clone, Copy, Debug, PartialEq, Eq, PartialOrd, Ord)]
pub enum Kind {
    Raw,
    AtrSingle,
    AtrDouble,
}

impl Kind {
    pub const ALL: [Kind; 3] = [Kind::Raw, Kind::AtrSingle, Kind::AtrDouble];

    /// The kind that an image of that length can be.
    pub const fn of_length(length: usize) -> Option<Kind> {
        const RAW: usize = Kind::Raw.length();
        const ATR_SINGLE: usize = Kind::AtrSingle.length();
        const ATR_DOUBLE: usize = Kind::AtrDouble.length();
        match length {
            RAW => Some(Kind::Raw),
            ATR_SINGLE => Some(Kind::AtrSingle),
            ATR_DOUBLE => Some(Kind::AtrDouble),
            _ => None,
        }
    }

    /// Bytes of an image.
    pub const fn length(self) -> usize {
        self.header_length() + self.in_density(Single::DISK, Double::DISK)
    }

    /// Bytes in front of the sectors.
    pub const fn header_length(self) -> usize {
        match self {
            Kind::Raw => 0,
            Kind::AtrSingle | Kind::AtrDouble => HEADER,
        }
    }

    /// Data bytes of a file sector.
    pub const fn data(self) -> usize {
        self.in_density(Single::DATA, Double::DATA)
    }

    /// Bytes of a sector.
    pub fn sector_size(self, sector: u16) -> usize {
        self.in_density(Single::size(sector), Double::size(sector))
    }

    /// Where a sector begins in the image.
    pub fn sector_start(self, sector: u16) -> usize {
        self.header_length() + self.in_density(Single::start(sector), Double::start(sector))
    }

    /// Where a slot of the directory begins in the image.
    pub fn slot_start(self, slot: u8) -> usize {
        let (single, double) = (slot_start::<Single>(slot), slot_start::<Double>(slot));
        self.header_length() + self.in_density(single, double)
    }

    /// That of two which the image's density has.
    const fn in_density(self, single: usize, double: usize) -> usize {
        match self {
            Kind::Raw | Kind::AtrSingle => single,
            Kind::AtrDouble => double,
        }
    }

    /// The header that an ATR image has.
    pub fn header(self) -> Option<[u8; HEADER]> {
        RIGHT.header_of(self)
    }

    /// The image of a fresh disk.
    pub fn fresh(self) -> Vec<u8> {
        let mut image = vec![0; self.length()];
        if let Some(header) = self.header() {
            image[..HEADER].copy_from_slice(&header);
        }
        let disk = RIGHT.disk_mut(&mut image).expect("an image of the kind");
        on_disk!(disk, disk => RIGHT.clear(disk));
        image
    }
}

/// The sectors of an image, as those of a disk of one of the two densities.
pub(crate) enum Disk<S, D> {
    Single(S),
    Double(D),
}

/// The same on a disk of either density.
macro_rules! on_disk {
    ($image:expr, $disk:ident => $body:expr) => {
        match $image {
            $crate::image::Disk::Single($disk) => $body,
            $crate::image::Disk::Double($disk) => $body,
        }
    };
}
pub(crate) use on_disk;

impl<S, D> Disk<S, D> {
    /// The sectors of an image of that kind.
    fn of<T: TryInto<S> + TryInto<D>>(kind: Kind, sectors: T) -> Result<Self, Status> {
        let disk = match kind {
            Kind::Raw | Kind::AtrSingle => sectors.try_into().map(Disk::Single).ok(),
            Kind::AtrDouble => sectors.try_into().map(Disk::Double).ok(),
        };
        disk.ok_or(Status::WrongImage)
    }
}

/// The image is one that the calls serve.
pub fn is_served(image: &[u8]) -> bool {
    RIGHT.kind(image).is_ok()
}

/// Clears the header of an ATR image: what format must not do.
pub(crate) fn clear_header(image: &mut [u8]) {
    if Kind::of_length(image.len()) != Some(Kind::Raw) {
        image[..HEADER].fill(0);
    }
}

impl<V: Variant> Model<V> {
    /// The disk of a lent image: 203, then 205.
    pub(crate) fn disk(self, image: &[u8]) -> Result<Disk<&Single, &Double>, Status> {
        let kind = self.kind(image)?;
        Disk::of(kind, &image[self.sectors(kind)])
    }

    /// The same, to be changed.
    pub(crate) fn disk_mut(
        self,
        image: &mut [u8],
    ) -> Result<Disk<&mut Single, &mut Double>, Status> {
        let kind = self.kind(image)?;
        Disk::of(kind, &mut image[self.sectors(kind)])
    }

    /// What a lent image is: 203 for any other length, then 205 for a header that does not agree
    /// with the length.
    fn kind(self, image: &[u8]) -> Result<Kind, Status> {
        let Some(kind) = Kind::of_length(image.len()) else {
            return Err(self.length_refusal(image));
        };
        let agrees = match kind {
            Kind::Raw => true,
            Kind::AtrSingle => self.agrees::<Single>(image),
            Kind::AtrDouble => self.agrees::<Double>(image),
        };
        agrees.then_some(kind).ok_or(Status::WrongHeader)
    }

    /// 203; or for the fault that looks at the header first, 205.
    fn length_refusal(self, image: &[u8]) -> Status {
        if self.wrong(Fault::HeaderBeforeLength) && !image.starts_with(&SIGNATURE) {
            Status::WrongHeader
        } else {
            Status::WrongImage
        }
    }

    /// The image begins with the header of its density.
    fn agrees<D: Density>(self, image: &[u8]) -> bool {
        let agreeing = self.agreeing();
        image[..agreeing] == self.header_in::<D>()[..agreeing]
    }

    /// How many bytes of a header have to agree.
    fn agreeing(self) -> usize {
        if self.wrong(Fault::HeaderWhole) {
            HEADER
        } else if self.wrong(Fault::HeaderWithoutHighByte) {
            AGREEING - 1
        } else {
            AGREEING
        }
    }

    /// Where the sectors lie in an image.
    fn sectors(self, kind: Kind) -> Range<usize> {
        if self.wrong(Fault::HeaderNotSkipped) {
            return 0..kind.length() - kind.header_length();
        }
        kind.header_length()..kind.length()
    }

    /// The header of an image of that kind.
    fn header_of(self, kind: Kind) -> Option<[u8; HEADER]> {
        match kind {
            Kind::Raw => None,
            Kind::AtrSingle => Some(self.header_in::<Single>()),
            Kind::AtrDouble => Some(self.header_in::<Double>()),
        }
    }

    /// The header of a density. Its length is in units, low bytes at 2 and 3, high byte at 6; the
    /// sector size is at 4 and 5.
    fn header_in<D: Density>(self) -> [u8; HEADER] {
        let unit = if self.wrong(Fault::HeaderInBytes) {
            1
        } else {
            UNIT
        };
        let [low, middle, high, _] = ((D::DISK / unit) as u32).to_le_bytes();
        let [size_low, size_high] = (D::SECTOR as u16).to_le_bytes();
        let [first, second] = SIGNATURE;
        let mut header = [0; HEADER];
        header[..AGREEING]
            .copy_from_slice(&[first, second, low, middle, size_low, size_high, high]);
        header
    }

    /// Writes the header into an image of either ATR length, whatever is there: 203, then 144.
    pub(crate) fn run_header(self, image: &mut [u8], notch: u8) -> Outcome {
        if self.wrong(Fault::NotchBeforeLength) {
            self.require_open_notch(notch)?;
        }
        let kind = match Kind::of_length(image.len()).ok_or(Status::WrongImage)? {
            Kind::Raw if self.wrong(Fault::HeaderIntoRaw) => Kind::AtrSingle,
            kind => kind,
        };
        let header = self.header_of(kind).ok_or(Status::WrongImage)?;
        self.require_open_notch(notch)?;
        if self.wrong(Fault::OldHeaderLookedAt) {
            self.kind(image)?;
        }
        let written = if self.wrong(Fault::HeaderRestKept) {
            AGREEING
        } else {
            HEADER
        };
        image[..written].copy_from_slice(&header[..written]);
        Ok(0)
    }
}
