//! "Showing": the bytes in use of one sector, as a part of the lent image.

use std::ops::Range;

use crate::directory::as_slot;
use crate::disk::Density;
use crate::fault::{Fault, Variant};
use crate::image::{on_disk, Kind};
use crate::Model;

impl<V: Variant> Model<V> {
    /// The part of the image, if it is served and get, with sectors left, could enter the sector
    /// for the slot. Nothing is asked of the directory or the map.
    pub(crate) fn shown(self, image: &[u8], slot: u8, sector: u16) -> Option<Range<usize>> {
        let disk = self.disk(image).ok()?;
        let Range { start, end } = on_disk!(disk, disk => self.shown_on(disk, slot, sector))?;
        let header = if self.wrong(Fault::ShowWithoutHeader) {
            0
        } else {
            Kind::of_length(image.len())?.header_length()
        };
        Some(header + start..header + end)
    }

    /// The part of the disk.
    fn shown_on<D: Density>(self, disk: &D, slot: u8, sector: u16) -> Option<Range<usize>> {
        let used = self.bytes_in_use(disk, as_slot(slot.into())?, sector)?;
        if used.is_empty() && self.wrong(Fault::ShowUnused) {
            return None;
        }
        let length = if self.wrong(Fault::ShowWholeSector) {
            D::DATA
        } else {
            used.len()
        };
        let start = D::start(sector);
        Some(start..start + length)
    }
}
