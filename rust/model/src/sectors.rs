//! "Sectors": the two SIO sector commands.

use crate::disk::{Density, Single, SECTORS};
use crate::fault::{Fault, Variant};
use crate::image::on_disk;
use crate::status::{Outcome, Status};
use crate::Model;

/// The disk drives' device number, and the one unit served.
const DEVICE: u8 = 0x31;
const UNIT: u8 = 1;

/// The commands: a read, and two writes with the same effect.
const READ: u8 = 0x52;
const WRITES: [u8; 2] = [0x50, 0x57];

/// What one sector call asks for, apart from what it is lent.
pub(crate) struct Request {
    pub notch: u8,
    pub device: u8,
    pub unit: u8,
    pub command: u8,
    pub sector: u16,
}

impl Request {
    /// 138 for another device or unit.
    fn require_unit(&self) -> Result<(), Status> {
        if self.device != DEVICE || self.unit != UNIT {
            return Err(Status::WrongUnit);
        }
        Ok(())
    }
}

impl<V: Variant> Model<V> {
    /// 203 and 205, then the sector.
    pub(crate) fn run_sector(
        self,
        image: &mut [u8],
        request: Request,
        buffer: &mut [u8],
    ) -> Outcome {
        let disk = self.disk_mut(image);
        if self.wrong(Fault::UnitBeforeHeader) && matches!(disk, Err(Status::WrongHeader)) {
            request.require_unit()?;
        }
        on_disk!(disk?, disk => self.move_sector(disk, request, buffer))
    }

    /// 138; 139 for another command or no sector of the disk; 144 for a write; 204 for a buffer
    /// that has not the sector's own size, which is reported.
    fn move_sector<D: Density>(self, disk: &mut D, request: Request, buffer: &mut [u8]) -> Outcome {
        request.require_unit()?;
        let Request {
            notch,
            command,
            sector,
            ..
        } = request;
        let size = self.sector_size::<D>(sector);
        let size_fits = (buffer.len() == size)
            .then_some(())
            .ok_or(Status::WrongBuffer);
        if self.wrong(Fault::BufferFirst) {
            size_fits?;
        }
        let protected = WRITES.contains(&command) || self.wrong(Fault::NotchOfSectorReads);
        if self.wrong(Fault::NotchBeforeSector) && protected {
            self.require_open_notch(notch)?;
        }
        let served = command == READ || WRITES.contains(&command);
        let last = SECTORS - u16::from(self.wrong(Fault::LastSector));
        if !served || !(1..=last).contains(&sector) {
            return Err(Status::WrongSector.into());
        }
        if self.wrong(Fault::NotchAfterBuffer) {
            size_fits?;
        }
        if protected {
            self.require_open_notch(notch)?;
        }
        size_fits?;
        let at = self.sector_place::<D>(sector);
        let place = &mut disk[at..at + size];
        if command == READ {
            buffer.copy_from_slice(place);
        } else {
            let written = size - usize::from(self.wrong(Fault::WriteShort));
            place[..written].copy_from_slice(&buffer[..written]);
        }
        Ok(if self.wrong(Fault::ReportsSingle) {
            Single::SECTOR
        } else {
            size
        })
    }

    /// The size of a sector.
    fn sector_size<D: Density>(self, sector: u16) -> usize {
        if self.wrong(Fault::BootSectorsLong) {
            D::SECTOR
        } else {
            D::size(sector)
        }
    }

    /// Where a sector call finds a sector.
    fn sector_place<D: Density>(self, sector: u16) -> usize {
        let start = D::start(sector);
        let shifted = self.wrong(Fault::FourthSectorEarly) && D::size(sector) > Single::SECTOR;
        start - if shifted { Single::SECTOR } else { 0 }
    }
}
