//! The write-protect notch.

/// The write-protect notch of a disk. With it closed everything that could change the image is refused with
/// [`Status::WriteProtected`](crate::Status::WriteProtected), before names are read; what only reads is served as ever.
///
/// ```
/// use hilugsaban::{Direction, Disk, Notch, Status, WRITING};
///
/// let mut disk = Disk::fresh();
/// disk.open(0, Direction::Write, "A")?;
/// let image = disk.image().to_vec();
///
/// disk.set_notch(Notch::Closed);
/// assert_eq!(disk.close(0), Err(Status::WriteProtected));
/// assert_eq!(disk.table().channel(0).kind, WRITING);
/// assert_eq!(disk.delete("A"), Err(Status::WriteProtected));
/// assert_eq!(disk.image(), image);
///
/// disk.set_notch(Notch::Open);
/// disk.close(0)?;
/// disk.delete("A")?;
/// # Ok::<(), Status>(())
/// ```
#[derive(Clone, Copy, PartialEq, Eq, Debug, Default)]
#[repr(u8)]
pub enum Notch {
    /// The image may be changed.
    #[default]
    Open = 0,
    /// The image stays as it is.
    Closed = 1,
}
