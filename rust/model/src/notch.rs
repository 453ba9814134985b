//! Request P4: the write-protect notch. With it closed, everything that could change the image is
//! refused, before names are read.

use crate::fault::{Fault, Variant};
use crate::status::Status;
use crate::Model;

impl<V: Variant> Model<V> {
    /// 144. A notch of 0 is open, any other closed (a rule of the C interface).
    pub(crate) fn require_open_notch(self, notch: u8) -> Result<(), Status> {
        let open = notch == 0 || self.wrong(Fault::NotchOneOnly) && notch != 1;
        open.then_some(()).ok_or(Status::Protected)
    }
}
