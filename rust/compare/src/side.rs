//! The two sides of a comparison, behind one trait.

#[cfg(feature = "proved")]
use hilugsaban::raw;
use model::fault::Variant;
use model::{Model, Request, RIGHT};

/// Something that answers the eight calls of the C interface.
pub trait Side {
    /// One CIO command on a channel of the table.
    fn cio(&self, image: &mut [u8], table: &mut [u16], request: &mut Request) -> u64;

    /// Recovery of a deleted file.
    fn recover(&self, image: &mut [u8], notch: u8, slot: u8) -> u64;

    /// One sector read or written.
    #[allow(clippy::too_many_arguments, reason = "those of the C interface")]
    fn sector(
        &self,
        image: &mut [u8],
        notch: u8,
        device: u8,
        unit: u8,
        command: u8,
        sector: u16,
        buffer: &mut [u8],
    ) -> u64;

    /// The bytes in use of one sector.
    fn show(&self, image: &[u8], slot: u8, sector: u16) -> u64;

    /// A get with one lent record.
    fn thin_get(&self, image: &mut [u8], words: &mut [u16], buffer: &mut [u8]) -> u64;

    /// A put with one lent record.
    fn thin_put(&self, image: &mut [u8], notch: u8, words: &mut [u16], buffer: &mut [u8]) -> u64;

    /// A name taken apart.
    fn name(&self, name: &[u8], eleven: &mut [u8]) -> u64;

    /// The header of an ATR image written.
    fn header(&self, image: &mut [u8], notch: u8) -> u64;
}

/// Hands the calls that take the same arguments on both sides, all but a CIO command, on to the functions of the same names in
/// a module, or to the methods of a value.
macro_rules! hand_on_to {
    ($me:ident => $($to:tt)*) => {
        fn recover(&$me, image: &mut [u8], notch: u8, slot: u8) -> u64 {
            $($to)*recover(image, notch, slot)
        }

        fn sector(
            &$me,
            image: &mut [u8],
            notch: u8,
            device: u8,
            unit: u8,
            command: u8,
            sector: u16,
            buffer: &mut [u8],
        ) -> u64 {
            $($to)*sector(image, notch, device, unit, command, sector, buffer)
        }

        fn show(&$me, image: &[u8], slot: u8, sector: u16) -> u64 {
            $($to)*show(image, slot, sector)
        }

        fn thin_get(&$me, image: &mut [u8], words: &mut [u16], buffer: &mut [u8]) -> u64 {
            $($to)*thin_get(image, words, buffer)
        }

        fn thin_put(
            &$me,
            image: &mut [u8],
            notch: u8,
            words: &mut [u16],
            buffer: &mut [u8],
        ) -> u64 {
            $($to)*thin_put(image, notch, words, buffer)
        }

        fn name(&$me, name: &[u8], eleven: &mut [u8]) -> u64 {
            $($to)*name(name, eleven)
        }

        fn header(&$me, image: &mut [u8], notch: u8) -> u64 {
            $($to)*header(image, notch)
        }
    };
}

/// The model, right or with a fault.
impl<V: Variant> Side for Model<V> {
    fn cio(&self, image: &mut [u8], table: &mut [u16], request: &mut Request) -> u64 {
        (*self).cio(image, table, request)
    }

    hand_on_to!(self => (*self).);
}

/// The proved library, through its C interface.
#[cfg(feature = "proved")]
pub struct Proved;

#[cfg(feature = "proved")]
impl Side for Proved {
    fn cio(&self, image: &mut [u8], table: &mut [u16], request: &mut Request) -> u64 {
        // Taken apart and put together by name, so that a field that either type gets cannot be forgotten here.
        let Request {
            notch,
            channel,
            command,
            direction,
            name,
            buffer,
        } = request;
        let mut request = raw::Request {
            notch: *notch,
            channel: *channel,
            command: *command,
            direction: *direction,
            name,
            buffer,
        };
        raw::cio(image, table, &mut request)
    }

    hand_on_to!(self => raw::);
}

/// The independent model.
pub const MODEL: &dyn Side = &RIGHT;

/// The proved library, or in a build without it the model once more.
#[cfg(feature = "proved")]
pub const LIBRARY: &dyn Side = &Proved;
#[cfg(not(feature = "proved"))]
pub const LIBRARY: &dyn Side = MODEL;

/// What [`LIBRARY`] is.
pub const LIBRARY_NAME: &str = if cfg!(feature = "proved") {
    "library"
} else {
    "model (the library is not linked)"
};
