//! The functions of `libcapi.a` over slices. All unsafe code of the crate is here.
//!
//! `include/hilugsaban.h` says what each answers. Except for [`show`], an answer is status + 256 * count. A notch of 0 is open,
//! any other value closed.
//!
//! Every call is sound for every argument: the functions have no precondition beyond valid parts that do not overlap, which
//! references of Rust are; an empty slice has a pointer that is not null.

mod archive {
    extern "C" {
        pub fn dos_cio(
            image: *mut u8,
            image_length: usize,
            table: *mut u16,
            table_length: usize,
            notch: u8,
            channel: u8,
            command: u8,
            direction: u8,
            name: *const u8,
            name_length: usize,
            buffer: *mut u8,
            buffer_length: usize,
        ) -> u64;
        pub fn dos_recover(image: *mut u8, image_length: usize, notch: u8, slot: u8) -> u64;
        pub fn dos_sector(
            image: *mut u8,
            image_length: usize,
            notch: u8,
            device: u8,
            unit: u8,
            command: u8,
            sector: u16,
            buffer: *mut u8,
            buffer_length: usize,
        ) -> u64;
        pub fn dos_show(image: *const u8, image_length: usize, slot: u8, sector: u16) -> u64;
        pub fn dos_thin_get(
            image: *const u8,
            image_length: usize,
            channel: *mut u16,
            channel_length: usize,
            buffer: *mut u8,
            buffer_length: usize,
        ) -> u64;
        pub fn dos_thin_put(
            image: *mut u8,
            image_length: usize,
            notch: u8,
            channel: *mut u16,
            channel_length: usize,
            buffer: *const u8,
            buffer_length: usize,
        ) -> u64;
        pub fn dos_name(
            name: *const u8,
            name_length: usize,
            eleven: *mut u8,
            eleven_length: usize,
        ) -> u64;
        pub fn dos_header(image: *mut u8, image_length: usize, notch: u8) -> u64;
    }
}

/// What a CIO command asks for. Image and table are lent beside it.
#[derive(Debug, Default)]
pub struct Request<'a> {
    /// The image's write-protect notch: 0 is open, any other value closed.
    pub notch: u8,
    /// The channel's place in the table.
    pub channel: u8,
    /// The command's number, see [`command`](crate::command).
    pub command: u8,
    /// What an open is for. No other command looks at it.
    pub direction: u8,
    /// A name with its device and its ending byte, for the commands that take one.
    pub name: &'a [u8],
    /// The bytes of a put or put record, or the place for those of a get or get record. Only these two change it.
    pub buffer: &'a mut [u8],
}

impl Request<'_> {
    /// A command that needs neither direction nor name nor buffer, with the notch open. One that does is written from it, as
    /// in `Request { name, ..Request::new(channel, command) }`, which stays as it is when a request gets one more field.
    #[inline]
    pub fn new(channel: u8, command: u8) -> Self {
        Request {
            channel,
            command,
            ..Request::default()
        }
    }
}

/// A CIO command on one channel of the table.
#[inline]
pub fn cio(image: &mut [u8], table: &mut [u16], request: &mut Request) -> u64 {
    // SAFETY: each part is a reference's pointer and length; those that are written are borrowed for this call alone.
    unsafe {
        archive::dos_cio(
            image.as_mut_ptr(),
            image.len(),
            table.as_mut_ptr(),
            table.len(),
            request.notch,
            request.channel,
            request.command,
            request.direction,
            request.name.as_ptr(),
            request.name.len(),
            request.buffer.as_mut_ptr(),
            request.buffer.len(),
        )
    }
}

/// Takes the deleted file in a slot back.
#[inline]
pub fn recover(image: &mut [u8], notch: u8, slot: u8) -> u64 {
    // SAFETY: as for `cio`.
    unsafe { archive::dos_recover(image.as_mut_ptr(), image.len(), notch, slot) }
}

/// Reads or writes a sector.
#[inline]
pub fn sector(
    image: &mut [u8],
    notch: u8,
    device: u8,
    unit: u8,
    command: u8,
    sector: u16,
    buffer: &mut [u8],
) -> u64 {
    // SAFETY: as for `cio`.
    unsafe {
        archive::dos_sector(
            image.as_mut_ptr(),
            image.len(),
            notch,
            device,
            unit,
            command,
            sector,
            buffer.as_mut_ptr(),
            buffer.len(),
        )
    }
}

/// Where the data of a sector stand in the image: 1 or 0 in the low eight bits, above them offset * 1024 + length.
#[inline]
pub fn show(image: &[u8], slot: u8, sector: u16) -> u64 {
    // SAFETY: as for `cio`.
    unsafe { archive::dos_show(image.as_ptr(), image.len(), slot, sector) }
}

/// A get on one channel that is lent by itself.
#[inline]
pub fn thin_get(image: &[u8], channel: &mut [u16], buffer: &mut [u8]) -> u64 {
    // SAFETY: as for `cio`.
    unsafe {
        archive::dos_thin_get(
            image.as_ptr(),
            image.len(),
            channel.as_mut_ptr(),
            channel.len(),
            buffer.as_mut_ptr(),
            buffer.len(),
        )
    }
}

/// A put on one channel that is lent by itself.
#[inline]
pub fn thin_put(image: &mut [u8], notch: u8, channel: &mut [u16], buffer: &[u8]) -> u64 {
    // SAFETY: as for `cio`.
    unsafe {
        archive::dos_thin_put(
            image.as_mut_ptr(),
            image.len(),
            notch,
            channel.as_mut_ptr(),
            channel.len(),
            buffer.as_ptr(),
            buffer.len(),
        )
    }
}

/// Takes a name apart into its eleven padded bytes. The count is the place of its ending byte, from 0 at the `D`.
#[inline]
pub fn name(name: &[u8], eleven: &mut [u8]) -> u64 {
    // SAFETY: as for `cio`.
    unsafe { archive::dos_name(name.as_ptr(), name.len(), eleven.as_mut_ptr(), eleven.len()) }
}

/// Writes the header of an ATR file into the image.
#[inline]
pub fn header(image: &mut [u8], notch: u8) -> u64 {
    // SAFETY: as for `cio`.
    unsafe { archive::dos_header(image.as_mut_ptr(), image.len(), notch) }
}
