//! Images of stopped contexts, as bytes and back.

use crate::device::zeros;
use crate::error::{Error, check_abi, checked, checked_dump};
use crate::ffi;
use crate::names::Context;
use crate::readers::QueuePairInfo;
use std::fmt;
use std::io::{self, Read, Write};

/// How many bytes a read takes from the library at least. Each call of the library goes through the image from its
/// beginning, so small pieces would be slow.
const PIECE: usize = 1 << 20;

/// The image of a stopped context. Its bytes are read as a dump, by [`Read`] or at once by
/// [`to_bytes`](Image::to_bytes).
///
/// ```
/// use jichurpa::{Device, Image};
/// use std::io::Read;
///
/// let mut old = Device::new(1, "10.0.0.1:4791".parse()?)?;
/// let a = old.make_context("a")?;
/// let mut image = old.stop(a)?;
/// let mut dump = Vec::new();
/// image.read_to_end(&mut dump)?;
/// assert_eq!(&dump[..8], b"MIGDUMP\0");
///
/// let mut new = Device::new(2, "10.0.0.2:4791".parse()?)?;
/// let a = new.restore(Image::decode(&dump)?)?;
/// assert_eq!(new.contexts().collect::<Vec<_>>(), [a]);
/// # Ok::<(), Box<dyn std::error::Error>>(())
/// ```
pub struct Image {
    handle: ffi::Image,
    context: Context,
    /// The place of the dump behind what was taken from the library.
    place: u64,
    /// What was taken from the library, of which so many bytes are read.
    piece: Vec<u8>,
    read: usize,
}

// SAFETY: the library keeps nothing for each thread. That a handle may go from one thread to another is tested, and not proved.
unsafe impl Send for Image {}

// SAFETY: what may be done by a shared reference does not use the handle.
unsafe impl Sync for Image {}

impl Image {
    /// The image that a filled handle holds.
    pub(crate) fn holding(handle: ffi::Image, context: Context) -> Image {
        Image { handle, context, place: 0, piece: Vec::new(), read: 0 }
    }

    pub(crate) fn handle_mut(&mut self) -> &mut ffi::Image {
        &mut self.handle
    }

    /// The image that bytes are a dump of, in version 1 or 2.
    ///
    /// ```
    /// use jichurpa::{DumpFault, Error, FaultReason, Image};
    ///
    /// let fault = DumpFault { place: 0, reason: FaultReason::Magic };
    /// assert_eq!(Image::decode(b"not a dump").unwrap_err(), Error::BadDump(fault));
    /// ```
    pub fn decode(bytes: &[u8]) -> Result<Image, Error> {
        check_abi()?;
        let mut handle = ffi::Image::NOTHING;
        let mut fault = ffi::Fault::default();
        // SAFETY: the bytes are read, and handle and fault are filled, during the call alone.
        let code =
            unsafe { ffi::jichurpa_image_decode(bytes.as_ptr(), bytes.len(), &mut handle, &mut fault) };
        checked_dump(code, fault)?;
        Image::of_handle(handle)
    }

    /// The image of a filled handle, with the context that the library names.
    fn of_handle(handle: ffi::Image) -> Result<Image, Error> {
        let mut image = Image::holding(handle, Context { name: ffi::Name::default() });
        // SAFETY: the handle is borrowed by this call alone, and the name is filled during it.
        checked(unsafe { ffi::jichurpa_image_name(&mut image.handle, &mut image.context.name) })?;
        Ok(image)
    }

    /// The image that all bytes of a source are a dump of. Bytes that are none give an error of kind `InvalidData`, which
    /// has the [`Error`].
    pub fn read_from(mut source: impl Read) -> io::Result<Image> {
        let mut reader = DumpReader::new()?;
        io::copy(&mut source, &mut reader)?;
        Ok(reader.finish()?)
    }

    /// The context.
    pub fn context(&self) -> Context {
        self.context
    }

    /// How many bytes the dump has.
    pub fn dump_length(&mut self) -> Result<u64, Error> {
        let mut length = 0;
        // SAFETY: the handle is borrowed by this call alone, and the length is filled during it.
        checked(unsafe { ffi::jichurpa_image_length(&mut self.handle, &mut length) })?;
        Ok(length)
    }

    /// The whole dump. What was read by [`Read`] makes no difference.
    pub fn to_bytes(&mut self) -> Result<Vec<u8>, Error> {
        let length = usize::try_from(self.dump_length()?).map_err(|_| Error::NoMemory)?;
        let mut bytes = zeros(length)?;
        let count = self.read_at(0, &mut bytes)?;
        bytes.truncate(count);
        Ok(bytes)
    }

    /// The bytes of the dump from a place on, as many as there are and as the buffer holds. Few large pieces are faster than
    /// many small ones.
    pub fn read_at(&mut self, place: u64, buffer: &mut [u8]) -> Result<usize, Error> {
        let mut count = 0;
        let (bytes, room) = (buffer.as_mut_ptr(), buffer.len());
        // SAFETY: the handle is borrowed by this call alone, and the buffer, of that length, and the count are filled
        // during it.
        checked(unsafe { ffi::jichurpa_image_read(&mut self.handle, place, bytes, room, &mut count) })?;
        Ok(count as usize)
    }

    /// Lets [`Read`] begin with the first byte again.
    pub fn rewind(&mut self) {
        self.place = 0;
        self.piece.clear();
        self.read = 0;
    }

    /// The queue pairs of the context, in the order of making.
    pub fn queue_pairs(&mut self) -> Vec<QueuePairInfo> {
        let mut infos = Vec::new();
        let mut end = ffi::End::default();
        loop {
            // SAFETY: the handle is borrowed by this call alone, and `end` is filled during it.
            let code = unsafe { ffi::jichurpa_image_end(&mut self.handle, infos.len(), &mut end) };
            match QueuePairInfo::of(code, &end) {
                Some(info) => infos.push(info),
                None => return infos,
            }
        }
    }

    /// Takes the next piece from the library, where all of the last one is read.
    fn refill(&mut self) -> Result<(), Error> {
        let mut piece = std::mem::take(&mut self.piece);
        piece.clear();
        piece.try_reserve_exact(PIECE).map_err(|_| Error::NoMemory)?;
        piece.resize(PIECE, 0);
        let count = self.read_at(self.place, &mut piece)?;
        piece.truncate(count);
        self.place += count as u64;
        self.piece = piece;
        self.read = 0;
        Ok(())
    }
}

impl Read for Image {
    fn read(&mut self, buffer: &mut [u8]) -> io::Result<usize> {
        if self.read == self.piece.len() {
            if buffer.len() >= PIECE {
                let count = self.read_at(self.place, buffer)?;
                self.place += count as u64;
                return Ok(count);
            }
            self.refill()?;
        }
        let rest = &self.piece[self.read..];
        let count = rest.len().min(buffer.len());
        buffer[..count].copy_from_slice(&rest[..count]);
        self.read += count;
        Ok(count)
    }

    fn read_to_end(&mut self, buffer: &mut Vec<u8>) -> io::Result<usize> {
        let begin = buffer.len();
        let rest = &self.piece[self.read..];
        buffer.try_reserve(rest.len())?;
        buffer.extend_from_slice(rest);
        self.read = self.piece.len();
        let left = self.dump_length()?.saturating_sub(self.place);
        let left = usize::try_from(left).map_err(|_| Error::NoMemory)?;
        buffer.try_reserve_exact(left)?;
        let place = buffer.len();
        buffer.resize(place + left, 0);
        let read = self.read_at(self.place, &mut buffer[place..]);
        let count = *read.as_ref().unwrap_or(&0);
        buffer.truncate(place + count);
        self.place += count as u64;
        read?;
        Ok(buffer.len() - begin)
    }
}

impl Drop for Image {
    fn drop(&mut self) {
        // SAFETY: the handle is the image's own, and is not used afterwards.
        unsafe { ffi::jichurpa_image_free(&mut self.handle) };
    }
}

impl fmt::Debug for Image {
    fn fmt(&self, out: &mut fmt::Formatter<'_>) -> fmt::Result {
        out.debug_struct("Image").field("context", &self.context).finish_non_exhaustive()
    }
}

/// Reads a dump that comes in pieces of any lengths. It is also a [`Write`], for [`std::io::copy`].
///
/// ```
/// use jichurpa::{Device, DumpReader};
///
/// let mut device = Device::new(1, "10.0.0.1:4791".parse()?)?;
/// let a = device.make_context("a")?;
/// let dump = device.stop(a)?.to_bytes()?;
/// let mut reader = DumpReader::new()?;
/// for piece in dump.chunks(3) {
///     reader.feed(piece)?;
/// }
/// assert_eq!(reader.finish()?.context(), a);
/// # Ok::<(), Box<dyn std::error::Error>>(())
/// ```
pub struct DumpReader {
    handle: ffi::Reader,
}

// SAFETY: the library keeps nothing for each thread. That a handle may go from one thread to another is tested, and not proved.
unsafe impl Send for DumpReader {}

// SAFETY: what may be done by a shared reference does not use the handle.
unsafe impl Sync for DumpReader {}

impl DumpReader {
    /// A reader of no bytes yet.
    pub fn new() -> Result<DumpReader, Error> {
        check_abi()?;
        let mut handle = ffi::Reader::NOTHING;
        // SAFETY: the handle, which holds nothing, is filled during the call alone.
        checked(unsafe { ffi::jichurpa_reader_make(&mut handle) })?;
        Ok(DumpReader { handle })
    }

    /// Takes more bytes. Where they have a fault whatever bytes follow, it is answered from then on. Out of memory, the
    /// reader is as before.
    pub fn feed(&mut self, bytes: &[u8]) -> Result<(), Error> {
        let mut fault = ffi::Fault::default();
        let (start, count) = (bytes.as_ptr(), bytes.len());
        // SAFETY: the handle is borrowed by this call alone, the bytes are read and the fault is filled during it.
        let code = unsafe { ffi::jichurpa_reader_feed(&mut self.handle, start, count, &mut fault) };
        checked_dump(code, fault)
    }

    /// The image that all bytes are a dump of.
    pub fn finish(mut self) -> Result<Image, Error> {
        let mut image = ffi::Image::NOTHING;
        let mut fault = ffi::Fault::default();
        // SAFETY: the handle is borrowed by this call alone, and image and fault are filled during it.
        let code = unsafe { ffi::jichurpa_reader_finish(&mut self.handle, &mut image, &mut fault) };
        checked_dump(code, fault)?;
        Image::of_handle(image)
    }
}

impl Write for DumpReader {
    fn write(&mut self, bytes: &[u8]) -> io::Result<usize> {
        self.feed(bytes)?;
        Ok(bytes.len())
    }

    fn flush(&mut self) -> io::Result<()> {
        Ok(())
    }
}

impl Drop for DumpReader {
    fn drop(&mut self) {
        // SAFETY: the handle is the reader's own, and is not used afterwards.
        unsafe { ffi::jichurpa_reader_free(&mut self.handle) };
    }
}

impl fmt::Debug for DumpReader {
    fn fmt(&self, out: &mut fmt::Formatter<'_>) -> fmt::Result {
        out.debug_struct("DumpReader").finish_non_exhaustive()
    }
}

const _: fn() = || {
    fn shared<T: Send + Sync>() {}
    shared::<Image>();
    shared::<DumpReader>();
    shared::<crate::RestoreError>();
};
