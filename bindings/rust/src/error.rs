//! What may go wrong.

use crate::ffi;
use crate::image::Image;
use crate::names::NameError;
use crate::words::{FaultReason, Refusal};
use std::fmt;
use std::io;

/// Why a call did nothing. The device, image or reader is then as before, unless the call says otherwise.
///
/// ```
/// use jichurpa::{Device, Error, Refusal};
///
/// let mut device = Device::new(1, "10.0.0.1:4791".parse()?)?;
/// device.make_context("a")?;
/// let error = device.make_context("a").unwrap_err();
/// assert_eq!(error, Error::Refused(Refusal::NumberTaken));
/// assert_eq!(error.to_string(), "refused: the name, number or key lives there already");
/// # Ok::<(), Box<dyn std::error::Error>>(())
/// ```
#[derive(Clone, Copy, Debug, PartialEq, Eq)]
#[non_exhaustive]
pub enum Error {
    /// The allocator refused memory. Call again when there is some.
    NoMemory,
    /// An argument is outside of the range that the call allows.
    Invalid,
    /// The device refused the step.
    Refused(Refusal),
    /// A text is not a name.
    Name(NameError),
    /// The bytes are no dump.
    BadDump(DumpFault),
    /// The buffer has less room than the datagram needs, which is still the next one.
    TooSmall {
        /// The bytes of the datagram.
        needed: usize,
    },
    /// The library that is linked has another version of the interface than this crate was written for.
    Abi {
        /// The version of the library.
        library: u32,
    },
    /// The library answered a number that this crate does not know.
    Unknown {
        /// What the number stands for.
        what: &'static str,
        /// The number.
        number: u32,
    },
}

impl fmt::Display for Error {
    fn fmt(&self, out: &mut fmt::Formatter<'_>) -> fmt::Result {
        match self {
            Error::NoMemory => out.write_str("out of memory"),
            Error::Invalid => out.write_str("an argument is out of its range"),
            Error::Refused(refusal) => write!(out, "refused: {refusal}"),
            Error::Name(error) => error.fmt(out),
            Error::BadDump(fault) => fault.fmt(out),
            Error::TooSmall { needed } => write!(out, "the datagram needs a buffer of {needed} bytes"),
            Error::Abi { library } => {
                write!(
                    out,
                    "the library has version {library} of the interface, and version {} is needed",
                    ffi::ABI
                )
            }
            Error::Unknown { what, number } => write!(out, "the library answered {number} as {what}"),
        }
    }
}

impl std::error::Error for Error {
    fn source(&self) -> Option<&(dyn std::error::Error + 'static)> {
        match self {
            Error::Name(error) => Some(error),
            Error::BadDump(fault) => Some(fault),
            _ => None,
        }
    }
}

impl From<NameError> for Error {
    fn from(error: NameError) -> Error {
        Error::Name(error)
    }
}

impl From<Error> for io::Error {
    fn from(error: Error) -> io::Error {
        let kind = match error {
            Error::NoMemory => io::ErrorKind::OutOfMemory,
            Error::BadDump(_) => io::ErrorKind::InvalidData,
            Error::Invalid | Error::Name(_) => io::ErrorKind::InvalidInput,
            _ => io::ErrorKind::Other,
        };
        io::Error::new(kind, error)
    }
}

/// Why bytes are no dump, and where.
#[derive(Clone, Copy, Debug, PartialEq, Eq)]
pub struct DumpFault {
    /// The first byte of the field at fault, counted from 0; for [`FaultReason::Short`] the number of all bytes.
    pub place: u64,
    /// What is wrong with it.
    pub reason: FaultReason,
}

impl fmt::Display for DumpFault {
    fn fmt(&self, out: &mut fmt::Formatter<'_>) -> fmt::Result {
        write!(out, "no dump, at byte {}: {}", self.place, self.reason)
    }
}

impl std::error::Error for DumpFault {}

/// A restore that was not done, with the image that it was asked for.
///
/// ```
/// use jichurpa::{Device, Error, Refusal};
///
/// let mut old = Device::new(1, "10.0.0.1:4791".parse()?)?;
/// let a = old.make_context("a")?;
/// let image = old.stop(a)?;
/// // The old device still has the husk of the context, so it does not take the context back.
/// let failed = old.restore(image).unwrap_err();
/// assert_eq!(failed.error(), Error::Refused(Refusal::NumberTaken));
/// let mut new = Device::new(2, "10.0.0.2:4791".parse()?)?;
/// new.restore(failed.into_image())?;
/// # Ok::<(), Box<dyn std::error::Error>>(())
/// ```
pub struct RestoreError {
    pub(crate) error: Error,
    pub(crate) image: Image,
}

impl RestoreError {
    /// Why it was not done.
    pub fn error(&self) -> Error {
        self.error
    }

    /// The image, which is as before.
    pub fn into_image(self) -> Image {
        self.image
    }
}

impl fmt::Debug for RestoreError {
    fn fmt(&self, out: &mut fmt::Formatter<'_>) -> fmt::Result {
        out.debug_struct("RestoreError").field("error", &self.error).finish_non_exhaustive()
    }
}

impl fmt::Display for RestoreError {
    fn fmt(&self, out: &mut fmt::Formatter<'_>) -> fmt::Result {
        write!(out, "the image is not restored: {}", self.error)
    }
}

impl std::error::Error for RestoreError {
    fn source(&self) -> Option<&(dyn std::error::Error + 'static)> {
        Some(&self.error)
    }
}

/// What the library says of a call, without an answer of a device.
pub(crate) fn checked(code: ffi::Code) -> Result<(), Error> {
    match code {
        ffi::OK => Ok(()),
        ffi::NO_MEMORY => Err(Error::NoMemory),
        ffi::INVALID => Err(Error::Invalid),
        number => Err(Error::Unknown { what: "a result", number }),
    }
}

/// The same for calls that read a dump, whose fault the library has written where the bytes are none.
pub(crate) fn checked_dump(code: ffi::Code, fault: ffi::Fault) -> Result<(), Error> {
    if code != ffi::BAD_DUMP {
        return checked(code);
    }
    let reason = known("the fault of a dump", fault.why, FaultReason::of)?;
    Err(Error::BadDump(DumpFault { place: fault.place, reason }))
}

/// The word that has a number.
pub(crate) fn known<T>(what: &'static str, number: u32, of: fn(u32) -> Option<T>) -> Result<T, Error> {
    of(number).ok_or(Error::Unknown { what, number })
}

/// Whether the library that is linked has the interface that this crate was written for.
pub(crate) fn check_abi() -> Result<(), Error> {
    // SAFETY: the function takes nothing and may be called at any time.
    let library = unsafe { ffi::jichurpa_abi() };
    if library == ffi::ABI { Ok(()) } else { Err(Error::Abi { library }) }
}
