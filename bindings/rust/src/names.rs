//! Names, and what they stand for: contexts and the things in them.

use crate::ffi;
use std::fmt;
use std::net::{Ipv4Addr, SocketAddrV4};

/// Why a text is not a name. A name is a letter `a` to `z`, and up to 15 more of `a` to `z`, `0` to `9` and `_`.
///
/// ```
/// use jichurpa::{Context, NameError};
///
/// assert_eq!(Context::named("a_2")?.name(), "a_2");
/// assert_eq!(Context::named(""), Err(NameError::Empty));
/// assert_eq!(Context::named("a_name_that_is_too_long"), Err(NameError::TooLong));
/// assert_eq!(Context::named("2a"), Err(NameError::Byte { place: 0 }));
/// # Ok::<(), NameError>(())
/// ```
#[derive(Clone, Copy, Debug, PartialEq, Eq)]
#[non_exhaustive]
pub enum NameError {
    /// It has no bytes.
    Empty,
    /// It has more than 16 bytes.
    TooLong,
    /// This byte, counted from 0, must not stand there.
    Byte {
        /// Its place.
        place: usize,
    },
}

impl fmt::Display for NameError {
    fn fmt(&self, out: &mut fmt::Formatter<'_>) -> fmt::Result {
        match self {
            NameError::Empty => out.write_str("a name must not be empty"),
            NameError::TooLong => write!(out, "a name has at most {} bytes", ffi::NAME_BYTES),
            NameError::Byte { place } => write!(
                out,
                "byte {place} must not stand in a name, which is a letter a to z and then a to z, 0 to 9 and _"
            ),
        }
    }
}

impl std::error::Error for NameError {}

/// The name that a text spells.
fn name_of(text: &str) -> Result<ffi::Name, NameError> {
    let bytes = text.as_bytes();
    if bytes.is_empty() {
        return Err(NameError::Empty);
    }
    if bytes.len() > ffi::NAME_BYTES {
        return Err(NameError::TooLong);
    }
    let allowed = |place: usize, byte: u8| match byte {
        b'a'..=b'z' => true,
        b'0'..=b'9' | b'_' => place > 0,
        _ => false,
    };
    if let Some(place) = (0..bytes.len()).find(|&place| !allowed(place, bytes[place])) {
        return Err(NameError::Byte { place });
    }
    let mut name = ffi::Name::default();
    name.bytes[..bytes.len()].copy_from_slice(bytes);
    Ok(name)
}

impl ffi::Name {
    /// Its text.
    pub(crate) fn text(&self) -> &str {
        let length = self.bytes.iter().position(|&byte| byte == 0).unwrap_or(self.bytes.len());
        std::str::from_utf8(&self.bytes[..length]).unwrap_or("")
    }
}

impl ffi::Object {
    pub(crate) fn named(context: Context, text: &str) -> Result<ffi::Object, NameError> {
        Ok(ffi::Object { context: context.name, name: name_of(text)? })
    }

    /// The name where the thing belongs to the context, and else the name of nothing, which a device refuses.
    pub(crate) fn name_in(&self, context: ffi::Name) -> ffi::Name {
        if self.context == context { self.name } else { ffi::Name::default() }
    }
}

/// A context: what one application owns on a device. It is a name alone, so the same value names it after a move.
///
/// ```
/// use jichurpa::{Context, Device};
///
/// let mut device = Device::new(1, "10.0.0.1:4791".parse()?)?;
/// let a = device.make_context("a")?;
/// assert_eq!(a, Context::named("a")?);
/// assert_eq!(a.to_string(), "a");
/// # Ok::<(), Box<dyn std::error::Error>>(())
/// ```
#[derive(Clone, Copy, PartialEq, Eq, PartialOrd, Ord, Hash)]
pub struct Context {
    pub(crate) name: ffi::Name,
}

impl Context {
    /// The context of that name, on whichever device it lives.
    pub fn named(name: &str) -> Result<Context, NameError> {
        Ok(Context { name: name_of(name)? })
    }

    /// Its name.
    pub fn name(&self) -> &str {
        self.name.text()
    }

    /// Its protection domain of that name.
    pub fn domain(self, name: &str) -> Result<Domain, NameError> {
        Ok(Domain { object: ffi::Object::named(self, name)? })
    }

    /// Its completion queue of that name.
    pub fn completion_queue(self, name: &str) -> Result<CompletionQueue, NameError> {
        Ok(CompletionQueue { object: ffi::Object::named(self, name)? })
    }

    /// Its region of that name, with the keys that it was made with. A move keeps them.
    pub fn region(self, name: &str, keys: Keys) -> Result<Region, NameError> {
        Ok(Region { object: ffi::Object::named(self, name)?, keys })
    }
}

impl fmt::Display for Context {
    fn fmt(&self, out: &mut fmt::Formatter<'_>) -> fmt::Result {
        out.write_str(self.name())
    }
}

impl fmt::Debug for Context {
    fn fmt(&self, out: &mut fmt::Formatter<'_>) -> fmt::Result {
        write!(out, "Context({self})")
    }
}

/// Gives a thing of a context its names, and the text `context.name`.
macro_rules! thing {
    ($name:ident) => {
        impl $name {
            /// Its context.
            pub fn context(&self) -> Context {
                Context { name: self.object.context }
            }

            /// Its name in its context.
            pub fn name(&self) -> &str {
                self.object.name.text()
            }
        }

        impl fmt::Display for $name {
            fn fmt(&self, out: &mut fmt::Formatter<'_>) -> fmt::Result {
                write!(out, "{}.{}", self.object.context.text(), self.object.name.text())
            }
        }

        impl fmt::Debug for $name {
            fn fmt(&self, out: &mut fmt::Formatter<'_>) -> fmt::Result {
                write!(out, concat!(stringify!($name), "({})"), self)
            }
        }
    };
}

/// A protection domain. [`Device::make_domain`](crate::Device::make_domain) makes one.
#[derive(Clone, Copy, PartialEq, Eq, PartialOrd, Ord, Hash)]
pub struct Domain {
    pub(crate) object: ffi::Object,
}

thing!(Domain);

/// A completion queue. [`Device::make_completion_queue`](crate::Device::make_completion_queue) makes one.
#[derive(Clone, Copy, PartialEq, Eq, PartialOrd, Ord, Hash)]
pub struct CompletionQueue {
    pub(crate) object: ffi::Object,
}

thing!(CompletionQueue);

/// A queue pair. [`Device::make_queue_pair`](crate::Device::make_queue_pair) makes one, and
/// [`Device::queue_pair`](crate::Device::queue_pair) finds one by its name.
#[derive(Clone, Copy, PartialEq, Eq, PartialOrd, Ord, Hash)]
pub struct QueuePair {
    pub(crate) object: ffi::Object,
    pub(crate) number: u32,
}

thing!(QueuePair);

impl QueuePair {
    /// Its number, which its partner connects to. A move keeps it.
    pub fn number(&self) -> u32 {
        self.number
    }
}

/// The keys of a region. The owner names it by the local key in work requests, and its partner by the remote key.
#[derive(Clone, Copy, Debug, PartialEq, Eq, PartialOrd, Ord, Hash)]
pub struct Keys {
    /// The local key.
    pub local: u32,
    /// The remote key.
    pub remote: u32,
}

/// A memory region. [`Device::make_region`](crate::Device::make_region) makes one.
#[derive(Clone, Copy, PartialEq, Eq, PartialOrd, Ord, Hash)]
pub struct Region {
    pub(crate) object: ffi::Object,
    pub(crate) keys: Keys,
}

thing!(Region);

impl Region {
    /// Its keys.
    pub fn keys(&self) -> Keys {
        self.keys
    }

    /// `length` of its bytes from an address on, as the own place of a work request.
    pub fn range(&self, address: u64, length: u32) -> LocalRange {
        LocalRange { key: self.keys.local, address, length }
    }

    /// One of its addresses, as the partner's place of a work request.
    pub fn remote(&self, address: u64) -> RemoteAddress {
        RemoteAddress { key: self.keys.remote, address }
    }
}

/// A place in an own region, which a work request reads or fills.
#[derive(Clone, Copy, Debug, PartialEq, Eq, Hash)]
pub struct LocalRange {
    /// The local key of the region.
    pub key: u32,
    /// The first address.
    pub address: u64,
    /// The bytes.
    pub length: u32,
}

/// A place in a region of the partner's, which tells its key and address by other means.
#[derive(Clone, Copy, Debug, PartialEq, Eq, Hash)]
pub struct RemoteAddress {
    /// The remote key of the region.
    pub key: u32,
    /// The first address.
    pub address: u64,
}

impl ffi::Address {
    pub(crate) fn of(address: SocketAddrV4) -> ffi::Address {
        ffi::Address { ip: address.ip().to_bits(), port: address.port(), reserved: 0 }
    }

    pub(crate) fn socket(&self) -> SocketAddrV4 {
        SocketAddrV4::new(Ipv4Addr::from_bits(self.ip), self.port)
    }
}

#[cfg(test)]
mod tests {
    use super::*;

    #[test]
    fn names_are_padded_with_zeros() {
        assert_eq!(name_of("ab").unwrap().bytes, *b"ab\0\0\0\0\0\0\0\0\0\0\0\0\0\0");
        let longest = name_of("a23456789_123456").unwrap();
        assert_eq!(longest.bytes, *b"a23456789_123456");
        assert_eq!(longest.text(), "a23456789_123456");
    }

    #[test]
    fn other_texts_are_refused() {
        assert_eq!(name_of("a23456789_1234567"), Err(NameError::TooLong));
        assert_eq!(name_of("_a"), Err(NameError::Byte { place: 0 }));
        assert_eq!(name_of("aB"), Err(NameError::Byte { place: 1 }));
        assert_eq!(name_of("a\0"), Err(NameError::Byte { place: 1 }));
        assert_eq!(name_of("a.q"), Err(NameError::Byte { place: 1 }));
        assert_eq!(name_of("aé"), Err(NameError::Byte { place: 1 }));
    }

    #[test]
    fn a_thing_of_another_context_has_no_name() {
        let a = Context::named("a").unwrap();
        let b = Context::named("b").unwrap();
        let cq = a.completion_queue("c").unwrap();
        assert_eq!(cq.object.name_in(a.name).text(), "c");
        assert_eq!(cq.object.name_in(b.name).bytes, [0; 16]);
    }

    #[test]
    fn addresses_are_as_the_header_says() {
        let address = ffi::Address::of("10.0.0.1:4791".parse().unwrap());
        assert_eq!(address, ffi::Address { ip: 0x0a00_0001, port: 4791, reserved: 0 });
        assert_eq!(address.socket().to_string(), "10.0.0.1:4791");
    }

    #[test]
    fn things_are_told_with_their_context() {
        let a = Context::named("a").unwrap();
        let region = a.region("r", Keys { local: 0x0100_0002, remote: 0x0100_0003 }).unwrap();
        assert_eq!(format!("{region} {region:?} {a:?}"), "a.r Region(a.r) Context(a)");
        assert_eq!(region.range(4096, 8), LocalRange { key: 0x0100_0002, address: 4096, length: 8 });
        assert_eq!(region.remote(4100), RemoteAddress { key: 0x0100_0003, address: 4100 });
    }
}
