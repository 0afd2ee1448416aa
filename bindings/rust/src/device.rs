//! The device and its steps.

use crate::answers::{Arrival, Datagram, Expiry, SentInto, Transmitted, answered};
use crate::connection::{Partner, QueuePairOptions, Terms};
use crate::error::{Error, RestoreError, check_abi, checked};
use crate::ffi::{self, answer};
use crate::image::Image;
use crate::names::{CompletionQueue, Context, Domain, Keys, QueuePair, Region};
use crate::readers::{Contexts, Marks, QueuePairInfo, QueuePairs};
use crate::requests::{Completion, Receive, Rights, WorkRequest};
use std::cell::UnsafeCell;
use std::fmt;
use std::net::SocketAddrV4;

/// A software RDMA device.
///
/// It has no socket, no clock and no thread. Its owner hands it what happens, and sends the datagrams that it gives: after
/// each [`transmit`](Device::transmit) and [`arrive`](Device::arrive) those of [`sent`](Device::sent) or
/// [`next_sent`](Device::next_sent). The next step drops what was not read, which is a loss like any other: it is sent again
/// after a timer.
///
/// A device may be handed from thread to thread, and is independent of other devices. Two threads share one by a lock.
///
/// ```
/// use jichurpa::{Device, Rights};
///
/// let mut device = Device::new(1, "10.0.0.1:4791".parse()?)?;
/// let a = device.make_context("a")?;
/// let domain = device.make_domain(a, "d")?;
/// let region = device.make_region(domain, "r", 4096, 8, Rights::NONE)?;
/// device.store(region, 4096, b"contents")?;
/// assert_eq!(device.load(region, 4100, 4)?, b"ents");
/// # Ok::<(), Box<dyn std::error::Error>>(())
/// ```
///
/// It is not `Sync`:
///
/// ```compile_fail
/// fn shared<T: Sync>() {}
/// shared::<jichurpa::Device>();
/// ```
pub struct Device {
    /// The library gets the handle for changing also where it only reads, so it is in a cell. Since the cell makes the
    /// device not `Sync`, no two calls use it at once.
    handle: UnsafeCell<ffi::Device>,
}

// SAFETY: the library keeps nothing for each thread. That a handle may go from one thread to another is tested, and not proved.
unsafe impl Send for Device {}

/// A step: the call of that name with the device's handle, these arguments and an outcome.
macro_rules! step {
    ($device:expr, $call:ident $(, $argument:expr)*) => {{
        let device: &mut Device = $device;
        let mut outcome = ffi::Outcome::default();
        // SAFETY: the handle is borrowed by this call alone. Each pointer comes from a reference or from a slice with its
        // length, lives until the call is over, and what is written overlaps with nothing else.
        let code = unsafe { ffi::$call(device.handle.get_mut(), $($argument,)* &mut outcome) };
        answered(code, outcome)
    }};
}

/// A reader: the call of that name with the device's handle and these arguments.
macro_rules! read {
    ($device:expr, $call:ident $(, $argument:expr)*) => {{
        let device: &Device = $device;
        // SAFETY: the device is not `Sync`, so no other call uses the handle now, and no reference to it is held. Each
        // pointer comes from a reference that lives until the call is over, and what is written overlaps with nothing else.
        unsafe { ffi::$call(device.handle.get(), $($argument,)*) }
    }};
}

/// Making and freeing.
impl Device {
    /// A device without contexts. `id` is 1 to 255: give each device an id of its own, since keys and queue pair numbers
    /// begin with it. `address` is where datagrams for it arrive; it is told to partners after a move.
    ///
    /// It takes about 32 MiB of address space; a page of it is first touched when a region or a posted request needs it.
    ///
    /// ```
    /// use jichurpa::{Device, Error};
    ///
    /// let device = Device::new(7, "10.0.0.7:4791".parse()?)?;
    /// assert_eq!(device.id(), 7);
    /// assert_eq!(device.address().to_string(), "10.0.0.7:4791");
    /// assert_eq!(Device::new(0, device.address()).unwrap_err(), Error::Invalid);
    /// # Ok::<(), Box<dyn std::error::Error>>(())
    /// ```
    pub fn new(id: u8, address: SocketAddrV4) -> Result<Device, Error> {
        check_abi()?;
        let mut handle = ffi::Device::NOTHING;
        // SAFETY: the address is read and the handle, which holds nothing, is filled during the call alone.
        checked(unsafe { ffi::jichurpa_device_make(id.into(), &ffi::Address::of(address), &mut handle) })?;
        Ok(Device { handle: UnsafeCell::new(handle) })
    }

    /// The id that it was made with.
    pub fn id(&self) -> u8 {
        let mut id = 0;
        // The call succeeds for each handle that holds a device, with an id of one byte.
        read!(self, jichurpa_device_id, &mut id);
        id as u8
    }

    /// The address that it was made with.
    pub fn address(&self) -> SocketAddrV4 {
        let mut address = ffi::Address::default();
        // The call succeeds for each handle that holds a device.
        read!(self, jichurpa_device_address, &mut address);
        address.socket()
    }
}

impl Drop for Device {
    fn drop(&mut self) {
        // SAFETY: the handle is the device's own, and is not used afterwards.
        unsafe { ffi::jichurpa_device_free(self.handle.get_mut()) };
    }
}

impl fmt::Debug for Device {
    fn fmt(&self, out: &mut fmt::Formatter<'_>) -> fmt::Result {
        let (id, address) = (self.id(), self.address());
        out.debug_struct("Device").field("id", &id).field("address", &address).finish_non_exhaustive()
    }
}

/// What applications ask: things of a context, and their memory.
impl Device {
    /// A new context. A name of a context or of a husk of this device is refused with `NumberTaken`.
    pub fn make_context(&mut self, name: &str) -> Result<Context, Error> {
        let context = Context::named(name)?;
        step!(self, jichurpa_make_context, &context.name)?.being(answer::DONE)?;
        Ok(context)
    }

    /// A new protection domain.
    pub fn make_domain(&mut self, context: Context, name: &str) -> Result<Domain, Error> {
        let domain = context.domain(name)?;
        step!(self, jichurpa_make_domain, &domain.object)?.being(answer::DONE)?;
        Ok(domain)
    }

    /// A new memory region of zeros in a domain. `base` is its first address, at most [`MAX_BASE`](crate::MAX_BASE), and
    /// `length` its bytes, 1 to [`MAX_REGION`](crate::MAX_REGION).
    pub fn make_region(
        &mut self,
        domain: Domain,
        name: &str,
        base: u64,
        length: u32,
        rights: Rights,
    ) -> Result<Region, Error> {
        let object = ffi::Object::named(domain.context(), name)?;
        let bits = rights.bits();
        let made = step!(self, jichurpa_make_region, &object, &domain.object.name, base, length, bits)?
            .being(answer::REGION)?;
        Ok(Region { object, keys: Keys { local: made.local_key, remote: made.remote_key } })
    }

    /// A new completion queue of 1 to [`MAX_CAPACITY`](crate::MAX_CAPACITY) entries.
    pub fn make_completion_queue(
        &mut self,
        context: Context,
        name: &str,
        capacity: u32,
    ) -> Result<CompletionQueue, Error> {
        let cq = context.completion_queue(name)?;
        step!(self, jichurpa_make_cq, &cq.object, capacity)?.being(answer::DONE)?;
        Ok(cq)
    }

    /// A new queue pair in a domain. It is in [`State::Init`](crate::State::Init) until it is connected. A completion queue
    /// of another context is refused with `NoSuch`.
    pub fn make_queue_pair(
        &mut self,
        domain: Domain,
        name: &str,
        options: QueuePairOptions,
    ) -> Result<QueuePair, Error> {
        let object = ffi::Object::named(domain.context(), name)?;
        let options = ffi::QpOptions {
            domain: domain.object.name,
            send_cq: options.send_cq.object.name_in(object.context),
            recv_cq: options.recv_cq.object.name_in(object.context),
            send_depth: options.send_depth,
            recv_depth: options.recv_depth,
        };
        let made = step!(self, jichurpa_make_qp, &object, &options)?.being(answer::QP)?;
        Ok(QueuePair { object, number: made.number })
    }

    /// Connects a queue pair to its partner, which gets [the same terms exchanged](Terms::exchanged).
    ///
    /// ```
    /// use jichurpa::{Device, Partner, QueuePairOptions, State, Terms};
    ///
    /// let mut device = Device::new(1, "10.0.0.1:4791".parse()?)?;
    /// let a = device.make_context("a")?;
    /// let domain = device.make_domain(a, "d")?;
    /// let cq = device.make_completion_queue(a, "c", 16)?;
    /// let qp = device.make_queue_pair(domain, "q", QueuePairOptions::new(cq))?;
    /// // The partner has told its number and its device's address by other means.
    /// let partner = Partner { number: 0x020001, address: "10.0.0.2:4791".parse()? };
    /// device.connect(qp, partner, Terms::default())?;
    /// assert_eq!(device.info(qp).map(|info| info.state), Some(State::Running));
    /// # Ok::<(), Box<dyn std::error::Error>>(())
    /// ```
    pub fn connect(&mut self, qp: QueuePair, partner: Partner, terms: Terms) -> Result<(), Error> {
        let (address, terms) = (ffi::Address::of(partner.address), terms.to_ffi());
        step!(self, jichurpa_connect, &qp.object, partner.number, &address, &terms)?.being(answer::DONE)?;
        Ok(())
    }

    /// Drops a memory region.
    pub fn drop_region(&mut self, region: Region) -> Result<(), Error> {
        step!(self, jichurpa_drop_region, &region.object)?.being(answer::DONE)?;
        Ok(())
    }

    /// Writes bytes to a region, from an address on.
    pub fn store(&mut self, region: Region, address: u64, bytes: &[u8]) -> Result<(), Error> {
        step!(self, jichurpa_store, &region.object, address, bytes.as_ptr(), bytes.len())?
            .being(answer::DONE)?;
        Ok(())
    }

    /// `count` bytes of a region, from an address on.
    pub fn load(&mut self, region: Region, address: u64, count: usize) -> Result<Vec<u8>, Error> {
        if u32::try_from(count).is_err() {
            return Err(Error::Invalid);
        }
        let mut bytes = zeros(count)?;
        self.load_into(region, address, &mut bytes)?;
        Ok(bytes)
    }

    /// Fills a buffer with bytes of a region, from an address on. Where it is refused, the buffer is as before.
    pub fn load_into(&mut self, region: Region, address: u64, bytes: &mut [u8]) -> Result<(), Error> {
        step!(self, jichurpa_load, &region.object, address, bytes.as_mut_ptr(), bytes.len())?
            .being(answer::BYTES)?;
        Ok(())
    }

    /// Posts a request to the send queue. The bytes of a WRITE or SEND are taken now.
    pub fn post_send(&mut self, qp: QueuePair, request: &WorkRequest) -> Result<(), Error> {
        step!(self, jichurpa_post_send, &qp.object, &request.to_ffi())?.being(answer::DONE)?;
        Ok(())
    }

    /// Posts a receive.
    pub fn post_recv(&mut self, qp: QueuePair, receive: &Receive) -> Result<(), Error> {
        step!(self, jichurpa_post_recv, &qp.object, &receive.to_ffi())?.being(answer::DONE)?;
        Ok(())
    }

    /// The oldest completions of a queue, at most `most`, which leave it.
    pub fn poll(&mut self, cq: CompletionQueue, most: usize) -> Result<Vec<Completion>, Error> {
        let room = most.min(ffi::MAX_CAPACITY);
        let mut told = Vec::new();
        told.try_reserve_exact(room).map_err(|_| Error::NoMemory)?;
        told.resize(room, ffi::Completion::default());
        let polled =
            step!(self, jichurpa_poll, &cq.object, told.as_mut_ptr(), told.len())?.being(answer::POLLED)?;
        told.truncate(polled.count as usize);
        told.iter().map(Completion::of).collect()
    }
}

/// The network and the timers.
impl Device {
    /// The queue pair sends its next packet, where it may. Call it after a posting, an arrival and a timer, until the answer
    /// is not [`Transmitted::Sent`]; of a queue pair that is [`State::Resuming`](crate::State::Resuming) once, and again
    /// when its timer expires.
    pub fn transmit(&mut self, qp: QueuePair) -> Result<Transmitted, Error> {
        step!(self, jichurpa_transmit, &qp.object)?.transmitted()
    }

    /// Bytes arrived from an address: the payload of a UDP datagram, whatever it holds.
    ///
    /// ```
    /// use jichurpa::{Arrival, ArrivalEffect, Device, DropReason};
    ///
    /// let mut device = Device::new(1, "10.0.0.1:4791".parse()?)?;
    /// let arrival = device.arrive("10.0.0.9:4791".parse()?, b"no datagram")?;
    /// assert_eq!(arrival, Arrival { effect: ArrivalEffect::Silent(DropReason::Malformed), sent: 0 });
    /// # Ok::<(), Box<dyn std::error::Error>>(())
    /// ```
    pub fn arrive(&mut self, from: SocketAddrV4, bytes: &[u8]) -> Result<Arrival, Error> {
        let from = ffi::Address::of(from);
        step!(self, jichurpa_arrive, &from, bytes.as_ptr(), bytes.len())?.arrival()
    }

    /// The retransmission timer of a queue pair expired. What is to be sent again is sent by
    /// [`transmit`](Device::transmit).
    pub fn expire(&mut self, qp: QueuePair) -> Result<Expiry, Error> {
        step!(self, jichurpa_expire, &qp.object)?.expiry()
    }

    /// The RNR timer of a queue pair expired. Answers whether the queue pair waited for it.
    pub fn rnr_over(&mut self, qp: QueuePair) -> Result<bool, Error> {
        step!(self, jichurpa_rnr_over, &qp.object)?.was_waiting()
    }

    /// The oldest datagram of the last step that was not read yet, as bytes of a buffer. With less room than it needs, the
    /// error says how many bytes it has, and it is still the next one. [`MAX_DATAGRAM`](crate::MAX_DATAGRAM) bytes always
    /// suffice.
    pub fn next_sent(&mut self, buffer: &mut [u8]) -> Result<Option<SentInto>, Error> {
        let mut datagram = ffi::Datagram::default();
        let handle = self.handle.get_mut();
        // SAFETY: the handle is borrowed by this call alone, and the library writes to the datagram and the buffer, of that
        // length, until the call is over.
        let code =
            unsafe { ffi::jichurpa_next_sent(handle, &mut datagram, buffer.as_mut_ptr(), buffer.len()) };
        match code {
            ffi::NONE => return Ok(None),
            ffi::TOO_SMALL => return Err(Error::TooSmall { needed: datagram.length as usize }),
            code => checked(code)?,
        }
        Ok(Some(SentInto {
            to: datagram.to.socket(),
            number: (datagram.has_number != 0).then_some(datagram.number),
            length: datagram.length as usize,
        }))
    }

    /// The datagrams of the last step that were not read yet, oldest first. [`next_sent`](Device::next_sent) gives the same
    /// without a new vector for each.
    pub fn sent(&mut self) -> Sent<'_> {
        Sent { device: self }
    }
}

/// The datagrams of the last step of a device that were not read yet, oldest first.
#[derive(Debug)]
pub struct Sent<'a> {
    device: &'a mut Device,
}

impl Iterator for Sent<'_> {
    type Item = Datagram;

    fn next(&mut self) -> Option<Datagram> {
        let mut bytes = vec![0; ffi::MAX_DATAGRAM];
        // A datagram always fits such a buffer, so there is no error.
        let sent = self.device.next_sent(&mut bytes).ok()??;
        bytes.truncate(sent.length);
        Some(Datagram { to: sent.to, number: sent.number, bytes })
    }
}

/// Moving.
impl Device {
    /// Stops a context: it leaves the device as an image, and a husk stays that tells its partners to wait. A context with a
    /// Paused queue pair is refused with `PeerMoving`: one end of a connection moves at a time.
    pub fn stop(&mut self, context: Context) -> Result<Image, Error> {
        self.stop_as(context, true)
    }

    /// Stops a context for an owner who has looked himself that no partner of it is carried or Resuming. Then a Paused queue
    /// pair is no hindrance.
    pub fn stop_knowing_partners(&mut self, context: Context) -> Result<Image, Error> {
        self.stop_as(context, false)
    }

    fn stop_as(&mut self, context: Context, alone: bool) -> Result<Image, Error> {
        let mut image = ffi::Image::NOTHING;
        step!(self, jichurpa_stop, &context.name, alone.into(), &mut image)?.being(answer::STOPPED)?;
        Ok(Image::holding(image, context))
    }

    /// Puts the context of an image on this device. The image is used up, since two copies of a context would both answer
    /// its partners; where it is not restored, the error has it.
    pub fn restore(&mut self, mut image: Image) -> Result<Context, RestoreError> {
        let done = step!(self, jichurpa_restore, image.handle_mut());
        match done.and_then(|outcome| outcome.being(answer::DONE)) {
            Ok(_) => Ok(image.context()),
            Err(error) => Err(RestoreError { error, image }),
        }
    }

    /// Forgets the husk of a context. Do it when each queue pair of the context is Running on the new device.
    pub fn release(&mut self, context: Context) -> Result<(), Error> {
        step!(self, jichurpa_release, &context.name)?.being(answer::DONE)?;
        Ok(())
    }
}

/// What lives here. These calls take no memory of the library.
impl Device {
    /// The live contexts, in the order in which they came.
    pub fn contexts(&self) -> Contexts<'_> {
        Contexts { device: self, place: 0 }
    }

    /// The queue pairs of a live context, in the order of making.
    pub fn queue_pairs(&self, context: Context) -> QueuePairs<'_> {
        QueuePairs { device: self, context, place: 0 }
    }

    /// The queue pair of that name, where it lives here.
    pub fn queue_pair(&self, context: Context, name: &str) -> Option<QueuePairInfo> {
        let object = ffi::Object::named(context, name).ok()?;
        let mut end = ffi::End::default();
        QueuePairInfo::of(read!(self, jichurpa_end_named, &object, &mut end), &end)
    }

    /// What is told now of a queue pair, where it lives here.
    pub fn info(&self, qp: QueuePair) -> Option<QueuePairInfo> {
        let mut end = ffi::End::default();
        QueuePairInfo::of(read!(self, jichurpa_end_named, &qp.object, &mut end), &end)
    }

    /// The connected queue pair with a number, where it lives here.
    pub fn queue_pair_numbered(&self, number: u32) -> Option<QueuePairInfo> {
        let mut end = ffi::End::default();
        QueuePairInfo::of(read!(self, jichurpa_end_numbered, number, &mut end), &end)
    }

    /// The marks of the connected queue pair with a number, where it lives here.
    pub fn marks(&self, number: u32) -> Option<Marks> {
        let (mut expected, mut top) = (0, 0);
        let code = read!(self, jichurpa_marks, number, &mut expected, &mut top);
        (code == ffi::OK).then_some(Marks { expected, top })
    }

    pub(crate) fn context_at(&self, place: usize) -> Option<Context> {
        let mut name = ffi::Name::default();
        let code = read!(self, jichurpa_context_at, place, &mut name);
        (code == ffi::OK).then_some(Context { name })
    }

    pub(crate) fn queue_pair_at(&self, context: Context, place: usize) -> Option<QueuePairInfo> {
        let mut end = ffi::End::default();
        QueuePairInfo::of(read!(self, jichurpa_end_at, &context.name, place, &mut end), &end)
    }
}

/// A buffer of so many bytes, where there is memory.
pub(crate) fn zeros(count: usize) -> Result<Vec<u8>, Error> {
    let mut bytes = Vec::new();
    bytes.try_reserve_exact(count).map_err(|_| Error::NoMemory)?;
    bytes.resize(count, 0);
    Ok(bytes)
}

const _: fn() = || {
    fn sent<T: Send>() {}
    sent::<Device>();
};
