//! The station's own calls on a session.

use crate::{
    eis::{connection::DisconnectReason, device::DeviceType, handshake::ContextType, Object},
    event::Events,
    handshake::EisHandshakeResp,
    session::{Session, NONE},
    sys, Device, DeviceCapabilities, DeviceCapability, Refusal, Seat,
};
use std::fmt;

/// What a call answers that writes events: the bytes that it wrote, or why it is refused.
#[inline]
pub(crate) fn answer(status: u32, out: &[u8], count: usize) -> Result<Events<'_>, Refusal> {
    match status {
        0 => Ok(Events::written(out, count)),
        _ => Err(Refusal::from_number(status)),
    }
}

/// A text that may be missing, as the library takes it.
fn optional(text: Option<&[u8]>) -> (u32, &[u8]) {
    match text {
        Some(text) => (1, text),
        None => (0, b""),
    }
}

impl Session {
    /// The version of the interface of this name, if it was negotiated.
    pub(crate) fn interface_version(&self, name: &[u8]) -> Result<Option<u32>, Refusal> {
        let mut version = 0;
        // SAFETY: the control words and the name are borrowed for the call and only read; the number is borrowed
        // mutably.
        let status = unsafe {
            sys::bozterrun_interface_version(
                self.control.as_ptr(),
                self.control.len(),
                name.as_ptr(),
                name.len(),
                &mut version,
            )
        };
        match status {
            0 => Ok(Some(version as u32)),
            NONE => Ok(None),
            _ => Err(Refusal::from_number(status)),
        }
    }
}

/// A connection as the station sees it: its session, and the calls that a station makes on it.
///
/// A seat or a device is an id here, so what `reis` has as methods of `Seat` and `Device` are calls of this type.
/// Each call writes the events that the client is to be told into `out`; 1,225 bytes are enough for any.
///
/// ```
/// # include!(concat!(env!("CARGO_MANIFEST_DIR"), "/tests/begin/mod.rs"));
/// # fn main() -> Result<(), bozterrun::Refusal> {
/// use bozterrun::{DeviceCapability, DeviceType, EventKind};
///
/// # let mut converter = begin(7);
/// # let mut out = [0; bozterrun::OUT_LENGTH];
/// let connection = converter.handle_mut();
/// let both = DeviceCapability::Keyboard | DeviceCapability::Text;
/// let (seat, events) = connection.add_seat(Some(b"counter 3"), both, &mut out)?;
/// assert_eq!(events.count(), 5); // seat, name, two capabilities, done
/// let (device, _) = connection.add_device(seat, None, DeviceType::Virtual, both, &mut out)?;
/// let mut events = connection.resumed(device, &mut out)?;
/// assert_eq!(events.next().map(|event| event.kind), Some(EventKind::Resumed { serial: 8 }));
/// # Ok(()) }
/// ```
pub struct Connection {
    pub(crate) session: Box<Session>,
    name: Option<String>,
    context_type: ContextType,
}

impl fmt::Debug for Connection {
    fn fmt(&self, f: &mut fmt::Formatter<'_>) -> fmt::Result {
        f.debug_struct("Connection")
            .field("name", &self.name)
            .field("context_type", &self.context_type)
            .finish_non_exhaustive()
    }
}

impl Connection {
    pub(crate) fn new(response: EisHandshakeResp) -> Self {
        Self {
            session: response.session,
            name: response.name,
            context_type: response.context_type,
        }
    }

    /// The client's name, if it has said one.
    #[must_use]
    pub fn name(&self) -> Option<&str> {
        self.name.as_deref()
    }

    /// Whether the client sends input or receives it.
    #[must_use]
    pub fn context_type(&self) -> ContextType {
        self.context_type
    }

    /// The last serial that an event had.
    ///
    /// # Errors
    ///
    /// [`Refusal::BadState`].
    pub fn last_serial(&self) -> Result<u32, Refusal> {
        let control = &self.session.control;
        let mut serial = 0;
        // SAFETY: the control words are borrowed for the call and only read; the number is borrowed mutably.
        let status = unsafe { sys::bozterrun_last_serial(control.as_ptr(), control.len(), &mut serial) };
        match status {
            0 => Ok(serial as u32),
            _ => Err(Refusal::from_number(status)),
        }
    }

    /// Whether the interface of this name was negotiated.
    ///
    /// ```
    /// # include!(concat!(env!("CARGO_MANIFEST_DIR"), "/tests/begin/mod.rs"));
    /// # fn main() -> Result<(), bozterrun::Refusal> {
    /// # let converter = begin(7);
    /// assert!(converter.handle().has_interface(b"ei_text")?);
    /// assert!(!converter.handle().has_interface(b"ei_tablet")?);
    /// # Ok(()) }
    /// ```
    ///
    /// # Errors
    ///
    /// [`Refusal::BadUtf8`], [`Refusal::BadState`].
    pub fn has_interface(&self, name: &[u8]) -> Result<bool, Refusal> {
        let control = &self.session.control;
        let mut truth = 0;
        // SAFETY: the control words and the name are borrowed for the call and only read; the number is borrowed
        // mutably.
        let status = unsafe {
            sys::bozterrun_has_interface(control.as_ptr(), control.len(), name.as_ptr(), name.len(), &mut truth)
        };
        match status {
            0 => Ok(truth == 1),
            _ => Err(Refusal::from_number(status)),
        }
    }

    /// The version of the interface of this name, if it was negotiated.
    ///
    /// # Errors
    ///
    /// [`Refusal::BadUtf8`], [`Refusal::BadState`].
    pub fn interface_version(&self, name: &[u8]) -> Result<Option<u32>, Refusal> {
        self.session.interface_version(name)
    }

    /// Adds a seat with those of these capabilities whose interfaces were negotiated: they are announced to the client,
    /// and Bind or RequestDevice of any other is [`Refusal::InvalidCapabilities`]. Where `ei_seat` itself was not
    /// negotiated, the seat says version 1.
    ///
    /// # Errors
    ///
    /// [`Refusal::BadUtf8`], [`Refusal::NameLong`], [`Refusal::BadCapabilities`], [`Refusal::FullSeats`],
    /// [`Refusal::IdsSpent`], [`Refusal::ShortOut`] (429 bytes are enough), [`Refusal::BadState`].
    pub fn add_seat<'o>(
        &mut self,
        name: Option<&[u8]>,
        capabilities: impl Into<DeviceCapabilities>,
        out: &'o mut [u8],
    ) -> Result<(Seat, Events<'o>), Refusal> {
        let control = &mut self.session.control;
        let (given, name) = optional(name);
        let (mut count, mut id) = (0, 0);
        // SAFETY: the control words, `out` and the numbers are borrowed mutably for the call; the name is only read.
        let status = unsafe {
            sys::bozterrun_add_seat(
                control.as_mut_ptr(),
                control.len(),
                given,
                name.as_ptr(),
                name.len(),
                capabilities.into().bits(),
                out.as_mut_ptr(),
                out.len(),
                &mut count,
                &mut id,
            )
        };
        answer(status, out, count).map(|events| (Seat(id), events))
    }

    /// Adds a device to a seat, with an interface for each capability that the seat has too: for none that was not
    /// negotiated. Where `ei_device` itself was not, the device says version 1.
    ///
    /// # Errors
    ///
    /// [`Refusal::BadUtf8`], [`Refusal::NameLong`], [`Refusal::BadCapabilities`], [`Refusal::UnknownHandle`],
    /// [`Refusal::FullDevices`], [`Refusal::IdsSpent`], [`Refusal::ShortOut`] (471 bytes are enough),
    /// [`Refusal::BadState`].
    pub fn add_device<'o>(
        &mut self,
        seat: Seat,
        name: Option<&[u8]>,
        device_type: DeviceType,
        capabilities: impl Into<DeviceCapabilities>,
        out: &'o mut [u8],
    ) -> Result<(Device, Events<'o>), Refusal> {
        let control = &mut self.session.control;
        let (given, name) = optional(name);
        let (mut count, mut id) = (0, 0);
        // SAFETY: the control words, `out` and the numbers are borrowed mutably for the call; the name is only read.
        let status = unsafe {
            sys::bozterrun_add_device(
                control.as_mut_ptr(),
                control.len(),
                seat.id(),
                given,
                name.as_ptr(),
                name.len(),
                device_type.number(),
                capabilities.into().bits(),
                out.as_mut_ptr(),
                out.len(),
                &mut count,
                &mut id,
            )
        };
        answer(status, out, count).map(|events| (Device(id), events))
    }

    /// Removes a seat with its devices. What they have pending is dropped, what is queued stays.
    ///
    /// # Errors
    ///
    /// [`Refusal::UnknownHandle`], [`Refusal::ShortOut`] (910 bytes are enough), [`Refusal::BadState`].
    pub fn remove_seat<'o>(&mut self, seat: Seat, out: &'o mut [u8]) -> Result<Events<'o>, Refusal> {
        let Session {
            control, words, reals, ..
        } = &mut *self.session;
        let mut count = 0;
        // SAFETY: the slices of the session, `out` and the number are borrowed mutably for the call.
        let status = unsafe {
            sys::bozterrun_remove_seat(
                control.as_mut_ptr(),
                control.len(),
                words.as_mut_ptr(),
                words.len(),
                reals.as_mut_ptr(),
                reals.len(),
                seat.id(),
                out.as_mut_ptr(),
                out.len(),
                &mut count,
            )
        };
        answer(status, out, count)
    }

    /// Removes a device with its interfaces. What it has pending is dropped, what is queued stays.
    ///
    /// # Errors
    ///
    /// [`Refusal::UnknownHandle`], [`Refusal::ShortOut`] (112 bytes are enough), [`Refusal::BadState`].
    pub fn remove_device<'o>(&mut self, device: Device, out: &'o mut [u8]) -> Result<Events<'o>, Refusal> {
        let Session {
            control, words, reals, ..
        } = &mut *self.session;
        let mut count = 0;
        // SAFETY: the slices of the session, `out` and the number are borrowed mutably for the call.
        let status = unsafe {
            sys::bozterrun_remove_device(
                control.as_mut_ptr(),
                control.len(),
                words.as_mut_ptr(),
                words.len(),
                reals.as_mut_ptr(),
                reals.len(),
                device.id(),
                out.as_mut_ptr(),
                out.len(),
                &mut count,
            )
        };
        answer(status, out, count)
    }

    /// Tells the client that it may send input on the device.
    ///
    /// # Errors
    ///
    /// [`Refusal::UnknownHandle`], [`Refusal::ShortOut`] (14 bytes), [`Refusal::BadState`].
    pub fn resumed<'o>(&mut self, device: Device, out: &'o mut [u8]) -> Result<Events<'o>, Refusal> {
        let control = &mut self.session.control;
        let mut count = 0;
        // SAFETY: the control words, `out` and the number are borrowed mutably for the call.
        let status = unsafe {
            sys::bozterrun_resumed(
                control.as_mut_ptr(),
                control.len(),
                device.id(),
                out.as_mut_ptr(),
                out.len(),
                &mut count,
            )
        };
        answer(status, out, count)
    }

    /// Tells the client that it may send no more input on the device, and forgets which touches are held.
    ///
    /// # Errors
    ///
    /// [`Refusal::UnknownHandle`], [`Refusal::ShortOut`] (14 bytes), [`Refusal::BadState`].
    pub fn paused<'o>(&mut self, device: Device, out: &'o mut [u8]) -> Result<Events<'o>, Refusal> {
        let control = &mut self.session.control;
        let mut count = 0;
        // SAFETY: the control words, `out` and the number are borrowed mutably for the call.
        let status = unsafe {
            sys::bozterrun_paused(
                control.as_mut_ptr(),
                control.len(),
                device.id(),
                out.as_mut_ptr(),
                out.len(),
                &mut count,
            )
        };
        answer(status, out, count)
    }

    /// Tells a receiver that the device begins to send input.
    ///
    /// # Errors
    ///
    /// [`Refusal::UnknownHandle`], [`Refusal::ShortOut`] (18 bytes), [`Refusal::BadState`].
    pub fn start_emulating<'o>(
        &mut self,
        device: Device,
        sequence: u32,
        out: &'o mut [u8],
    ) -> Result<Events<'o>, Refusal> {
        let control = &mut self.session.control;
        let mut count = 0;
        // SAFETY: the control words, `out` and the number are borrowed mutably for the call.
        let status = unsafe {
            sys::bozterrun_start_emulating(
                control.as_mut_ptr(),
                control.len(),
                device.id(),
                sequence,
                out.as_mut_ptr(),
                out.len(),
                &mut count,
            )
        };
        answer(status, out, count)
    }

    /// Tells a receiver that the device ends sending input.
    ///
    /// # Errors
    ///
    /// [`Refusal::UnknownHandle`], [`Refusal::ShortOut`] (14 bytes), [`Refusal::BadState`].
    pub fn stop_emulating<'o>(&mut self, device: Device, out: &'o mut [u8]) -> Result<Events<'o>, Refusal> {
        let control = &mut self.session.control;
        let mut count = 0;
        // SAFETY: the control words, `out` and the number are borrowed mutably for the call.
        let status = unsafe {
            sys::bozterrun_stop_emulating(
                control.as_mut_ptr(),
                control.len(),
                device.id(),
                out.as_mut_ptr(),
                out.len(),
                &mut count,
            )
        };
        answer(status, out, count)
    }

    /// Ends a frame of the device's input, for a receiver.
    ///
    /// # Errors
    ///
    /// [`Refusal::UnknownHandle`], [`Refusal::ShortOut`] (22 bytes), [`Refusal::BadState`].
    pub fn frame<'o>(&mut self, device: Device, time: u64, out: &'o mut [u8]) -> Result<Events<'o>, Refusal> {
        let control = &mut self.session.control;
        let mut count = 0;
        // SAFETY: the control words, `out` and the number are borrowed mutably for the call.
        let status = unsafe {
            sys::bozterrun_frame(
                control.as_mut_ptr(),
                control.len(),
                device.id(),
                time,
                out.as_mut_ptr(),
                out.len(),
                &mut count,
            )
        };
        answer(status, out, count)
    }

    /// Takes every seat out with its devices, and tells the client why it is disconnected. Requests that are queued
    /// stay queued.
    ///
    /// ```
    /// # include!(concat!(env!("CARGO_MANIFEST_DIR"), "/tests/begin/mod.rs"));
    /// # fn main() -> Result<(), bozterrun::Refusal> {
    /// use bozterrun::{DisconnectReason, EventKind};
    ///
    /// # let mut converter = begin(7);
    /// # let mut out = [0; bozterrun::OUT_LENGTH];
    /// let (reason, why) = (DisconnectReason::Protocol, Some(&b"a text of no byte"[..]));
    /// let events = converter.handle_mut().disconnected(reason, why, &mut out)?;
    /// let last = events.last().map(|event| event.kind);
    /// assert_eq!(last, Some(EventKind::Disconnected { last_serial: 7, reason, explanation: why }));
    /// # Ok(()) }
    /// ```
    ///
    /// # Errors
    ///
    /// [`Refusal::BadUtf8`], [`Refusal::NameLong`], [`Refusal::ShortOut`] (1,225 bytes are enough),
    /// [`Refusal::BadState`].
    pub fn disconnected<'o>(
        &mut self,
        reason: DisconnectReason,
        explanation: Option<&[u8]>,
        out: &'o mut [u8],
    ) -> Result<Events<'o>, Refusal> {
        let Session {
            control, words, reals, ..
        } = &mut *self.session;
        let (given, explanation) = optional(explanation);
        let mut count = 0;
        // SAFETY: the slices of the session, `out` and the number are borrowed mutably for the call; the explanation
        // is only read.
        let status = unsafe {
            sys::bozterrun_disconnected(
                control.as_mut_ptr(),
                control.len(),
                words.as_mut_ptr(),
                words.len(),
                reals.as_mut_ptr(),
                reals.len(),
                reason.number(),
                given,
                explanation.as_ptr(),
                explanation.len(),
                out.as_mut_ptr(),
                out.len(),
                &mut count,
            )
        };
        answer(status, out, count)
    }

    /// Whether the device has an interface for the capability that the client has not released.
    ///
    /// # Errors
    ///
    /// [`Refusal::UnknownHandle`], [`Refusal::BadState`].
    pub fn has_capability(&self, device: Device, capability: DeviceCapability) -> Result<bool, Refusal> {
        let control = &self.session.control;
        let mut truth = 0;
        // SAFETY: the control words are borrowed for the call and only read; the number is borrowed mutably.
        let status = unsafe {
            sys::bozterrun_has_capability(
                control.as_ptr(),
                control.len(),
                device.id(),
                capability.bits(),
                &mut truth,
            )
        };
        match status {
            0 => Ok(truth == 1),
            _ => Err(Refusal::from_number(status)),
        }
    }

    /// The device's interface for the capability, if it has one that the client has not released.
    ///
    /// The ids of a device's interfaces follow its own, in the order of the capabilities' bits. They stay as they are
    /// when another one is released.
    ///
    /// ```
    /// # include!(concat!(env!("CARGO_MANIFEST_DIR"), "/tests/begin/mod.rs"));
    /// # fn main() -> Result<(), bozterrun::Refusal> {
    /// use bozterrun::{eis::Object, Device, DeviceCapability::*, DeviceType};
    ///
    /// # let mut converter = begin(7);
    /// # let mut out = [0; bozterrun::OUT_LENGTH];
    /// let connection = converter.handle_mut();
    /// let (seat, _) = connection.add_seat(None, Keyboard | Touch | Text, &mut out)?;
    /// let (device, _) = connection.add_device(seat, None, DeviceType::Virtual, Keyboard | Touch, &mut out)?;
    /// assert_eq!(device, Device(0xff00000000000002));
    /// assert_eq!(connection.interface(device, Keyboard)?, Some(Object::new(0xff00000000000003, 1)));
    /// assert_eq!(connection.interface(device, Touch)?, Some(Object::new(0xff00000000000004, 2)));
    /// assert_eq!(connection.interface(device, Text)?, None);
    /// # Ok(()) }
    /// ```
    ///
    /// # Errors
    ///
    /// [`Refusal::UnknownHandle`], [`Refusal::BadState`].
    pub fn interface(&self, device: Device, capability: DeviceCapability) -> Result<Option<Object>, Refusal> {
        if !self.has_capability(device, capability)? {
            return Ok(None);
        }
        let lower = self.session.made_with(device) & (capability.bits() - 1);
        let id = device.id().wrapping_add(1 + u64::from(lower.count_ones()));
        // A device has an interface only where a version was negotiated for it, and with that version.
        let version = self.interface_version(capability.interface().name().as_bytes())?;
        Ok(version.map(|version| Object::new(id, version)))
    }

    /// The session's memory, for tests that look at it or write to it.
    #[doc(hidden)]
    pub fn memory(&mut self) -> &mut Session {
        &mut self.session
    }
}
