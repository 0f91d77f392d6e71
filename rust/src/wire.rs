//! Event records as the protocol's messages: what goes to the client, and how a client reads it.

use crate::{
    event::{Event, EventKind, Events, Interface},
    message::HEADER_LENGTH,
    sys, Refusal,
};
use std::collections::HashMap;

/// The most bytes of an event's message: `out` of [`write_message`] needs no more.
pub const EVENT_MESSAGE_LENGTH: usize = 284;

/// The most bytes of an event record: `out` of [`read_message`] needs no more.
pub const EVENT_RECORD_LENGTH: usize = 273;

/// The lowest id that the server gives. Those below are the client's, which makes callbacks and nothing else.
const FIRST_SERVER_ID: u64 = 0xff00000000000000;

/// What the library answers where bytes are no event's message, without a case.
const MALFORMED: u32 = 23;

/// The number by which the library is told an interface: 0 is the handshake's.
fn number(interface: Option<Interface>) -> u32 {
    interface.map_or(0, Interface::number)
}

/// Writes the message of one event record to the front of `out`, and answers it. `interface` is that of the object that
/// the event is on, `None` for the handshake's.
///
/// [`MessageWriter`] knows the interfaces by itself.
///
/// ```
/// use bozterrun::{read_message, write_message, Interface, Refusal};
///
/// // Destroyed, on 0xff00000000000001, with the serial 8.
/// let record = [0x28, 14, 0xff, 0, 0, 0, 0, 0, 0, 1, 0, 0, 0, 8];
/// let mut out = [0; bozterrun::EVENT_MESSAGE_LENGTH];
/// let message = write_message(Some(Interface::Seat), &record, &mut out)?;
/// assert_eq!(message, [1, 0, 0, 0, 0, 0, 0, 0xff, 20, 0, 0, 0, 0, 0, 0, 0, 8, 0, 0, 0]);
///
/// let mut back = [0; bozterrun::EVENT_RECORD_LENGTH];
/// assert_eq!(read_message(Some(Interface::Seat), message, &mut back)?, record);
///
/// // A connection is never destroyed.
/// let refused = write_message(Some(Interface::Connection), &record, &mut out);
/// assert_eq!(refused, Err(Refusal::Unsendable));
/// # Ok::<(), Refusal>(())
/// ```
///
/// # Errors
///
/// [`Refusal::Unsendable`] for bytes that are not exactly one record, or one that an object of the interface cannot
/// send; then [`Refusal::ShortOut`]. `out` is then as it was.
pub fn write_message<'o>(interface: Option<Interface>, record: &[u8], out: &'o mut [u8]) -> Result<&'o [u8], Refusal> {
    let mut count = 0;
    // SAFETY: each pointer is that of a slice or a number that is borrowed for the call, with its length; the record is
    // only read.
    let status = unsafe {
        sys::bozterrun_write_message(
            number(interface),
            record.as_ptr(),
            record.len(),
            out.as_mut_ptr(),
            out.len(),
            &mut count,
        )
    };
    match status {
        0 => Ok(out.get(..count).unwrap_or_default()),
        _ => Err(Refusal::from_number(status)),
    }
}

/// The other way: writes the record of one message to the front of `out`, and answers it. It takes exactly what
/// [`write_message`] writes for the interface, so that writing what it answers gives the same bytes.
///
/// [`MessageReader`] knows the interfaces by itself, and where a message ends.
///
/// # Errors
///
/// [`Refusal::MalformedEvent`] for bytes that are not exactly one message of an event of this interface; then
/// [`Refusal::ShortOut`]. `out` is then as it was.
pub fn read_message<'o>(interface: Option<Interface>, message: &[u8], out: &'o mut [u8]) -> Result<&'o [u8], Refusal> {
    let mut count = 0;
    // SAFETY: each pointer is that of a slice or a number that is borrowed for the call, with its length; the message
    // is only read.
    let status = unsafe {
        sys::bozterrun_read_message(
            number(interface),
            message.as_ptr(),
            message.len(),
            out.as_mut_ptr(),
            out.len(),
            &mut count,
        )
    };
    match status {
        0 => Ok(out.get(..count).unwrap_or_default()),
        MALFORMED => Err(Refusal::MalformedEvent),
        _ => Err(Refusal::from_number(status)),
    }
}

/// The objects that the client has been told of, by id, and their interfaces; `None` is the handshake's.
#[derive(Clone, Debug)]
struct Objects(HashMap<u64, Option<Interface>>);

impl Objects {
    /// As a connection begins: there is the handshake.
    fn new() -> Self {
        Self(HashMap::from([(0, None)]))
    }

    /// The interface of the object that an event is on, as its sender knows it. Most kinds are one interface's.
    fn of_event(&self, event: &Event) -> Option<Option<Interface>> {
        Some(match event.kind {
            EventKind::HandshakeVersion { .. } | EventKind::InterfaceVersion { .. } | EventKind::Connection { .. } => {
                None
            }
            EventKind::Seat { .. } | EventKind::Disconnected { .. } => Some(Interface::Connection),
            EventKind::CallbackDone { .. } => Some(Interface::Callback),
            EventKind::Capability { .. } | EventKind::Device { .. } => Some(Interface::Seat),
            EventKind::DeviceType { .. }
            | EventKind::Interface { .. }
            | EventKind::Resumed { .. }
            | EventKind::Paused { .. }
            | EventKind::StartEmulating { .. }
            | EventKind::StopEmulating { .. }
            | EventKind::Frame { .. } => Some(Interface::Device),
            EventKind::Name { .. } | EventKind::Done | EventKind::Destroyed { .. } => {
                return self.0.get(&event.object).copied();
            }
        })
    }

    /// The interface of the object with an id, as its receiver knows it.
    fn of_id(&self, id: u64) -> Option<Option<Interface>> {
        match self.0.get(&id) {
            None if 0 < id && id < FIRST_SERVER_ID => Some(Some(Interface::Callback)),
            known => known.copied(),
        }
    }

    /// Takes note of the objects that an event makes or ends.
    fn note(&mut self, event: &Event) {
        let (id, interface) = match event.kind {
            EventKind::Connection { connection, .. } => {
                self.0.remove(&event.object);
                (connection.id, Interface::Connection)
            }
            EventKind::Seat { seat, .. } => (seat.id(), Interface::Seat),
            EventKind::Device { device, .. } => (device.id(), Interface::Device),
            EventKind::Interface { object, interface } => (object.id, interface),
            EventKind::Destroyed { .. } | EventKind::Disconnected { .. } => {
                self.0.remove(&event.object);
                return;
            }
            _ => return,
        };
        self.0.insert(id, Some(interface));
    }
}

/// Writes events as the protocol's messages: the station's end of a connection.
///
/// It knows the interface of each object from the events that it has written, so every event of a connection goes
/// through one writer, in order, from the handshake's on.
///
/// ```
/// use bozterrun::{EisHandshaker, Events, MessageWriter, Refusal};
///
/// let mut out = [0; bozterrun::OUT_LENGTH];
/// let mut writer = MessageWriter::new();
/// let mut bytes = Vec::new(); // to be sent
/// let (_handshaker, events) = EisHandshaker::new(7, &mut out)?;
/// writer.write(events, &mut bytes)?;
/// assert_eq!(bytes, [0, 0, 0, 0, 0, 0, 0, 0, 20, 0, 0, 0, 0, 0, 0, 0, 1, 0, 0, 0]);
///
/// // A seat that nobody has been told of has no name.
/// let name = [0x10, 11, 0xff, 0, 0, 0, 0, 0, 0, 1, b'3'];
/// assert_eq!(writer.write(Events::new(&name), &mut bytes), Err(Refusal::Unsendable));
/// assert_eq!(bytes.len(), 20);
/// # Ok::<(), Refusal>(())
/// ```
#[derive(Clone, Debug)]
pub struct MessageWriter {
    objects: Objects,
}

impl Default for MessageWriter {
    fn default() -> Self {
        Self::new()
    }
}

impl MessageWriter {
    /// The writer of a new connection.
    #[must_use]
    pub fn new() -> Self {
        Self {
            objects: Objects::new(),
        }
    }

    /// Appends the messages of the events to `bytes`, in order.
    ///
    /// # Errors
    ///
    /// [`Refusal::Unsendable`] for an event that cannot be sent, or whose object is not known. Those before it have
    /// been appended; it and those behind it are not. Of the events of a session's own calls only one can be refused:
    /// that with a name or an explanation of the station's which has a zero byte.
    pub fn write(&mut self, mut events: Events<'_>, bytes: &mut Vec<u8>) -> Result<(), Refusal> {
        let mut out = [0; EVENT_MESSAGE_LENGTH];
        while !events.is_empty() {
            let rest = events.as_bytes();
            let event = events.next().ok_or(Refusal::Unsendable)?;
            let record = &rest[..rest.len() - events.as_bytes().len()];
            let interface = self.objects.of_event(&event).ok_or(Refusal::Unsendable)?;
            bytes.extend_from_slice(write_message(interface, record, &mut out)?);
            self.objects.note(&event);
        }
        Ok(())
    }
}

/// Reads the messages that a [`MessageWriter`] has written: the client's end of a connection, for tests of a station.
///
/// It takes the bytes as they come, in pieces of any size, and knows the interface of each object from the events that
/// it has read.
///
/// ```
/// use bozterrun::{EisHandshaker, Event, EventKind, MessageReader, MessageWriter};
///
/// let mut out = [0; bozterrun::OUT_LENGTH];
/// let mut bytes = Vec::new();
/// let (_handshaker, events) = EisHandshaker::new(7, &mut out)?;
/// MessageWriter::new().write(events, &mut bytes)?;
///
/// let mut reader = MessageReader::new();
/// let (first, rest) = bytes.split_at(5);
/// reader.push(first);
/// assert_eq!(reader.next_event()?, None); // it waits
/// reader.push(rest);
/// let (object, kind) = (0, EventKind::HandshakeVersion { version: 1 });
/// assert_eq!(reader.next_event()?, Some(Event { object, kind }));
/// assert!(reader.waiting().is_empty());
/// # Ok::<(), bozterrun::Refusal>(())
/// ```
#[derive(Clone, Debug)]
pub struct MessageReader {
    objects: Objects,
    bytes: Vec<u8>,
    /// How many of them have been read.
    read: usize,
    record: [u8; EVENT_RECORD_LENGTH],
}

impl Default for MessageReader {
    fn default() -> Self {
        Self::new()
    }
}

impl MessageReader {
    /// The reader of a new connection.
    #[must_use]
    pub fn new() -> Self {
        Self {
            objects: Objects::new(),
            bytes: Vec::new(),
            read: 0,
            record: [0; EVENT_RECORD_LENGTH],
        }
    }

    /// Adds bytes that were received.
    pub fn push(&mut self, bytes: &[u8]) {
        self.bytes.drain(..self.read);
        self.read = 0;
        self.bytes.extend_from_slice(bytes);
    }

    /// The bytes that have been pushed and not read.
    #[must_use]
    pub fn waiting(&self) -> &[u8] {
        &self.bytes[self.read..]
    }

    /// The next event, `None` where its message is not yet whole.
    ///
    /// # Errors
    ///
    /// [`Refusal::NoObject`] for a message to an object that no event has made, or that is gone, and
    /// [`Refusal::MalformedEvent`] for one that no [`MessageWriter`] writes. The message is not read then, and whoever
    /// sent it is not to be trusted further.
    pub fn next_event(&mut self) -> Result<Option<Event<'_>>, Refusal> {
        let waiting = &self.bytes[self.read..];
        let Some((id, rest)) = waiting.split_first_chunk() else {
            return Ok(None);
        };
        let Some(length) = rest.first_chunk() else {
            return Ok(None);
        };
        let interface = self.objects.of_id(u64::from_le_bytes(*id)).ok_or(Refusal::NoObject)?;
        let length = u32::from_le_bytes(*length) as usize;
        if !(HEADER_LENGTH..=EVENT_MESSAGE_LENGTH).contains(&length) {
            return Err(Refusal::MalformedEvent);
        }
        let Some(message) = waiting.get(..length) else {
            return Ok(None);
        };
        let record = read_message(interface, message, &mut self.record)?;
        let (event, _) = Event::decode(record).ok_or(Refusal::MalformedEvent)?;
        self.objects.note(&event);
        self.read += length;
        Ok(Some(event))
    }
}

#[cfg(test)]
mod tests {
    use super::*;
    use crate::{eis::Object, Device, DisconnectReason, Seat};

    fn event(object: u64, kind: EventKind<'_>) -> Event<'_> {
        Event { object, kind }
    }

    /// The interface of a known object, by both ways to ask: as a Done on it is sent, and as a message to it is read.
    fn known(objects: &Objects, id: u64) -> Option<Interface> {
        let asked = objects.of_event(&event(id, EventKind::Done));
        assert_eq!(asked, objects.of_id(id));
        asked.flatten()
    }

    #[test]
    fn objects_come_and_go_with_their_events() {
        let (connection, seat, device) = (FIRST_SERVER_ID, FIRST_SERVER_ID + 1, FIRST_SERVER_ID + 2);
        let mut objects = Objects::new();
        assert_eq!(objects.of_id(0), Some(None));
        let begins = EventKind::Connection {
            connection: Object::new(connection, 1),
            serial: 7,
        };
        objects.note(&event(0, begins));
        assert_eq!(objects.of_id(0), None);
        assert_eq!(known(&objects, connection), Some(Interface::Connection));
        let (version, serial) = (1, 8);
        let added = EventKind::Seat {
            seat: Seat(seat),
            version,
        };
        objects.note(&event(connection, added));
        let added = EventKind::Device {
            device: Device(device),
            version,
        };
        objects.note(&event(seat, added));
        for (id, interface) in (device + 1..).zip([Interface::Keyboard, Interface::Text]) {
            let object = Object::new(id, version);
            objects.note(&event(device, EventKind::Interface { object, interface }));
            assert_eq!(known(&objects, id), Some(interface));
        }
        objects.note(&event(device, EventKind::Resumed { serial }));
        assert_eq!(known(&objects, device), Some(Interface::Device));
        objects.note(&event(device + 1, EventKind::Destroyed { serial }));
        assert_eq!(known(&objects, device + 1), None);
        assert_eq!(known(&objects, device + 2), Some(Interface::Text));
        assert_eq!(known(&objects, seat), Some(Interface::Seat));
        let ended = EventKind::Disconnected {
            last_serial: serial,
            reason: DisconnectReason::Mode,
            explanation: None,
        };
        objects.note(&event(connection, ended));
        assert_eq!(known(&objects, connection), None);
        // A second one is still sent on the connection.
        assert_eq!(
            objects.of_event(&event(connection, ended)),
            Some(Some(Interface::Connection))
        );
    }

    #[test]
    fn ids_of_the_client_are_callbacks() {
        let objects = Objects::new();
        for id in [1, 5, FIRST_SERVER_ID - 1] {
            assert_eq!(objects.of_id(id), Some(Some(Interface::Callback)));
        }
        for id in [FIRST_SERVER_ID, u64::MAX] {
            assert_eq!(objects.of_id(id), None);
        }
        // The answer to a Sync is a callback's, whatever its id.
        let done = EventKind::CallbackDone { callback_data: 0 };
        assert_eq!(
            objects.of_event(&event(u64::MAX, done)),
            Some(Some(Interface::Callback))
        );
    }
}
