//! Event records: what the client is to be told, as the calls write it to `out`. `wire` turns them into messages.

use crate::{
    eis::{connection::DisconnectReason, device::DeviceType, Object},
    Device, DeviceCapability, Seat,
};

/// An interface of the protocol. The numbers are those of the event records.
///
/// ```
/// use bozterrun::Interface;
///
/// assert_eq!(Interface::Keyboard.number(), 10);
/// assert_eq!(Interface::Keyboard.name(), "ei_keyboard");
/// assert_eq!(Interface::from_name("ei_touchscreen"), Some(Interface::Touchscreen));
/// assert_eq!(Interface::Touchscreen.version(), 2);
/// ```
#[derive(Clone, Copy, Debug, PartialEq, Eq, Hash)]
#[repr(u32)]
pub enum Interface {
    /// `ei_connection`.
    Connection = 1,
    /// `ei_callback`.
    Callback = 2,
    /// `ei_pingpong`.
    Pingpong = 3,
    /// `ei_seat`.
    Seat = 4,
    /// `ei_device`.
    Device = 5,
    /// `ei_pointer`.
    Pointer = 6,
    /// `ei_pointer_absolute`.
    PointerAbsolute = 7,
    /// `ei_scroll`.
    Scroll = 8,
    /// `ei_button`.
    Button = 9,
    /// `ei_keyboard`.
    Keyboard = 10,
    /// `ei_touchscreen`.
    Touchscreen = 11,
    /// `ei_text`.
    Text = 12,
}

impl Interface {
    /// All twelve, in the order of their numbers.
    pub const ALL: [Self; 12] = [
        Self::Connection,
        Self::Callback,
        Self::Pingpong,
        Self::Seat,
        Self::Device,
        Self::Pointer,
        Self::PointerAbsolute,
        Self::Scroll,
        Self::Button,
        Self::Keyboard,
        Self::Touchscreen,
        Self::Text,
    ];

    /// Its number, 1 to 12.
    #[inline]
    #[must_use]
    pub const fn number(self) -> u32 {
        self as u32
    }

    /// The interface of this number, if it is one's.
    #[must_use]
    pub fn from_number(number: u32) -> Option<Self> {
        Self::ALL.into_iter().find(|interface| interface.number() == number)
    }

    /// Its name in the protocol.
    #[must_use]
    pub const fn name(self) -> &'static str {
        match self {
            Self::Connection => "ei_connection",
            Self::Callback => "ei_callback",
            Self::Pingpong => "ei_pingpong",
            Self::Seat => "ei_seat",
            Self::Device => "ei_device",
            Self::Pointer => "ei_pointer",
            Self::PointerAbsolute => "ei_pointer_absolute",
            Self::Scroll => "ei_scroll",
            Self::Button => "ei_button",
            Self::Keyboard => "ei_keyboard",
            Self::Touchscreen => "ei_touchscreen",
            Self::Text => "ei_text",
        }
    }

    /// The interface of this name, if it is one's.
    #[must_use]
    pub fn from_name(name: &str) -> Option<Self> {
        Self::ALL.into_iter().find(|interface| interface.name() == name)
    }

    /// The version that the server offers. The lower of the client's and the server's is negotiated.
    #[must_use]
    pub const fn version(self) -> u32 {
        match self {
            Self::Seat | Self::Touchscreen => 2,
            Self::Device => 3,
            _ => 1,
        }
    }
}

/// What an event says. Texts are UTF-8.
#[derive(Clone, Copy, Debug, PartialEq, Eq)]
pub enum EventKind<'a> {
    /// A seat is there.
    Seat {
        /// The seat.
        seat: Seat,
        /// Its version.
        version: u32,
    },
    /// The name of a seat or of a device.
    Name {
        /// The name.
        name: &'a [u8],
    },
    /// A seat has a capability.
    Capability {
        /// The capability, whose mask is its bit.
        mask: DeviceCapability,
        /// The interface that stands for it.
        interface: Interface,
    },
    /// All about the seat or the device has been said.
    Done,
    /// The object is gone.
    Destroyed {
        /// The event's serial.
        serial: u32,
    },
    /// A device is there.
    Device {
        /// The device.
        device: Device,
        /// Its version.
        version: u32,
    },
    /// Whether the device is virtual or physical.
    DeviceType {
        /// The type.
        device_type: DeviceType,
    },
    /// A device has an interface.
    Interface {
        /// The interface's object.
        object: Object,
        /// Which interface it is.
        interface: Interface,
    },
    /// The client may send input on the device.
    Resumed {
        /// The event's serial.
        serial: u32,
    },
    /// The client may send no more input on the device.
    Paused {
        /// The event's serial.
        serial: u32,
    },
    /// The device begins to send input.
    StartEmulating {
        /// The event's serial.
        serial: u32,
        /// A number for this emulation.
        sequence: u32,
    },
    /// The device ends sending input.
    StopEmulating {
        /// The event's serial.
        serial: u32,
    },
    /// Ends a frame.
    Frame {
        /// The event's serial.
        serial: u32,
        /// Microseconds of `CLOCK_MONOTONIC`.
        time: u64,
    },
    /// The client is disconnected.
    Disconnected {
        /// The last serial; this event raises none.
        last_serial: u32,
        /// Why.
        reason: DisconnectReason,
        /// Why, in words.
        explanation: Option<&'a [u8]>,
    },
    /// The answer to a Sync.
    CallbackDone {
        /// What is said with it.
        callback_data: u64,
    },
    /// The version of the handshake.
    HandshakeVersion {
        /// The version.
        version: u32,
    },
    /// The version of an interface that was negotiated.
    InterfaceVersion {
        /// The interface.
        interface: Interface,
        /// The version.
        version: u32,
    },
    /// The handshake is finished.
    Connection {
        /// The connection's object.
        connection: Object,
        /// The session's first serial.
        serial: u32,
    },
}

/// An event for the client: the object that it is sent on, and what it says.
///
/// ```
/// use bozterrun::{Event, EventKind};
///
/// let record = [0x28, 0x0e, 0xff, 0, 0, 0, 0, 0, 0, 1, 0, 0, 0, 8];
/// let (event, length) = Event::decode(&record).unwrap();
/// assert_eq!(event, Event { object: 0xff00000000000001, kind: EventKind::Destroyed { serial: 8 } });
/// assert_eq!(length, 14);
/// ```
#[derive(Clone, Copy, Debug, PartialEq, Eq)]
pub struct Event<'a> {
    /// The id of the object that the event is sent on, 0 for the handshake's.
    pub object: u64,
    /// What it says.
    pub kind: EventKind<'a>,
}

/// The fields of a record that have not been read.
struct Fields<'a>(&'a [u8]);

impl<'a> Fields<'a> {
    fn bytes<const N: usize>(&mut self) -> Option<[u8; N]> {
        let (first, rest) = self.0.split_first_chunk::<N>()?;
        self.0 = rest;
        Some(*first)
    }

    fn u8(&mut self) -> Option<u8> {
        self.bytes().map(u8::from_be_bytes)
    }

    fn u32(&mut self) -> Option<u32> {
        self.bytes().map(u32::from_be_bytes)
    }

    fn u64(&mut self) -> Option<u64> {
        self.bytes().map(u64::from_be_bytes)
    }

    fn interface(&mut self) -> Option<Interface> {
        Interface::from_number(self.u8()?.into())
    }

    /// A text, which goes to the record's end.
    fn text(&mut self) -> &'a [u8] {
        std::mem::take(&mut self.0)
    }
}

impl<'a> Event<'a> {
    /// The event that these bytes begin with, and how many of them it takes; `None` where they begin with no event
    /// record.
    #[must_use]
    pub fn decode(bytes: &'a [u8]) -> Option<(Self, usize)> {
        let head = u16::from_be_bytes(*bytes.first_chunk()?);
        let length = usize::from(head & 0x7ff);
        let mut fields = Fields(bytes.get(2..length)?);
        let object = fields.u64()?;
        let kind = match head >> 11 {
            1 => EventKind::Seat {
                seat: Seat(fields.u64()?),
                version: fields.u32()?,
            },
            2 => EventKind::Name { name: fields.text() },
            3 => EventKind::Capability {
                mask: DeviceCapability::from_bits(fields.u64()?)?,
                interface: fields.interface()?,
            },
            4 => EventKind::Done,
            5 => EventKind::Destroyed { serial: fields.u32()? },
            6 => EventKind::Device {
                device: Device(fields.u64()?),
                version: fields.u32()?,
            },
            7 => EventKind::DeviceType {
                device_type: DeviceType::from_number(fields.u32()?)?,
            },
            8 => {
                let (id, interface, version) = (fields.u64()?, fields.interface()?, fields.u32()?);
                let object = Object { id, version };
                EventKind::Interface { object, interface }
            }
            9 => EventKind::Resumed { serial: fields.u32()? },
            10 => EventKind::Paused { serial: fields.u32()? },
            11 => EventKind::StartEmulating {
                serial: fields.u32()?,
                sequence: fields.u32()?,
            },
            12 => EventKind::StopEmulating { serial: fields.u32()? },
            13 => EventKind::Frame {
                serial: fields.u32()?,
                time: fields.u64()?,
            },
            14 => EventKind::Disconnected {
                last_serial: fields.u32()?,
                reason: DisconnectReason::from_number(fields.u32()?)?,
                explanation: match fields.u8()? {
                    0x00 => None,
                    0x80 => Some(fields.text()),
                    _ => return None,
                },
            },
            15 => EventKind::CallbackDone {
                callback_data: fields.u64()?,
            },
            16 => EventKind::HandshakeVersion { version: fields.u32()? },
            17 => EventKind::InterfaceVersion {
                interface: fields.interface()?,
                version: fields.u32()?,
            },
            18 => {
                let (id, serial, version) = (fields.u64()?, fields.u32()?, fields.u32()?);
                let connection = Object { id, version };
                EventKind::Connection { connection, serial }
            }
            _ => return None,
        };
        // A record has its fields and no more.
        fields.0.is_empty().then_some((Self { object, kind }, length))
    }
}

/// The event records that a call wrote, and an iterator over what they say. The client is sent them as messages, by a
/// [`MessageWriter`](crate::MessageWriter).
///
/// The iterator ends with the last record, or at bytes that are none; [`as_bytes`](Self::as_bytes) has what it has
/// not gone over. No call of this crate writes bytes that are none.
///
/// ```
/// use bozterrun::{EisHandshaker, EventKind};
///
/// let mut out = [0; 64];
/// let (_handshaker, mut events) = EisHandshaker::new(7, &mut out)?;
/// assert_eq!(events.as_bytes(), [0x80, 14, 0, 0, 0, 0, 0, 0, 0, 0, 0, 0, 0, 1]);
/// assert_eq!(events.next().map(|event| event.kind), Some(EventKind::HandshakeVersion { version: 1 }));
/// assert_eq!(events.next(), None);
/// # Ok::<(), bozterrun::Refusal>(())
/// ```
#[derive(Clone, Debug, Default, PartialEq, Eq)]
pub struct Events<'a>(&'a [u8]);

impl<'a> Events<'a> {
    /// The records in these bytes, one behind another.
    #[inline]
    #[must_use]
    pub const fn new(bytes: &'a [u8]) -> Self {
        Self(bytes)
    }

    /// The records that a call wrote at the front of `out`.
    #[inline]
    pub(crate) fn written(out: &'a [u8], count: usize) -> Self {
        Self(out.get(..count).unwrap_or_default())
    }

    /// The bytes of the records that the iterator has not gone over. They are no messages of the protocol.
    #[inline]
    #[must_use]
    pub const fn as_bytes(&self) -> &'a [u8] {
        self.0
    }

    /// Whether there is nothing to send.
    #[inline]
    #[must_use]
    pub const fn is_empty(&self) -> bool {
        self.0.is_empty()
    }
}

impl<'a> Iterator for Events<'a> {
    type Item = Event<'a>;

    fn next(&mut self) -> Option<Event<'a>> {
        let (event, length) = Event::decode(self.0)?;
        self.0 = self.0.get(length..).unwrap_or_default();
        Some(event)
    }
}
