//! A client's requests as a station decodes them from its socket, by interface.
//!
//! Names and fields are those of `reis::eis`, with three differences: an object is its id and version (no proxy),
//! texts are lent bytes (the library tells whether they are UTF-8), and `ei_callback`, which has no request, is
//! not here.

use crate::{Device, Seat};

/// An object of the protocol: its id, and the version that it was made with.
///
/// A station keeps the objects of a connection in a table from id to interface and version; this is what it finds
/// there.
///
/// ```
/// use bozterrun::eis::Object;
///
/// let touchscreen = Object::new(0xff00000000000003, 2);
/// assert_eq!(touchscreen.id, 0xff00000000000003);
/// assert_eq!(touchscreen.version, 2);
/// ```
#[derive(Clone, Copy, Debug, PartialEq, Eq, Hash)]
pub struct Object {
    /// Its id.
    pub id: u64,
    /// Its version. It counts for the callback of a Sync and for the Cancel of a touch.
    pub version: u32,
}

impl Object {
    /// The object of this id and version.
    #[inline]
    #[must_use]
    pub const fn new(id: u64, version: u32) -> Self {
        Self { id, version }
    }
}

/// A client's request, on the object that it is sent on.
///
/// ```
/// use bozterrun::eis::{self, keyboard, Object};
/// use bozterrun::KeyState;
///
/// let keyboard = Object::new(0xff00000000000003, 1);
/// let request = eis::Request::Keyboard(keyboard, keyboard::Request::Key { key: 30, state: KeyState::Press });
/// assert_eq!(request.text(), b"");
/// ```
#[derive(Clone, Copy, Debug, PartialEq)]
pub enum Request<'a> {
    /// On `ei_handshake`. In a running session it is refused.
    Handshake(handshake::Request<'a>),
    /// On `ei_connection`.
    Connection(connection::Request),
    /// On `ei_pingpong`.
    Pingpong(pingpong::Request),
    /// On `ei_seat`.
    Seat(Seat, seat::Request),
    /// On `ei_device`.
    Device(Device, device::Request),
    /// On `ei_pointer`.
    Pointer(Object, pointer::Request),
    /// On `ei_pointer_absolute`.
    PointerAbsolute(Object, pointer_absolute::Request),
    /// On `ei_scroll`.
    Scroll(Object, scroll::Request),
    /// On `ei_button`.
    Button(Object, button::Request),
    /// On `ei_keyboard`.
    Keyboard(Object, keyboard::Request),
    /// On `ei_touchscreen`.
    Touchscreen(Object, touchscreen::Request),
    /// On `ei_text`.
    Text(Object, text::Request<'a>),
}

impl<'a> Request<'a> {
    /// The text that the request carries, empty where it carries none.
    ///
    /// ```
    /// use bozterrun::eis::{text, Object, Request};
    ///
    /// let request = Request::Text(Object::new(5, 1), text::Request::Utf8 { text: b"tariff" });
    /// assert_eq!(request.text(), b"tariff");
    /// ```
    #[must_use]
    pub fn text(&self) -> &'a [u8] {
        match *self {
            Request::Handshake(handshake::Request::Name { name }) => name,
            Request::Handshake(handshake::Request::InterfaceVersion { name, .. }) => name,
            Request::Text(_, text::Request::Utf8 { text }) => text,
            _ => b"",
        }
    }
}

/// An enum of the protocol, whose cases are numbers.
macro_rules! numbered {
    ($(#[$doc:meta])* $name:ident { $($(#[$case_doc:meta])* $case:ident = $number:literal,)* }) => {
        $(#[$doc])*
        #[derive(Clone, Copy, Debug, PartialEq, Eq, Hash)]
        #[repr(u32)]
        pub enum $name {
            $($(#[$case_doc])* $case = $number,)*
        }

        impl $name {
            /// Its number in the protocol.
            #[inline]
            #[must_use]
            pub const fn number(self) -> u32 {
                self as u32
            }

            /// The case of this number, if it is one's.
            #[inline]
            #[must_use]
            pub const fn from_number(number: u32) -> Option<Self> {
                match number {
                    $($number => Some(Self::$case),)*
                    _ => None,
                }
            }
        }

        impl From<$name> for u32 {
            #[inline]
            fn from(value: $name) -> u32 {
                value.number()
            }
        }
    };
}

/// Requests on `ei_handshake`.
pub mod handshake {
    numbered! {
        /// Whether the client sends input or receives it.
        ///
        /// ```
        /// use bozterrun::ContextType;
        ///
        /// assert_eq!(ContextType::from_number(2), Some(ContextType::Sender));
        /// assert_eq!(ContextType::from_number(3), None);
        /// ```
        ContextType {
            /// The client receives input events from the server.
            Receiver = 1,
            /// The client sends input events to the server.
            Sender = 2,
        }
    }

    /// A request on `ei_handshake`.
    #[derive(Clone, Copy, Debug, PartialEq, Eq)]
    pub enum Request<'a> {
        /// Which version of the handshake the client knows.
        HandshakeVersion {
            /// The version.
            version: u32,
        },
        /// The client has said all.
        Finish,
        /// Whether the client sends input or receives it.
        ContextType {
            /// The context type.
            context_type: ContextType,
        },
        /// The client's name.
        Name {
            /// Its bytes, which should be UTF-8, at most 254.
            name: &'a [u8],
        },
        /// Which version of an interface the client knows.
        InterfaceVersion {
            /// The interface's name, which should be UTF-8.
            name: &'a [u8],
            /// The highest version that the client knows.
            version: u32,
        },
    }
}

/// Requests on `ei_connection`.
pub mod connection {
    use super::Object;

    numbered! {
        /// Why a client is disconnected.
        ///
        /// ```
        /// use bozterrun::DisconnectReason;
        ///
        /// assert_eq!(DisconnectReason::Protocol.number(), 3);
        /// assert_eq!(DisconnectReason::from_number(6), None);
        /// ```
        DisconnectReason {
            /// On purpose.
            Disconnected = 0,
            /// An error.
            Error = 1,
            /// A request of the other context type.
            Mode = 2,
            /// The client broke a rule of the protocol.
            Protocol = 3,
            /// The client sent an invalid value.
            Value = 4,
            /// An error of the transport.
            Transport = 5,
        }
    }

    /// A request on `ei_connection`.
    #[derive(Clone, Copy, Debug, PartialEq, Eq)]
    pub enum Request {
        /// The client wants an answer once all before has been handled.
        Sync {
            /// The object to answer on, whose version must be 1.
            callback: Object,
        },
        /// The client leaves.
        Disconnect,
    }
}

/// Requests on `ei_pingpong`.
pub mod pingpong {
    /// A request on `ei_pingpong`.
    #[derive(Clone, Copy, Debug, PartialEq, Eq)]
    pub enum Request {
        /// The client answers a ping. It is accepted and does nothing.
        Done {
            /// What the client says with it.
            callback_data: u64,
        },
    }
}

/// Requests on `ei_seat`.
pub mod seat {
    /// A request on `ei_seat`.
    #[derive(Clone, Copy, Debug, PartialEq, Eq)]
    pub enum Request {
        /// The client wants the seat no more.
        Release,
        /// The client wants devices with these capabilities.
        Bind {
            /// A mask of capabilities that the seat has.
            capabilities: u64,
        },
        /// The client wants a new device.
        RequestDevice {
            /// A mask of capabilities that the seat has.
            capabilities: u64,
        },
    }
}

/// Requests on `ei_device`.
pub mod device {
    numbered! {
        /// Whether a device is virtual or physical.
        ///
        /// ```
        /// use bozterrun::DeviceType;
        ///
        /// assert_eq!(DeviceType::from_number(1), Some(DeviceType::Virtual));
        /// ```
        DeviceType {
            /// A virtual device.
            Virtual = 1,
            /// A physical device.
            Physical = 2,
        }
    }

    /// A request on `ei_device`.
    #[derive(Clone, Copy, Debug, PartialEq, Eq)]
    pub enum Request {
        /// The client wants the device no more.
        Release,
        /// The client begins to send input.
        StartEmulating {
            /// The last serial that the client has seen.
            last_serial: u32,
            /// A number for this emulation.
            sequence: u32,
        },
        /// The client ends sending input.
        StopEmulating {
            /// The last serial that the client has seen.
            last_serial: u32,
        },
        /// Ends a frame: what is pending on the device is delivered with this time.
        Frame {
            /// The last serial that the client has seen.
            last_serial: u32,
            /// Microseconds of `CLOCK_MONOTONIC`.
            timestamp: u64,
        },
        /// The client has seen the device's done.
        Ready,
    }
}

/// Requests on `ei_pointer`.
pub mod pointer {
    /// A request on `ei_pointer`.
    #[derive(Clone, Copy, Debug, PartialEq)]
    pub enum Request {
        /// The client wants the interface no more.
        Release,
        /// The pointer moves.
        MotionRelative {
            /// By how much to the right, in logical pixels.
            x: f32,
            /// By how much down.
            y: f32,
        },
    }
}

/// Requests on `ei_pointer_absolute`.
pub mod pointer_absolute {
    /// A request on `ei_pointer_absolute`.
    #[derive(Clone, Copy, Debug, PartialEq)]
    pub enum Request {
        /// The client wants the interface no more.
        Release,
        /// The pointer moves to a place.
        MotionAbsolute {
            /// The place, in logical pixels.
            x: f32,
            /// The place, in logical pixels.
            y: f32,
        },
    }
}

/// Requests on `ei_scroll`.
pub mod scroll {
    /// A request on `ei_scroll`.
    #[derive(Clone, Copy, Debug, PartialEq)]
    pub enum Request {
        /// The client wants the interface no more.
        Release,
        /// Scrolls by logical pixels.
        Scroll {
            /// To the right.
            x: f32,
            /// Down.
            y: f32,
        },
        /// Scrolls by steps of a wheel, each 120.
        ScrollDiscrete {
            /// To the right.
            x: i32,
            /// Down.
            y: i32,
        },
        /// Scrolling stopped, or was cancelled. A number other than 0 is yes.
        ScrollStop {
            /// Whether that to the right did.
            x: u32,
            /// Whether that down did.
            y: u32,
            /// Whether it was cancelled.
            is_cancel: u32,
        },
    }
}

/// Requests on `ei_button`.
pub mod button {
    numbered! {
        /// Whether a button is down.
        ///
        /// ```
        /// use bozterrun::ButtonState;
        ///
        /// assert_eq!(ButtonState::from_number(0), Some(ButtonState::Released));
        /// ```
        ButtonState {
            /// It is up.
            Released = 0,
            /// It is down.
            Press = 1,
        }
    }

    /// A request on `ei_button`.
    #[derive(Clone, Copy, Debug, PartialEq, Eq)]
    pub enum Request {
        /// The client wants the interface no more.
        Release,
        /// A button goes down or up.
        Button {
            /// Its code.
            button: u32,
            /// Down or up.
            state: ButtonState,
        },
    }
}

/// Requests on `ei_keyboard`.
pub mod keyboard {
    numbered! {
        /// Whether a key is down.
        ///
        /// ```
        /// use bozterrun::KeyState;
        ///
        /// assert_eq!(KeyState::from_number(1), Some(KeyState::Press));
        /// assert_eq!(KeyState::from_number(2), None);
        /// ```
        KeyState {
            /// It is up.
            Released = 0,
            /// It is down.
            Press = 1,
        }
    }

    /// A request on `ei_keyboard`.
    #[derive(Clone, Copy, Debug, PartialEq, Eq)]
    pub enum Request {
        /// The client wants the interface no more.
        Release,
        /// A key goes down or up.
        Key {
            /// Its code.
            key: u32,
            /// Down or up.
            state: KeyState,
        },
    }
}

/// Requests on `ei_touchscreen`.
pub mod touchscreen {
    /// A request on `ei_touchscreen`.
    #[derive(Clone, Copy, Debug, PartialEq)]
    pub enum Request {
        /// The client wants the interface no more.
        Release,
        /// A touch goes down.
        Down {
            /// A number for the touch.
            touchid: u32,
            /// Where, in logical pixels.
            x: f32,
            /// Where, in logical pixels.
            y: f32,
        },
        /// A touch that is down moves.
        Motion {
            /// Its number.
            touchid: u32,
            /// Where to, in logical pixels.
            x: f32,
            /// Where to, in logical pixels.
            y: f32,
        },
        /// A touch goes up.
        Up {
            /// Its number.
            touchid: u32,
        },
        /// A touch is cancelled. The object's version must be 2.
        Cancel {
            /// Its number.
            touchid: u32,
        },
    }
}

/// Requests on `ei_text`.
pub mod text {
    use super::keyboard::KeyState;

    /// A request on `ei_text`.
    #[derive(Clone, Copy, Debug, PartialEq, Eq)]
    pub enum Request<'a> {
        /// The client wants the interface no more.
        Release,
        /// A keysym goes down or up.
        Keysym {
            /// The XKB keysym.
            keysym: u32,
            /// Down or up.
            state: KeyState,
        },
        /// A text.
        Utf8 {
            /// Its bytes, which should be UTF-8, 1 to 254.
            text: &'a [u8],
        },
    }
}
