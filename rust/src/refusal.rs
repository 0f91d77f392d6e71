//! Why a call is refused.

use crate::{event::Interface, message::ParseError};
use std::{error, fmt};

/// Why a call is refused.
///
/// The session, and what was lent, are then as they were, byte for byte; [`MissingInterface`] alone writes. (Of a
/// whole read that holds of the request that was refused: [`Handled`](crate::Handled).) Where several apply,
/// docs/REFERENCE.md of the repository has the order.
///
/// ```
/// use bozterrun::{Interface, Refusal};
///
/// let refusal = Refusal::InvalidInterfaceVersion { interface: Interface::Callback, version: 7 };
/// assert_eq!(refusal.number(), 2);
/// assert_eq!(refusal.name(), "InvalidInterfaceVersion");
/// assert_eq!(refusal.to_string(), "version 7 of ei_callback is not one that this request can be made with");
/// ```
///
/// [`MissingInterface`]: Refusal::MissingInterface
#[derive(Clone, Copy, Debug, PartialEq, Eq, Hash)]
pub enum Refusal {
    /// 1: a handshake request in a running session.
    UnexpectedHandshakeEvent,
    /// 2: a Sync whose callback's version is not 1, or the Cancel of a touch below version 2.
    InvalidInterfaceVersion {
        /// The interface.
        interface: Interface,
        /// The version that the request had.
        version: u32,
    },
    /// 3: Bind or RequestDevice with a capability that the seat does not have: not given to it, or not negotiated.
    InvalidCapabilities,
    /// 4: a touch goes down while 16 are held.
    TooManyTouches,
    /// 5: a touch goes down that is held.
    DuplicatedTouchDown,
    /// 6: a text of no byte, or of more than 254.
    InvalidTextLength,
    /// 7: another request during the handshake.
    NonHandshakeEvent,
    /// 8: a second name or context type.
    DuplicateEvent,
    /// 9: Finish without `ei_connection`, `ei_pingpong` or `ei_callback`.
    MissingInterface {
        /// How many bytes of `out` were written: the interface versions are sent all the same.
        count: usize,
    },
    /// 10: a text that is not UTF-8.
    BadUtf8,
    /// 11: a name or an explanation of more than 254 bytes.
    NameLong,
    /// 12: a seat or a device that has been removed, or never was.
    UnknownHandle,
    /// 13: the station's own mask has a bit that is no capability.
    BadCapabilities,
    /// 14: 4 seats stand.
    FullSeats,
    /// 15: 8 devices stand.
    FullDevices,
    /// 16: the device has 64 pending requests.
    FullPending,
    /// 17: more than 256 requests would be queued.
    FullQueue,
    /// 18: 32 texts stand.
    FullTexts,
    /// 19: the lent `out`, or the text buffer, is too short.
    ShortOut,
    /// 20: no object ids are left.
    IdsSpent,
    /// 21: the session's memory is no session. No call leaves it so: somebody else wrote to it. An answer that the
    /// library does not give counts as this too.
    BadState,
    /// 22: the part of a request with text goes past the end of the texts of its read.
    BadPart,
    /// 23: bytes of a client that are no message, and why.
    Malformed(ParseError),
    /// 23, without a case: bytes that are no event's message, or not one of the object's interface.
    MalformedEvent,
    /// 24: a message to an object that is not alive.
    NoObject,
    /// 25: a Sync whose callback's id is not above all that the client gave before, or is the server's.
    InvalidId,
    /// 26: bytes that are no event record, or one that an object of its interface cannot send.
    Unsendable,
}

impl Refusal {
    /// The refusal of a number that the library answers, where it is one without details.
    #[cold]
    #[inline(never)]
    pub(crate) fn from_number(number: u32) -> Self {
        match number {
            1 => Self::UnexpectedHandshakeEvent,
            3 => Self::InvalidCapabilities,
            4 => Self::TooManyTouches,
            5 => Self::DuplicatedTouchDown,
            6 => Self::InvalidTextLength,
            7 => Self::NonHandshakeEvent,
            8 => Self::DuplicateEvent,
            10 => Self::BadUtf8,
            11 => Self::NameLong,
            12 => Self::UnknownHandle,
            13 => Self::BadCapabilities,
            14 => Self::FullSeats,
            15 => Self::FullDevices,
            16 => Self::FullPending,
            17 => Self::FullQueue,
            18 => Self::FullTexts,
            19 => Self::ShortOut,
            20 => Self::IdsSpent,
            22 => Self::BadPart,
            24 => Self::NoObject,
            25 => Self::InvalidId,
            26 => Self::Unsendable,
            _ => Self::BadState,
        }
    }

    /// The same, where the call tells an interface and a version besides.
    #[cold]
    #[inline(never)]
    pub(crate) fn from_versioned(number: u32, interface: u32, version: u32) -> Self {
        match (number, Interface::from_number(interface)) {
            (2, Some(interface)) => Self::InvalidInterfaceVersion { interface, version },
            _ => Self::from_number(number),
        }
    }

    /// The same, where the call may have written.
    #[cold]
    #[inline(never)]
    pub(crate) fn from_finish(number: u32, count: usize) -> Self {
        match number {
            9 => Self::MissingInterface { count },
            _ => Self::from_number(number),
        }
    }

    /// Its number, 1 to 26.
    ///
    /// ```
    /// assert_eq!(bozterrun::Refusal::ShortOut.number(), 19);
    /// ```
    #[must_use]
    pub const fn number(self) -> u32 {
        match self {
            Self::UnexpectedHandshakeEvent => 1,
            Self::InvalidInterfaceVersion { .. } => 2,
            Self::InvalidCapabilities => 3,
            Self::TooManyTouches => 4,
            Self::DuplicatedTouchDown => 5,
            Self::InvalidTextLength => 6,
            Self::NonHandshakeEvent => 7,
            Self::DuplicateEvent => 8,
            Self::MissingInterface { .. } => 9,
            Self::BadUtf8 => 10,
            Self::NameLong => 11,
            Self::UnknownHandle => 12,
            Self::BadCapabilities => 13,
            Self::FullSeats => 14,
            Self::FullDevices => 15,
            Self::FullPending => 16,
            Self::FullQueue => 17,
            Self::FullTexts => 18,
            Self::ShortOut => 19,
            Self::IdsSpent => 20,
            Self::BadState => 21,
            Self::BadPart => 22,
            Self::Malformed(_) | Self::MalformedEvent => 23,
            Self::NoObject => 24,
            Self::InvalidId => 25,
            Self::Unsendable => 26,
        }
    }

    /// Its name, as docs/REFERENCE.md of the repository has it.
    ///
    /// ```
    /// assert_eq!(bozterrun::Refusal::ShortOut.name(), "ShortOut");
    /// ```
    #[must_use]
    pub const fn name(self) -> &'static str {
        match self {
            Self::UnexpectedHandshakeEvent => "UnexpectedHandshakeEvent",
            Self::InvalidInterfaceVersion { .. } => "InvalidInterfaceVersion",
            Self::InvalidCapabilities => "InvalidCapabilities",
            Self::TooManyTouches => "TooManyTouches",
            Self::DuplicatedTouchDown => "DuplicatedTouchDown",
            Self::InvalidTextLength => "InvalidTextLength",
            Self::NonHandshakeEvent => "NonHandshakeEvent",
            Self::DuplicateEvent => "DuplicateEvent",
            Self::MissingInterface { .. } => "MissingInterface",
            Self::BadUtf8 => "BadUtf8",
            Self::NameLong => "NameLong",
            Self::UnknownHandle => "UnknownHandle",
            Self::BadCapabilities => "BadCapabilities",
            Self::FullSeats => "FullSeats",
            Self::FullDevices => "FullDevices",
            Self::FullPending => "FullPending",
            Self::FullQueue => "FullQueue",
            Self::FullTexts => "FullTexts",
            Self::ShortOut => "ShortOut",
            Self::IdsSpent => "IdsSpent",
            Self::BadState => "BadState",
            Self::BadPart => "BadPart",
            Self::Malformed(_) | Self::MalformedEvent => "Malformed",
            Self::NoObject => "NoObject",
            Self::InvalidId => "InvalidId",
            Self::Unsendable => "Unsendable",
        }
    }
}

impl fmt::Display for Refusal {
    fn fmt(&self, f: &mut fmt::Formatter<'_>) -> fmt::Result {
        f.write_str(match self {
            Self::UnexpectedHandshakeEvent => "the client sent a handshake request in a running session",
            Self::InvalidInterfaceVersion { interface, version } => {
                let name = interface.name();
                return write!(
                    f,
                    "version {version} of {name} is not one that this request can be made with"
                );
            }
            Self::InvalidCapabilities => "the client asked for a capability that the seat does not have",
            Self::TooManyTouches => "the client put a touch down while 16 were held",
            Self::DuplicatedTouchDown => "the client put a touch down that was held",
            Self::InvalidTextLength => "the client sent a text of no byte or of more than 254",
            Self::NonHandshakeEvent => "the client sent another request during the handshake",
            Self::DuplicateEvent => "the client said its name or its context type twice",
            Self::MissingInterface { .. } => "the client knows no ei_connection, no ei_pingpong or no ei_callback",
            Self::BadUtf8 => "the text is not UTF-8",
            Self::NameLong => "the name or the explanation has more than 254 bytes",
            Self::UnknownHandle => "no such seat or device stands",
            Self::BadCapabilities => "the mask has a bit that is no capability",
            Self::FullSeats => "4 seats stand and no more fit",
            Self::FullDevices => "8 devices stand and no more fit",
            Self::FullPending => "64 requests are pending on the device and no more fit",
            Self::FullQueue => "the queue of 256 requests has no room for this one",
            Self::FullTexts => "32 texts stand and no more fit",
            Self::ShortOut => "the lent buffer is too short for what would be written",
            Self::IdsSpent => "no object ids are left",
            Self::BadState => "the memory is no session's and cannot be trusted",
            Self::BadPart => "the part goes past the end of the texts of its read",
            Self::Malformed(error) => return write!(f, "the client's message is malformed: {error}"),
            Self::MalformedEvent => "the bytes are no message of an event of the object's interface",
            Self::NoObject => "the message is to an object that is not alive",
            Self::InvalidId => "the client gave a new object an id that it may not have",
            Self::Unsendable => "the event is none that an object of its interface can send",
        })
    }
}

impl error::Error for Refusal {}

#[cfg(test)]
pub(crate) mod tests {
    use super::*;

    /// The refusal that the library's number stands for.
    pub fn of_number(number: u32) -> Refusal {
        match number {
            2 => Refusal::from_versioned(2, 11, 1),
            9 => Refusal::from_finish(9, 15),
            23 => Refusal::Malformed(ParseError::HeaderLength(15)),
            _ => Refusal::from_number(number),
        }
    }

    #[test]
    fn details_come_through() {
        let versioned = Refusal::InvalidInterfaceVersion {
            interface: Interface::Touchscreen,
            version: 1,
        };
        assert_eq!(of_number(2), versioned);
        assert_eq!(of_number(9), Refusal::MissingInterface { count: 15 });
        assert_eq!(Refusal::from_versioned(21, 0, 0), Refusal::BadState);
        assert_eq!(Refusal::from_finish(19, 0), Refusal::ShortOut);
    }

    #[test]
    fn answers_that_the_library_does_not_give_are_bad_state() {
        for number in [0, 2, 9, 23, 27, 64, 65, 66, u32::MAX] {
            assert_eq!(Refusal::from_number(number), Refusal::BadState);
        }
        assert_eq!(Refusal::from_versioned(2, 0, 7), Refusal::BadState);
    }

    #[test]
    fn each_has_a_name_and_a_sentence_of_its_own() {
        for number in 1..=26 {
            let refusal = of_number(number);
            assert_eq!(refusal.number(), number);
            assert!(format!("{refusal:?}").starts_with(refusal.name()));
            assert!(refusal.to_string().contains(' '));
            for other in 1..number {
                assert_ne!(of_number(other).name(), refusal.name());
                assert_ne!(of_number(other).to_string(), refusal.to_string());
            }
        }
        let (read, received) = (Refusal::MalformedEvent, of_number(23));
        assert_eq!((read.number(), read.name()), (received.number(), received.name()));
        assert_ne!(read.to_string(), received.to_string());
    }
}
