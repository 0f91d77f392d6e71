//! A client's bytes: the first message of a lent slice.

use crate::{
    event::{Events, Interface},
    handshake::EisHandshakeResp,
    Refusal,
};
use std::{error, fmt};

/// The bytes of a message's header: the object's id, the length, the opcode.
pub const HEADER_LENGTH: usize = 16;

/// The most bytes of a client's message, with its header.
pub const MESSAGE_LENGTH: usize = 1024;

/// What the library answers where a message is not yet whole, which is no refusal.
pub(crate) const WAIT: u32 = 66;

/// What is wrong with a message that is refused with [`Refusal::Malformed`]: the first that is met.
///
/// ```
/// use bozterrun::ParseError;
///
/// let error = ParseError::InvalidOpcode("ei_keyboard", 2);
/// assert_eq!(error.name(), "InvalidOpcode");
/// assert_eq!(error.to_string(), "opcode '2' invalid for interface 'ei_keyboard'");
/// ```
#[derive(Clone, Copy, Debug, PartialEq, Eq, Hash)]
pub enum ParseError {
    /// End of message while parsing argument.
    EndOfMessage,
    /// Invalid UTF-8 string in message.
    Utf8,
    /// Invalid opcode for interface.
    InvalidOpcode(&'static str, u32),
    /// Invalid variant for enum: a context type or a state that there is not.
    InvalidVariant(u32),
    /// The length in the header is below [`HEADER_LENGTH`] or above [`MESSAGE_LENGTH`].
    HeaderLength(u32),
    /// Message length didn't match header: the header's length with what is left over, and that length.
    MessageLength(u32, u32),
    /// NULL for non-nullable argument.
    InvalidNull,
}

/// The protocol's name of an interface, that of the handshake (0) among them.
fn interface_name(number: u32) -> Option<&'static str> {
    match number {
        0 => Some("ei_handshake"),
        _ => Interface::from_number(number).map(Interface::name),
    }
}

impl ParseError {
    /// The case of a number that the library tells, with its numbers.
    fn from_numbers(case: u32, first: u32, second: u32) -> Option<Self> {
        Some(match case {
            1 => Self::EndOfMessage,
            2 => Self::Utf8,
            3 => Self::InvalidOpcode(interface_name(first)?, second),
            4 => Self::InvalidVariant(first),
            5 => Self::HeaderLength(first),
            6 => Self::MessageLength(first, second),
            7 => Self::InvalidNull,
            _ => return None,
        })
    }

    /// Its name.
    #[must_use]
    pub const fn name(self) -> &'static str {
        match self {
            Self::EndOfMessage => "EndOfMessage",
            Self::Utf8 => "Utf8",
            Self::InvalidOpcode(..) => "InvalidOpcode",
            Self::InvalidVariant(_) => "InvalidVariant",
            Self::HeaderLength(_) => "HeaderLength",
            Self::MessageLength(..) => "MessageLength",
            Self::InvalidNull => "InvalidNull",
        }
    }
}

impl fmt::Display for ParseError {
    fn fmt(&self, f: &mut fmt::Formatter<'_>) -> fmt::Result {
        match self {
            Self::EndOfMessage => write!(f, "found end of message while parsing argument"),
            Self::Utf8 => write!(f, "invalid UTF-8 string in message"),
            Self::InvalidOpcode(interface, opcode) => {
                write!(f, "opcode '{opcode}' invalid for interface '{interface}'")
            }
            Self::InvalidVariant(variant) => write!(f, "variant '{variant}' invalid for its enum"),
            Self::HeaderLength(length) => write!(f, "header length {length} is not 16 to 1024"),
            Self::MessageLength(read, header) => {
                write!(f, "message length didn't match header ({read} != {header})")
            }
            Self::InvalidNull => write!(f, "NULL value for non-nullable argument"),
        }
    }
}

impl error::Error for ParseError {}

/// What a message was answered that was accepted.
#[derive(Debug)]
pub struct Received<'o> {
    /// How many bytes the message had. What is behind them is the next one's.
    pub taken: usize,
    /// What the client is to be sent.
    pub events: Events<'o>,
}

/// The same, of a message in the handshake.
#[derive(Debug)]
pub struct HandshakeReceived<'o> {
    /// How many bytes the message had. What is behind them is the next one's.
    pub taken: usize,
    /// What the client is to be sent.
    pub events: Events<'o>,
    /// Of a Finish: what the handshake comes to, with which the session begins.
    pub response: Option<EisHandshakeResp>,
}

/// What the library tells of a message besides its answer.
#[derive(Default)]
pub(crate) struct Told {
    pub taken: usize,
    pub count: usize,
    pub begun: u32,
    pub error: u32,
    pub first: u32,
    pub second: u32,
}

impl Told {
    /// The refusal of this number.
    #[cold]
    #[inline(never)]
    pub(crate) fn refusal(&self, number: u32) -> Refusal {
        match (number, ParseError::from_numbers(self.error, self.first, self.second)) {
            (23, Some(error)) => Refusal::Malformed(error),
            (9, _) => Refusal::from_finish(number, self.count),
            _ => Refusal::from_versioned(number, self.first, self.second),
        }
    }
}

#[cfg(test)]
mod tests {
    use super::*;

    fn told(error: u32, first: u32, second: u32) -> Told {
        Told {
            error,
            first,
            second,
            ..Told::default()
        }
    }

    #[test]
    fn each_case_comes_through_with_its_numbers() {
        let cases = [
            ParseError::EndOfMessage,
            ParseError::Utf8,
            ParseError::InvalidOpcode("ei_keyboard", 2),
            ParseError::InvalidVariant(10),
            ParseError::HeaderLength(10),
            ParseError::MessageLength(10, 2),
            ParseError::InvalidNull,
        ];
        for (number, case) in (1..).zip(cases) {
            assert_eq!(told(number, 10, 2).refusal(23), Refusal::Malformed(case));
            assert!(format!("{case:?}").starts_with(case.name()));
            assert!(case.to_string().contains(' '));
        }
        let handshake = ParseError::InvalidOpcode("ei_handshake", 9);
        assert_eq!(told(3, 0, 9).refusal(23), Refusal::Malformed(handshake));
    }

    #[test]
    fn answers_that_the_library_does_not_give_are_bad_state() {
        for case in [0, 8, u32::MAX] {
            assert_eq!(told(case, 0, 0).refusal(23), Refusal::BadState);
        }
        assert_eq!(told(3, 13, 0).refusal(23), Refusal::BadState);
        assert_eq!(told(0, 0, 0).refusal(66), Refusal::BadState);
    }
}
