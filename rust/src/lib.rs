//! The input server of counter stations: the server side of the ei protocol as the crate `reis` 0.7.1 has it, ported
//! to the proved language Rattle and called from Rust. Its handshake, seats, devices and converter are the proved
//! ones; this crate owns their memory, and gives their numbers Rust's types.
//!
//! A station decodes what its client sends into [`eis::Request`]s, hands them over with its clock, sends the [`Events`]
//! back as the messages that a [`MessageWriter`] makes of them, and acts on the [`EisRequest`]s that are delivered:
//!
//! ```
//! use bozterrun::eis::{device, handshake, keyboard, Request};
//! use bozterrun::{DeviceCapability::Keyboard, DeviceType, EisHandshaker, EisRequest, EisRequestConverter, KeyState};
//! use bozterrun::MessageWriter;
//!
//! let mut out = [0; bozterrun::OUT_LENGTH];
//! let mut text = [0; bozterrun::TEXT_LENGTH];
//! let mut writer = MessageWriter::new();
//! let mut bytes = Vec::new(); // what goes to the client
//! let (mut handshaker, events) = EisHandshaker::new(7, &mut out)?;
//! writer.write(events, &mut bytes)?;
//! let names: [&[u8]; 4] = [b"ei_connection", b"ei_callback", b"ei_pingpong", b"ei_keyboard"];
//! for name in names {
//!     let version = handshake::Request::InterfaceVersion { name, version: 1 };
//!     handshaker.handle_request(Request::Handshake(version), &mut out)?;
//! }
//! let finish = Request::Handshake(handshake::Request::Finish);
//! let (Some(response), events) = handshaker.handle_request(finish, &mut out)? else { return Ok(()) };
//! writer.write(events, &mut bytes)?;
//! let mut converter = EisRequestConverter::new(response);
//! let (seat, events) = converter.handle_mut().add_seat(Some(b"counter 3"), Keyboard, &mut out)?;
//! writer.write(events, &mut bytes)?;
//! let (device, events) = converter.handle_mut().add_device(seat, None, DeviceType::Virtual, Keyboard, &mut out)?;
//! writer.write(events, &mut bytes)?;
//! let Some(keyboard) = converter.handle().interface(device, Keyboard)? else { return Ok(()) };
//! for request in [
//!     Request::Keyboard(keyboard, keyboard::Request::Key { key: 30, state: KeyState::Press }),
//!     Request::Device(device, device::Request::Frame { last_serial: 7, timestamp: 500 }),
//! ] {
//!     writer.write(converter.handle_request(request, 501, &mut out)?, &mut bytes)?;
//!     while let Some(request) = converter.next_request(&mut text)? {
//!         if let EisRequest::KeyboardKey(key) = request {
//!             assert_eq!((key.key, key.time), (30, 500));
//!         }
//!     }
//! }
//! # Ok::<(), bozterrun::Refusal>(())
//! ```
//!
//! What one wakeup brings can be gathered in a [`Read`] and handed over in one call. Or the station decodes nothing:
//! the bytes that its client sends go to [`EisHandshaker::pending_request`] and
//! [`EisRequestConverter::pending_request`]. Then it is bytes in and bytes out, as in the example `server`, which
//! serves clients on a Unix socket. A client that tests a station reads its events with a [`MessageReader`].
//!
//! A call that is refused answers a [`Refusal`] and leaves the session as it was. Nothing here panics on what a client
//! sends, blocks, or locks; memory is allocated once for each session, and by a [`MessageWriter`] as it needs it.

#![deny(missing_docs)]
#![deny(unsafe_op_in_unsafe_fn)]
#![deny(clippy::undocumented_unsafe_blocks)]

mod capability;
mod connection;
mod converter;
pub mod eis;
mod event;
mod handshake;
mod message;
mod read;
mod refusal;
pub mod request;
mod session;
mod sys;
mod wire;

pub use capability::{DeviceCapabilities, DeviceCapability};
pub use connection::Connection;
pub use converter::{EisRequestConverter, Requests};
pub use eis::{
    button::ButtonState, connection::DisconnectReason, device::DeviceType, handshake::ContextType, keyboard::KeyState,
};
pub use event::{Event, EventKind, Events, Interface};
pub use handshake::{EisHandshakeResp, EisHandshaker};
pub use message::{HandshakeReceived, ParseError, Received, HEADER_LENGTH, MESSAGE_LENGTH};
pub use read::{Handled, Read};
pub use refusal::Refusal;
pub use request::{Device, EisRequest, Seat};
pub use session::TEXTS_LENGTH;
pub use wire::{read_message, write_message, MessageReader, MessageWriter, EVENT_MESSAGE_LENGTH, EVENT_RECORD_LENGTH};

/// How many bytes of `out` are enough for any call but that of a whole read, whose requests may each write.
pub const OUT_LENGTH: usize = 1225;

/// How many bytes of buffer are enough for any delivered text, and the most that a name or an explanation has.
pub const TEXT_LENGTH: usize = session::NAME_LENGTH;

/// The examples of the README, which are tested with the rest.
#[cfg(doctest)]
#[doc = include_str!("../README.md")]
pub struct Readme;
