//! The memory of a session: the four slices that the library is lent, in one allocation.

use crate::Device;
use std::alloc::{alloc_zeroed, handle_alloc_error, Layout};

pub(crate) const HANDSHAKE_LENGTH: usize = 17;
pub(crate) const NAME_LENGTH: usize = 254;
pub(crate) const CONTROL_LENGTH: usize = 224;
pub(crate) const WORDS_LENGTH: usize = 3840;
pub(crate) const REALS_LENGTH: usize = 1536;

/// How many bytes of buffer are enough for the texts of all requests that can be queued.
pub const TEXTS_LENGTH: usize = 8192;

/// What the library answers where there is nothing to give, which is no refusal.
pub(crate) const NONE: u32 = 64;

/// The four slices of a session. What they hold is the library's: `made_with` alone reads them, and no bytes in them
/// make a call unsound.
#[doc(hidden)]
#[repr(C)]
pub struct Session {
    pub control: [u64; CONTROL_LENGTH],
    pub words: [u64; WORDS_LENGTH],
    pub reals: [f32; REALS_LENGTH],
    pub texts: [u8; TEXTS_LENGTH],
}

impl Session {
    /// Slices of zeros, made where they stay: 46,848 bytes are too many to move over the stack.
    pub(crate) fn zeroed() -> Box<Self> {
        let layout = Layout::new::<Self>();
        // SAFETY: the layout is not of size 0.
        let session = unsafe { alloc_zeroed(layout) }.cast::<Self>();
        if session.is_null() {
            handle_alloc_error(layout);
        }
        // SAFETY: the allocator gave the pointer for this very layout, it is not null and nobody else has it; and
        // all bits zero are a value of every field, which are arrays of numbers.
        unsafe { Box::from_raw(session) }
    }

    /// The capabilities that a device was made with, released ones among them: no call of the library tells them. The
    /// rows of the devices are crates/control/src/layout.rt's.
    pub(crate) fn made_with(&self, device: Device) -> u64 {
        const DEVICES: usize = 32;
        const DEVICE_WORDS: usize = 24;
        const CAPABILITIES: usize = 2;
        let mut rows = self.control[DEVICES..].chunks_exact(DEVICE_WORDS);
        rows.find(|row| row[0] == device.id())
            .map_or(0, |row| row[CAPABILITIES])
    }
}

#[cfg(test)]
mod tests {
    use super::*;
    use crate::message::{HEADER_LENGTH, MESSAGE_LENGTH, WAIT};
    use crate::wire::{EVENT_MESSAGE_LENGTH, EVENT_RECORD_LENGTH};
    use crate::{sys, DeviceCapability, DisconnectReason, Interface};
    use crate::{ButtonState, ContextType, DeviceType, KeyState};

    /// The library's number at a place of its table.
    fn number(place: usize) -> u64 {
        // SAFETY: the function takes a number and reads no memory of ours.
        unsafe { sys::bozterrun_number(place) }
    }

    #[test]
    fn lengths_are_the_librarys() {
        // SAFETY: the functions take nothing and read no memory of ours.
        let theirs = unsafe {
            [
                sys::bozterrun_handshake_length(),
                sys::bozterrun_name_length(),
                sys::bozterrun_control_length(),
                sys::bozterrun_words_length(),
                sys::bozterrun_reals_length(),
                sys::bozterrun_texts_length(),
            ]
        };
        let ours = [
            HANDSHAKE_LENGTH,
            NAME_LENGTH,
            CONTROL_LENGTH,
            WORDS_LENGTH,
            REALS_LENGTH,
            TEXTS_LENGTH,
        ];
        assert_eq!(theirs, ours);
    }

    #[test]
    fn numbers_are_the_librarys() {
        let refusals = (1..=26).map(|number| u64::from(crate::refusal::tests::of_number(number).number()));
        let others = [u64::from(NONE), 65, u64::from(WAIT)];
        let kinds = 0..22;
        let interfaces = Interface::ALL.map(|interface| u64::from(interface.number()));
        let capabilities = DeviceCapability::ALL.map(DeviceCapability::bits);
        let contexts = [ContextType::Receiver, ContextType::Sender].map(|context| u64::from(context.number()));
        let types = [DeviceType::Virtual, DeviceType::Physical].map(|kind| u64::from(kind.number()));
        let reasons = [
            DisconnectReason::Disconnected,
            DisconnectReason::Error,
            DisconnectReason::Mode,
            DisconnectReason::Protocol,
            DisconnectReason::Value,
            DisconnectReason::Transport,
        ]
        .map(|reason| u64::from(reason.number()));
        // The requests of a read, and the words and the reals of a record.
        let (requests, record) = (0..36, [8, 2]);
        // The cases of a malformed message, the bytes of a header and the most of a message.
        let (cases, message) = (1..=7, [HEADER_LENGTH as u64, MESSAGE_LENGTH as u64]);
        // The most bytes of an event's message, and of an event record.
        let event = [EVENT_MESSAGE_LENGTH as u64, EVENT_RECORD_LENGTH as u64];
        let ours: Vec<u64> = refusals
            .chain(others)
            .chain(kinds)
            .chain(interfaces)
            .chain(capabilities)
            .chain(contexts)
            .chain(types)
            .chain(reasons)
            .chain(requests)
            .chain(record)
            .chain(cases)
            .chain(message)
            .chain(event)
            .collect();
        let theirs: Vec<u64> = (0..ours.len()).map(number).collect();
        assert_eq!(theirs, ours);
        // The table ends here.
        assert_eq!(ours.len(), 129);
        assert_eq!(number(ours.len()), 0);
        // States have no place in the table: a press is 1.
        assert_eq!((KeyState::Press.number(), KeyState::Released.number()), (1, 0));
        assert_eq!((ButtonState::Press.number(), ButtonState::Released.number()), (1, 0));
    }
}
