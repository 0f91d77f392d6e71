//! Delivered requests: what a station is to act on.
//!
//! Names and fields are those of `reis::request`; a seat or a device is its id.

use crate::{
    eis::{button::ButtonState, keyboard::KeyState},
    DeviceCapabilities,
};
use std::str::{self, Utf8Error};

/// A seat, by the id of its object.
///
/// ```
/// use bozterrun::Seat;
///
/// assert_eq!(Seat(0xff00000000000001).id(), 0xff00000000000001);
/// ```
#[derive(Clone, Copy, Debug, PartialEq, Eq, Hash, PartialOrd, Ord)]
pub struct Seat(pub u64);

impl Seat {
    /// The id of its object.
    #[inline]
    #[must_use]
    pub const fn id(self) -> u64 {
        self.0
    }
}

/// A device, by the id of its object.
///
/// ```
/// use bozterrun::Device;
///
/// assert_eq!(Device(0xff00000000000002).id(), 0xff00000000000002);
/// ```
#[derive(Clone, Copy, Debug, PartialEq, Eq, Hash, PartialOrd, Ord)]
pub struct Device(pub u64);

impl Device {
    /// The id of its object.
    #[inline]
    #[must_use]
    pub const fn id(self) -> u64 {
        self.0
    }
}

/// A delivered request: what a client did, in the order in which it did it.
///
/// Timed requests ([`PointerMotion`] and those behind it) have waited for the frame of their device, have its time,
/// and are followed by that [`Frame`].
///
/// ```
/// use bozterrun::request::{EisRequest, KeyboardKey};
/// use bozterrun::{Device, KeyState};
///
/// let key = KeyboardKey { device: Device(2), time: 500, key: 30, state: KeyState::Press };
/// let request = EisRequest::KeyboardKey(key);
/// assert_eq!(request.device(), Some(Device(2)));
/// assert_eq!(request.time(), Some(500));
/// ```
#[derive(Clone, Copy, Debug, PartialEq)]
pub enum EisRequest<'b> {
    /// The client leaves.
    Disconnect,
    /// The client wants devices of a seat.
    Bind(Bind),
    /// The client wants a device no more. Remove it.
    DeviceClosed(DeviceClosed),
    /// The client wants a new device.
    RequestDevice(RequestDevice),
    /// Ends a frame.
    Frame(Frame),
    /// The client has seen a device's done. Resume it.
    Ready(Ready),
    /// The client begins to send input.
    DeviceStartEmulating(DeviceStartEmulating),
    /// The client ends sending input.
    DeviceStopEmulating(DeviceStopEmulating),
    /// The pointer moves.
    PointerMotion(PointerMotion),
    /// The pointer moves to a place.
    PointerMotionAbsolute(PointerMotionAbsolute),
    /// A button goes down or up.
    Button(Button),
    /// Scrolls by logical pixels.
    ScrollDelta(ScrollDelta),
    /// Scrolling stopped.
    ScrollStop(ScrollStop),
    /// Scrolling was cancelled.
    ScrollCancel(ScrollCancel),
    /// Scrolls by steps of a wheel.
    ScrollDiscrete(ScrollDiscrete),
    /// A key goes down or up.
    KeyboardKey(KeyboardKey),
    /// A touch goes down.
    TouchDown(TouchDown),
    /// A touch goes up.
    TouchUp(TouchUp),
    /// A touch moves.
    TouchMotion(TouchMotion),
    /// A touch is cancelled.
    TouchCancel(TouchCancel),
    /// A keysym goes down or up.
    TextKeysym(TextKeysym),
    /// A text.
    TextUtf8(TextUtf8<'b>),
}

/// [`ei_seat.bind`](crate::eis::seat::Request::Bind).
#[derive(Clone, Copy, Debug, PartialEq, Eq)]
pub struct Bind {
    /// The seat.
    pub seat: Seat,
    /// What the client wants.
    pub capabilities: DeviceCapabilities,
}

/// [`ei_seat.request_device`](crate::eis::seat::Request::RequestDevice).
#[derive(Clone, Copy, Debug, PartialEq, Eq)]
pub struct RequestDevice {
    /// The seat.
    pub seat: Seat,
    /// What the client wants.
    pub capabilities: DeviceCapabilities,
}

/// [`ei_device.release`](crate::eis::device::Request::Release). The device stands until the station removes it.
#[derive(Clone, Copy, Debug, PartialEq, Eq)]
pub struct DeviceClosed {
    /// The device.
    pub device: Device,
}

/// [`ei_device.frame`](crate::eis::device::Request::Frame), or the frame that a request on the device ended.
#[derive(Clone, Copy, Debug, PartialEq, Eq)]
pub struct Frame {
    /// The device.
    pub device: Device,
    /// The last serial that the client has seen.
    pub last_serial: u32,
    /// Microseconds.
    pub time: u64,
}

/// [`ei_device.ready`](crate::eis::device::Request::Ready).
#[derive(Clone, Copy, Debug, PartialEq, Eq)]
pub struct Ready {
    /// The device.
    pub device: Device,
}

/// [`ei_device.start_emulating`](crate::eis::device::Request::StartEmulating).
#[derive(Clone, Copy, Debug, PartialEq, Eq)]
pub struct DeviceStartEmulating {
    /// The device.
    pub device: Device,
    /// The last serial that the client has seen.
    pub last_serial: u32,
    /// A number for this emulation.
    pub sequence: u32,
}

/// [`ei_device.stop_emulating`](crate::eis::device::Request::StopEmulating).
#[derive(Clone, Copy, Debug, PartialEq, Eq)]
pub struct DeviceStopEmulating {
    /// The device.
    pub device: Device,
    /// The last serial that the client has seen.
    pub last_serial: u32,
}

/// [`ei_pointer.motion_relative`](crate::eis::pointer::Request::MotionRelative).
#[derive(Clone, Copy, Debug, PartialEq)]
pub struct PointerMotion {
    /// The device.
    pub device: Device,
    /// Microseconds.
    pub time: u64,
    /// By how much to the right.
    pub dx: f32,
    /// By how much down.
    pub dy: f32,
}

/// [`ei_pointer_absolute.motion_absolute`](crate::eis::pointer_absolute::Request::MotionAbsolute).
#[derive(Clone, Copy, Debug, PartialEq)]
pub struct PointerMotionAbsolute {
    /// The device.
    pub device: Device,
    /// Microseconds.
    pub time: u64,
    /// Where to.
    pub dx_absolute: f32,
    /// Where to.
    pub dy_absolute: f32,
}

/// [`ei_button.button`](crate::eis::button::Request::Button).
#[derive(Clone, Copy, Debug, PartialEq, Eq)]
pub struct Button {
    /// The device.
    pub device: Device,
    /// Microseconds.
    pub time: u64,
    /// The button's code.
    pub button: u32,
    /// Down or up.
    pub state: ButtonState,
}

/// [`ei_scroll.scroll`](crate::eis::scroll::Request::Scroll).
#[derive(Clone, Copy, Debug, PartialEq)]
pub struct ScrollDelta {
    /// The device.
    pub device: Device,
    /// Microseconds.
    pub time: u64,
    /// To the right.
    pub dx: f32,
    /// Down.
    pub dy: f32,
}

/// [`ei_scroll.scroll_stop`](crate::eis::scroll::Request::ScrollStop) whose `is_cancel` is 0.
#[derive(Clone, Copy, Debug, PartialEq, Eq)]
pub struct ScrollStop {
    /// The device.
    pub device: Device,
    /// Microseconds.
    pub time: u64,
    /// Whether that to the right stopped.
    pub x: bool,
    /// Whether that down stopped.
    pub y: bool,
}

/// [`ei_scroll.scroll_stop`](crate::eis::scroll::Request::ScrollStop) whose `is_cancel` is not 0.
#[derive(Clone, Copy, Debug, PartialEq, Eq)]
pub struct ScrollCancel {
    /// The device.
    pub device: Device,
    /// Microseconds.
    pub time: u64,
    /// Whether that to the right was cancelled.
    pub x: bool,
    /// Whether that down was cancelled.
    pub y: bool,
}

/// [`ei_scroll.scroll_discrete`](crate::eis::scroll::Request::ScrollDiscrete).
#[derive(Clone, Copy, Debug, PartialEq, Eq)]
pub struct ScrollDiscrete {
    /// The device.
    pub device: Device,
    /// Microseconds.
    pub time: u64,
    /// To the right, 120 for each step.
    pub discrete_dx: i32,
    /// Down, 120 for each step.
    pub discrete_dy: i32,
}

/// [`ei_keyboard.key`](crate::eis::keyboard::Request::Key).
#[derive(Clone, Copy, Debug, PartialEq, Eq)]
pub struct KeyboardKey {
    /// The device.
    pub device: Device,
    /// Microseconds.
    pub time: u64,
    /// The key's code.
    pub key: u32,
    /// Down or up.
    pub state: KeyState,
}

/// [`ei_touchscreen.down`](crate::eis::touchscreen::Request::Down).
#[derive(Clone, Copy, Debug, PartialEq)]
pub struct TouchDown {
    /// The device.
    pub device: Device,
    /// Microseconds.
    pub time: u64,
    /// The touch's number.
    pub touch_id: u32,
    /// Where.
    pub x: f32,
    /// Where.
    pub y: f32,
}

/// [`ei_touchscreen.up`](crate::eis::touchscreen::Request::Up).
#[derive(Clone, Copy, Debug, PartialEq, Eq)]
pub struct TouchUp {
    /// The device.
    pub device: Device,
    /// Microseconds.
    pub time: u64,
    /// The touch's number.
    pub touch_id: u32,
}

/// [`ei_touchscreen.motion`](crate::eis::touchscreen::Request::Motion).
#[derive(Clone, Copy, Debug, PartialEq)]
pub struct TouchMotion {
    /// The device.
    pub device: Device,
    /// Microseconds.
    pub time: u64,
    /// The touch's number.
    pub touch_id: u32,
    /// Where to.
    pub x: f32,
    /// Where to.
    pub y: f32,
}

/// [`ei_touchscreen.cancel`](crate::eis::touchscreen::Request::Cancel).
#[derive(Clone, Copy, Debug, PartialEq, Eq)]
pub struct TouchCancel {
    /// The device.
    pub device: Device,
    /// Microseconds.
    pub time: u64,
    /// The touch's number.
    pub touch_id: u32,
}

/// [`ei_text.keysym`](crate::eis::text::Request::Keysym).
#[derive(Clone, Copy, Debug, PartialEq, Eq)]
pub struct TextKeysym {
    /// The device.
    pub device: Device,
    /// Microseconds.
    pub time: u64,
    /// The XKB keysym.
    pub keysym: u32,
    /// Down or up.
    pub state: KeyState,
}

/// [`ei_text.utf8`](crate::eis::text::Request::Utf8).
#[derive(Clone, Copy, Debug, PartialEq, Eq)]
pub struct TextUtf8<'b> {
    /// The device.
    pub device: Device,
    /// Microseconds.
    pub time: u64,
    /// The text's bytes, in the buffer that was lent for them: 1 to 254, in UTF-8 as the client sent them.
    pub text: &'b [u8],
}

impl<'b> TextUtf8<'b> {
    /// The text. The library has let only UTF-8 through; this goes over it once more, since nothing unchecked
    /// becomes a `str` here.
    ///
    /// ```
    /// use bozterrun::{request::TextUtf8, Device};
    ///
    /// let text = TextUtf8 { device: Device(2), time: 700, text: "é".as_bytes() };
    /// assert_eq!(text.to_str(), Ok("é"));
    /// ```
    ///
    /// # Errors
    ///
    /// Where the bytes are not UTF-8: never on a session that only calls have changed.
    pub fn to_str(&self) -> Result<&'b str, Utf8Error> {
        str::from_utf8(self.text)
    }
}

/// A delivered request as the library gives it.
#[derive(Default)]
pub(crate) struct Numbers {
    /// Its kind, object, time, extra and flag.
    pub numbers: [u64; 5],
    pub coordinates: [f32; 2],
}

/// The kind of a text, the last.
const TEXT_UTF8: u64 = 21;

impl Numbers {
    /// How many bytes its text has.
    #[inline(always)]
    pub fn text_length(&self) -> usize {
        let [kind, _, _, extra, _] = self.numbers;
        if kind == TEXT_UTF8 {
            usize::from(extra as u8)
        } else {
            0
        }
    }
}

impl<'b> EisRequest<'b> {
    /// What the numbers of a delivered request mean (crates/requests/specs/Row.antt `meanings`). `buffer` begins
    /// with its text.
    #[inline(always)]
    pub(crate) fn from_numbers(given: &Numbers, buffer: &'b [u8]) -> Self {
        let [kind, object, time, extra, flag] = given.numbers;
        let [x, y] = given.coordinates;
        let (seat, device) = (Seat(object), Device(object));
        // The numbers are cut to their fields. A state is told by its bit, which takes no branch.
        let low = extra as u32;
        let key_state = if flag == 1 { KeyState::Press } else { KeyState::Released };
        match kind {
            1 => Self::Bind(Bind {
                seat,
                capabilities: DeviceCapabilities::from_bits(time),
            }),
            2 => Self::DeviceClosed(DeviceClosed { device }),
            3 => Self::RequestDevice(RequestDevice {
                seat,
                capabilities: DeviceCapabilities::from_bits(time),
            }),
            4 => Self::Frame(Frame {
                device,
                last_serial: low,
                time,
            }),
            5 => Self::Ready(Ready { device }),
            6 => Self::DeviceStartEmulating(DeviceStartEmulating {
                device,
                last_serial: low,
                sequence: flag as u32,
            }),
            7 => Self::DeviceStopEmulating(DeviceStopEmulating {
                device,
                last_serial: low,
            }),
            8 => Self::PointerMotion(PointerMotion {
                device,
                time,
                dx: x,
                dy: y,
            }),
            9 => Self::PointerMotionAbsolute(PointerMotionAbsolute {
                device,
                time,
                dx_absolute: x,
                dy_absolute: y,
            }),
            10 => Self::Button(Button {
                device,
                time,
                button: low,
                state: if flag == 1 {
                    ButtonState::Press
                } else {
                    ButtonState::Released
                },
            }),
            11 => Self::ScrollDelta(ScrollDelta {
                device,
                time,
                dx: x,
                dy: y,
            }),
            12 => Self::ScrollStop(ScrollStop {
                device,
                time,
                x: extra == 1,
                y: flag == 1,
            }),
            13 => Self::ScrollCancel(ScrollCancel {
                device,
                time,
                x: extra == 1,
                y: flag == 1,
            }),
            14 => Self::ScrollDiscrete(ScrollDiscrete {
                device,
                time,
                discrete_dx: extra as i32,
                discrete_dy: flag as i32,
            }),
            15 => Self::KeyboardKey(KeyboardKey {
                device,
                time,
                key: low,
                state: key_state,
            }),
            16 => Self::TouchDown(TouchDown {
                device,
                time,
                touch_id: low,
                x,
                y,
            }),
            17 => Self::TouchUp(TouchUp {
                device,
                time,
                touch_id: low,
            }),
            18 => Self::TouchMotion(TouchMotion {
                device,
                time,
                touch_id: low,
                x,
                y,
            }),
            19 => Self::TouchCancel(TouchCancel {
                device,
                time,
                touch_id: low,
            }),
            20 => Self::TextKeysym(TextKeysym {
                device,
                time,
                keysym: low,
                state: key_state,
            }),
            TEXT_UTF8 => Self::TextUtf8(TextUtf8 {
                device,
                time,
                text: buffer.get(..given.text_length()).unwrap_or_default(),
            }),
            _ => Self::Disconnect,
        }
    }

    /// The device that the request is made on, if it is.
    #[must_use]
    pub fn device(&self) -> Option<Device> {
        match self {
            Self::Disconnect | Self::Bind(_) | Self::RequestDevice(_) => None,
            Self::DeviceClosed(request) => Some(request.device),
            Self::Frame(request) => Some(request.device),
            Self::Ready(request) => Some(request.device),
            Self::DeviceStartEmulating(request) => Some(request.device),
            Self::DeviceStopEmulating(request) => Some(request.device),
            Self::PointerMotion(request) => Some(request.device),
            Self::PointerMotionAbsolute(request) => Some(request.device),
            Self::Button(request) => Some(request.device),
            Self::ScrollDelta(request) => Some(request.device),
            Self::ScrollStop(request) => Some(request.device),
            Self::ScrollCancel(request) => Some(request.device),
            Self::ScrollDiscrete(request) => Some(request.device),
            Self::KeyboardKey(request) => Some(request.device),
            Self::TouchDown(request) => Some(request.device),
            Self::TouchUp(request) => Some(request.device),
            Self::TouchMotion(request) => Some(request.device),
            Self::TouchCancel(request) => Some(request.device),
            Self::TextKeysym(request) => Some(request.device),
            Self::TextUtf8(request) => Some(request.device),
        }
    }

    /// The time of the frame, of a frame itself or of a timed request in it.
    #[must_use]
    pub fn time(&self) -> Option<u64> {
        match self {
            Self::Disconnect
            | Self::Bind(_)
            | Self::RequestDevice(_)
            | Self::DeviceClosed(_)
            | Self::Ready(_)
            | Self::DeviceStartEmulating(_)
            | Self::DeviceStopEmulating(_) => None,
            Self::Frame(request) => Some(request.time),
            Self::PointerMotion(request) => Some(request.time),
            Self::PointerMotionAbsolute(request) => Some(request.time),
            Self::Button(request) => Some(request.time),
            Self::ScrollDelta(request) => Some(request.time),
            Self::ScrollStop(request) => Some(request.time),
            Self::ScrollCancel(request) => Some(request.time),
            Self::ScrollDiscrete(request) => Some(request.time),
            Self::KeyboardKey(request) => Some(request.time),
            Self::TouchDown(request) => Some(request.time),
            Self::TouchUp(request) => Some(request.time),
            Self::TouchMotion(request) => Some(request.time),
            Self::TouchCancel(request) => Some(request.time),
            Self::TextKeysym(request) => Some(request.time),
            Self::TextUtf8(request) => Some(request.time),
        }
    }
}

#[cfg(test)]
mod tests {
    use super::*;

    fn numbers(kind: u64, extra: u64) -> Numbers {
        Numbers {
            numbers: [kind, 2, u64::MAX, extra, u64::MAX],
            coordinates: [1.0, 2.0],
        }
    }

    /// Numbers that no field holds whole: each is cut as `meanings` says.
    #[test]
    fn every_row_of_numbers_is_some_request() {
        let given = |kind| EisRequest::from_numbers(&numbers(kind, 1 << 32 | 0x105), b"abcdef");
        let (device, time) = (Device(2), u64::MAX);
        let (last_serial, button, key, state) = (0x105, 0x105, 0x105, KeyState::Released);
        assert_eq!(
            given(4),
            EisRequest::Frame(Frame {
                device,
                last_serial,
                time
            })
        );
        let state_of_button = ButtonState::Released;
        let cut = Button {
            device,
            time,
            button,
            state: state_of_button,
        };
        assert_eq!(given(10), EisRequest::Button(cut));
        let (x, y) = (false, false);
        assert_eq!(given(12), EisRequest::ScrollStop(ScrollStop { device, time, x, y }));
        let (discrete_dx, discrete_dy) = (0x105, -1);
        let cut = ScrollDiscrete {
            device,
            time,
            discrete_dx,
            discrete_dy,
        };
        assert_eq!(given(14), EisRequest::ScrollDiscrete(cut));
        assert_eq!(
            given(15),
            EisRequest::KeyboardKey(KeyboardKey {
                device,
                time,
                key,
                state
            })
        );
        let text = b"abcde";
        assert_eq!(given(21), EisRequest::TextUtf8(TextUtf8 { device, time, text }));
        for kind in [0, 22, 1 << 32 | 15, u64::MAX] {
            assert_eq!(given(kind), EisRequest::Disconnect);
        }
    }

    /// A text that the buffer does not hold is no text, not a panic.
    #[test]
    fn a_text_past_its_buffer_is_empty() {
        let request = EisRequest::from_numbers(&numbers(21, 7), b"abc");
        assert!(matches!(request, EisRequest::TextUtf8(TextUtf8 { text: b"", .. })));
    }
}
