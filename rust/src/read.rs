//! A whole read: many of a client's requests, handed over in one call.

use crate::{
    eis::{
        button, connection, device, handshake, keyboard, pointer, pointer_absolute, scroll, seat, text, touchscreen,
        Object, Request,
    },
    event::Events,
    Refusal,
};
use std::fmt;

/// The numbers of a record: request, object, version, three arguments, and the part of the texts.
const RECORD_LENGTH: usize = 8;

/// And its reals.
const POINT_LENGTH: usize = 2;

/// A client's requests, gathered to be handed over in one call of
/// [`handle_requests`](crate::EisRequestConverter::handle_requests).
///
/// Texts are copied as their requests are pushed. A station that reads many messages in one wakeup keeps a `Read`,
/// pushes what it decodes, hands it over and [`clear`](Self::clear)s it: memory is allocated until it is as large as
/// the largest read.
///
/// ```
/// # include!(concat!(env!("CARGO_MANIFEST_DIR"), "/tests/begin/mod.rs"));
/// # fn main() -> Result<(), bozterrun::Refusal> {
/// use bozterrun::eis::{device, keyboard, Request};
/// use bozterrun::{DeviceCapability::Keyboard, DeviceType, EisRequest, KeyState, Read};
///
/// # let mut converter = begin(7);
/// # let (mut out, now) = ([0; bozterrun::OUT_LENGTH], 0);
/// let (seat, _) = converter.handle_mut().add_seat(None, Keyboard, &mut out)?;
/// let (device, _) = converter.handle_mut().add_device(seat, None, DeviceType::Virtual, Keyboard, &mut out)?;
/// let keyboard = converter.handle().interface(device, Keyboard)?.expect("the device has a keyboard");
///
/// // The clerk presses a key and lets it go, and the client ends the frame.
/// let mut read = Read::new();
/// for state in [KeyState::Press, KeyState::Released] {
///     read.push(Request::Keyboard(keyboard, keyboard::Request::Key { key: 30, state }));
/// }
/// read.push(Request::Device(device, device::Request::Frame { last_serial: 7, timestamp: 500 }));
/// let handled = converter.handle_requests(&read, now, &mut out);
/// assert_eq!((handled.accepted, handled.refusal), (3, None));
///
/// let mut text = [0; bozterrun::TEXT_LENGTH];
/// let mut keys = 0;
/// while let Some(request) = converter.next_request(&mut text)? {
///     keys += usize::from(matches!(request, EisRequest::KeyboardKey(key) if key.time == 500));
/// }
/// assert_eq!(keys, 2);
/// # Ok(()) }
/// ```
#[derive(Clone, Default, PartialEq)]
pub struct Read {
    records: Vec<[u64; RECORD_LENGTH]>,
    points: Vec<[f32; POINT_LENGTH]>,
    texts: Vec<u8>,
}

/// How much was gathered, and nothing of what a clerk keyed.
impl fmt::Debug for Read {
    fn fmt(&self, f: &mut fmt::Formatter<'_>) -> fmt::Result {
        f.debug_struct("Read")
            .field("len", &self.len())
            .field("texts_len", &self.texts.len())
            .finish_non_exhaustive()
    }
}

/// What a request is as numbers, but for its text.
struct Numbers {
    /// Its place among the requests: by interface, then by opcode.
    request: u64,
    object: Object,
    arguments: [u64; 3],
    point: [f32; POINT_LENGTH],
}

/// The numbers of a request whose arguments are whole numbers.
const fn numbers(request: u64, object: Object, arguments: [u64; 3]) -> Numbers {
    Numbers {
        request,
        object,
        arguments,
        point: [0.0; POINT_LENGTH],
    }
}

/// Those of one that has coordinates.
const fn pointed(request: u64, object: Object, first: u32, x: f32, y: f32) -> Numbers {
    Numbers {
        request,
        object,
        arguments: [first as u64, 0, 0],
        point: [x, y],
    }
}

/// A signed amount as its bits.
const fn amount(amount: i32) -> u64 {
    amount as u32 as u64
}

impl Numbers {
    // Always inlined: where the variant is known, what is left of this is a record's numbers.
    #[inline(always)]
    fn of(request: Request<'_>) -> Self {
        const NO_OBJECT: Object = Object::new(0, 0);
        match request {
            Request::Handshake(request) => match request {
                handshake::Request::HandshakeVersion { version } => numbers(0, NO_OBJECT, [version.into(), 0, 0]),
                handshake::Request::Finish => numbers(1, NO_OBJECT, [0; 3]),
                handshake::Request::ContextType { context_type } => {
                    numbers(2, NO_OBJECT, [context_type.number().into(), 0, 0])
                }
                handshake::Request::Name { .. } => numbers(3, NO_OBJECT, [0; 3]),
                handshake::Request::InterfaceVersion { version, .. } => numbers(4, NO_OBJECT, [version.into(), 0, 0]),
            },
            Request::Connection(request) => match request {
                connection::Request::Sync { callback } => {
                    numbers(5, NO_OBJECT, [callback.id, callback.version.into(), 0])
                }
                connection::Request::Disconnect => numbers(6, NO_OBJECT, [0; 3]),
            },
            Request::Pingpong(_) => numbers(7, NO_OBJECT, [0; 3]),
            Request::Seat(seat, request) => {
                let object = Object::new(seat.id(), 0);
                match request {
                    seat::Request::Release => numbers(8, object, [0; 3]),
                    seat::Request::Bind { capabilities } => numbers(9, object, [capabilities, 0, 0]),
                    seat::Request::RequestDevice { capabilities } => numbers(10, object, [capabilities, 0, 0]),
                }
            }
            Request::Device(device, request) => {
                let object = Object::new(device.id(), 0);
                match request {
                    device::Request::Release => numbers(11, object, [0; 3]),
                    device::Request::StartEmulating { last_serial, sequence } => {
                        numbers(12, object, [last_serial.into(), sequence.into(), 0])
                    }
                    device::Request::StopEmulating { last_serial } => numbers(13, object, [last_serial.into(), 0, 0]),
                    device::Request::Frame { last_serial, timestamp } => {
                        numbers(14, object, [last_serial.into(), timestamp, 0])
                    }
                    device::Request::Ready => numbers(15, object, [0; 3]),
                }
            }
            Request::Pointer(object, request) => match request {
                pointer::Request::Release => numbers(16, object, [0; 3]),
                pointer::Request::MotionRelative { x, y } => pointed(17, object, 0, x, y),
            },
            Request::PointerAbsolute(object, request) => match request {
                pointer_absolute::Request::Release => numbers(18, object, [0; 3]),
                pointer_absolute::Request::MotionAbsolute { x, y } => pointed(19, object, 0, x, y),
            },
            Request::Scroll(object, request) => match request {
                scroll::Request::Release => numbers(20, object, [0; 3]),
                scroll::Request::Scroll { x, y } => pointed(21, object, 0, x, y),
                scroll::Request::ScrollDiscrete { x, y } => numbers(22, object, [amount(x), amount(y), 0]),
                scroll::Request::ScrollStop { x, y, is_cancel } => {
                    numbers(23, object, [x.into(), y.into(), is_cancel.into()])
                }
            },
            Request::Button(object, request) => match request {
                button::Request::Release => numbers(24, object, [0; 3]),
                button::Request::Button { button, state } => {
                    numbers(25, object, [button.into(), state.number().into(), 0])
                }
            },
            Request::Keyboard(object, request) => match request {
                keyboard::Request::Release => numbers(26, object, [0; 3]),
                keyboard::Request::Key { key, state } => numbers(27, object, [key.into(), state.number().into(), 0]),
            },
            Request::Touchscreen(object, request) => match request {
                touchscreen::Request::Release => numbers(28, object, [0; 3]),
                touchscreen::Request::Down { touchid, x, y } => pointed(29, object, touchid, x, y),
                touchscreen::Request::Motion { touchid, x, y } => pointed(30, object, touchid, x, y),
                touchscreen::Request::Up { touchid } => numbers(31, object, [touchid.into(), 0, 0]),
                touchscreen::Request::Cancel { touchid } => numbers(32, object, [touchid.into(), 0, 0]),
            },
            Request::Text(object, request) => match request {
                text::Request::Release => numbers(33, object, [0; 3]),
                text::Request::Keysym { keysym, state } => {
                    numbers(34, object, [keysym.into(), state.number().into(), 0])
                }
                text::Request::Utf8 { .. } => numbers(35, object, [0; 3]),
            },
        }
    }
}

impl Read {
    /// A read of no request.
    #[must_use]
    pub const fn new() -> Self {
        Self {
            records: Vec::new(),
            points: Vec::new(),
            texts: Vec::new(),
        }
    }

    /// The same, with room for so many requests and so many bytes of texts before memory is allocated again.
    #[must_use]
    pub fn with_capacity(requests: usize, texts: usize) -> Self {
        Self {
            records: Vec::with_capacity(requests),
            points: Vec::with_capacity(requests),
            texts: Vec::with_capacity(texts),
        }
    }

    /// A read of no request over these bytes, as they were received: [`push_part`](Self::push_part) names the texts of
    /// requests in them, and none is copied.
    ///
    /// ```
    /// use bozterrun::eis::{text, Object, Request};
    /// use bozterrun::Read;
    ///
    /// let mut read = Read::with_texts(b"Lisbon, Porto".to_vec());
    /// let utf8 = Request::Text(Object::new(5, 1), text::Request::Utf8 { text: b"" });
    /// read.push_part(utf8, 0, 6);
    /// read.push_part(utf8, 8, 5);
    /// assert_eq!(read.len(), 2);
    /// ```
    #[must_use]
    pub const fn with_texts(texts: Vec<u8>) -> Self {
        Self {
            records: Vec::new(),
            points: Vec::new(),
            texts,
        }
    }

    /// Adds a request, and a copy of its text.
    #[inline(always)]
    pub fn push(&mut self, request: Request<'_>) {
        let (start, text) = (self.texts.len(), request.text());
        self.texts.extend_from_slice(text);
        self.push_part(request, start, text.len());
    }

    /// Adds a request whose text is a part of those that the read has, so many bytes from the byte `start` on. The text
    /// in `request` itself does not count; of a request that carries none, the part does not either. Parts may overlap,
    /// and need not cover the texts. One that goes past their end is refused with [`Refusal::BadPart`] when its turn
    /// comes.
    #[inline(always)]
    pub fn push_part(&mut self, request: Request<'_>, start: usize, length: usize) {
        let of = Numbers::of(request);
        let [first, second, third] = of.arguments;
        self.records.push([
            of.request,
            of.object.id,
            of.object.version.into(),
            first,
            second,
            third,
            start as u64,
            length as u64,
        ]);
        self.points.push(of.point);
    }

    /// How many requests there are.
    #[inline]
    #[must_use]
    pub fn len(&self) -> usize {
        self.records.len()
    }

    /// Whether there is none.
    #[inline]
    #[must_use]
    pub fn is_empty(&self) -> bool {
        self.records.is_empty()
    }

    /// Takes the first so many requests out: those that were accepted, say, so that the rest can be handed over once a
    /// refusal is dealt with. The texts stay, and so do the parts that the others have of them.
    ///
    /// ```
    /// # include!(concat!(env!("CARGO_MANIFEST_DIR"), "/tests/begin/mod.rs"));
    /// # fn main() {
    /// use bozterrun::eis::{connection, Object, Request};
    /// use bozterrun::{Read, Refusal};
    ///
    /// # let (mut converter, now) = (begin(7), 0);
    /// let sync = |id| Request::Connection(connection::Request::Sync { callback: Object::new(id, 1) });
    /// let mut read: Read = (1..=3).map(sync).collect();
    /// let mut out = [0; 36];
    /// let handled = converter.handle_requests(&read, now, &mut out);
    /// assert_eq!((handled.accepted, handled.refusal), (2, Some(Refusal::ShortOut)));
    /// // Both are sent, and there is room for the third.
    /// read.discard(2);
    /// let handled = converter.handle_requests(&read, now, &mut out);
    /// assert_eq!((handled.accepted, handled.refusal), (1, None));
    /// # }
    /// ```
    pub fn discard(&mut self, requests: usize) {
        let requests = requests.min(self.len());
        self.records.drain(..requests);
        self.points.drain(..requests);
    }

    /// Takes all requests and texts out, and keeps the memory for the next read.
    #[inline]
    pub fn clear(&mut self) {
        self.records.clear();
        self.points.clear();
        self.texts.clear();
    }

    /// The three slices that the library is lent: numbers, reals and texts.
    #[inline]
    pub(crate) fn slices(&self) -> (&[u64], &[f32], &[u8]) {
        (self.records.as_flattened(), self.points.as_flattened(), &self.texts)
    }
}

impl<'a> Extend<Request<'a>> for Read {
    fn extend<I: IntoIterator<Item = Request<'a>>>(&mut self, requests: I) {
        for request in requests {
            self.push(request);
        }
    }
}

impl<'a> FromIterator<Request<'a>> for Read {
    fn from_iter<I: IntoIterator<Item = Request<'a>>>(requests: I) -> Self {
        let mut read = Self::new();
        read.extend(requests);
        read
    }
}

/// What became of a read.
#[derive(Clone, Debug, PartialEq, Eq)]
#[must_use]
pub struct Handled<'o> {
    /// How many requests were accepted, those that do nothing among them. It is also the place of the one that was
    /// refused.
    pub accepted: usize,
    /// The events that these wrote, one behind another.
    pub events: Events<'o>,
    /// Why the next one was refused; `None` where all were accepted. What was accepted before it stays done and
    /// written; nothing behind it was tried.
    pub refusal: Option<Refusal>,
}

#[cfg(test)]
mod tests {
    use super::*;
    use crate::sys;

    #[test]
    fn records_are_as_long_as_the_librarys() {
        // SAFETY: the function takes a number and reads no memory of ours.
        let [words, reals] = [116, 117].map(|place| unsafe { sys::bozterrun_number(place) });
        assert_eq!((words, reals), (RECORD_LENGTH as u64, POINT_LENGTH as u64));
    }

    #[test]
    fn nothing_of_a_payload_is_shown() {
        let text = text::Request::Utf8 { text: b"secret" };
        let read: Read = [Request::Text(Object::new(5, 1), text)].into_iter().collect();
        assert_eq!(format!("{read:?}"), "Read { len: 1, texts_len: 6, .. }");
    }
}
