//! The converter: a client's requests in, delivered requests out.

use crate::{
    connection::{answer, Connection},
    eis::{
        button, connection, device, handshake, keyboard, pingpong, pointer, pointer_absolute, scroll, seat, text,
        touchscreen, Object, Request,
    },
    event::Events,
    handshake::EisHandshakeResp,
    message::{Received, Told, WAIT},
    read::{Handled, Read},
    request::{EisRequest, Numbers},
    session::{Session, NONE},
    sys, Device, DeviceCapability, Refusal, Seat,
};
use std::fmt;

/// Calls a function of the library that is lent the control words, the words and the reals; its other arguments are
/// numbers.
macro_rules! call {
    ($session:expr, $function:ident $(, $number:expr)* $(,)?) => {{
        let session: &mut Session = $session;
        // SAFETY: the three slices are the session's, borrowed mutably for the call, each with its own length; what
        // else is passed are numbers.
        let status = unsafe {
            sys::$function(
                session.control.as_mut_ptr(),
                session.control.len(),
                session.words.as_mut_ptr(),
                session.words.len(),
                session.reals.as_mut_ptr(),
                session.reals.len(),
                $($number),*
            )
        };
        quiet(status)
    }};
}

/// What a call answers that writes no event.
#[inline(always)]
fn quiet<'o>(status: u32) -> Result<Events<'o>, Refusal> {
    match status {
        0 => Ok(Events::new(&[])),
        _ => Err(Refusal::from_number(status)),
    }
}

/// Gathers a client's requests into frames, and delivers them in order.
///
/// Each request of the client goes to [`handle_request`](Self::handle_request), or many of them in one call to
/// [`handle_requests`](Self::handle_requests), or its bytes as they were received to
/// [`pending_request`](Self::pending_request); what there is to act on comes from
/// [`next_request`](Self::next_request). A timed request (a key, a touch, a text) waits for the frame of its device
/// and gets its time. The station's own calls are those of [`Connection`], which [`handle_mut`](Self::handle_mut)
/// hands out.
///
/// ```
/// # include!(concat!(env!("CARGO_MANIFEST_DIR"), "/tests/begin/mod.rs"));
/// # fn main() -> Result<(), bozterrun::Refusal> {
/// use bozterrun::eis::{device, keyboard, Request};
/// use bozterrun::request::{EisRequest, Frame, KeyboardKey};
/// use bozterrun::{DeviceCapability::Keyboard, DeviceType, KeyState};
///
/// # let mut converter = begin(7);
/// # let (mut out, now) = ([0; bozterrun::OUT_LENGTH], 0);
/// let (seat, _) = converter.handle_mut().add_seat(None, Keyboard, &mut out)?;
/// let (device, _) = converter.handle_mut().add_device(seat, None, DeviceType::Virtual, Keyboard, &mut out)?;
/// let keyboard = converter.handle().interface(device, Keyboard)?.expect("the device has a keyboard");
///
/// // The clerk presses a key, and the client ends the frame.
/// let (key, state) = (30, KeyState::Press);
/// converter.handle_request(Request::Keyboard(keyboard, keyboard::Request::Key { key, state }), now, &mut out)?;
/// let mut text = [0; bozterrun::TEXT_LENGTH];
/// assert_eq!(converter.next_request(&mut text)?, None);
/// let frame = device::Request::Frame { last_serial: 7, timestamp: 500 };
/// converter.handle_request(Request::Device(device, frame), now, &mut out)?;
///
/// let time = 500;
/// let pressed = EisRequest::KeyboardKey(KeyboardKey { device, time, key, state });
/// assert_eq!(converter.next_request(&mut text)?, Some(pressed));
/// let framed = EisRequest::Frame(Frame { device, last_serial: 7, time });
/// assert_eq!(converter.next_request(&mut text)?, Some(framed));
/// assert_eq!(converter.next_request(&mut text)?, None);
/// # Ok(()) }
/// ```
pub struct EisRequestConverter {
    connection: Connection,
}

impl fmt::Debug for EisRequestConverter {
    fn fmt(&self, f: &mut fmt::Formatter<'_>) -> fmt::Result {
        f.debug_struct("EisRequestConverter")
            .field("connection", &self.connection)
            .finish()
    }
}

impl EisRequestConverter {
    /// The converter of the session that a handshake began.
    #[must_use]
    pub fn new(handshake_resp: EisHandshakeResp) -> Self {
        Self {
            connection: Connection::new(handshake_resp),
        }
    }

    /// The connection, to ask it.
    #[inline]
    #[must_use]
    pub fn handle(&self) -> &Connection {
        &self.connection
    }

    /// The connection, for the station's calls.
    #[inline]
    #[must_use]
    pub fn handle_mut(&mut self) -> &mut Connection {
        &mut self.connection
    }

    /// Handles a client's request. `now` is the clock: the time of a frame that the client has left open when it
    /// sends Ready, StartEmulating, StopEmulating or the Release of a device.
    ///
    /// A request on an object that is not known is accepted and does nothing. Events are written for a Sync (18
    /// bytes), for the Release of an interface (14) and for that of a seat, which goes with its devices (910 at most).
    ///
    /// ```
    /// # include!(concat!(env!("CARGO_MANIFEST_DIR"), "/tests/begin/mod.rs"));
    /// # fn main() -> Result<(), bozterrun::Refusal> {
    /// use bozterrun::eis::{connection, Object, Request};
    /// use bozterrun::{Interface, Refusal};
    ///
    /// # let (mut converter, now) = (begin(7), 0);
    /// let mut out = [0; 18];
    /// let sync = |version| Request::Connection(connection::Request::Sync { callback: Object::new(5, version) });
    /// assert_eq!(converter.handle_request(sync(1), now, &mut out)?.as_bytes().len(), 18);
    /// let refused = converter.handle_request(sync(7), now, &mut out).unwrap_err();
    /// assert_eq!(refused, Refusal::InvalidInterfaceVersion { interface: Interface::Callback, version: 7 });
    /// # Ok(()) }
    /// ```
    ///
    /// # Errors
    ///
    /// [`Refusal::UnexpectedHandshakeEvent`] to [`Refusal::InvalidTextLength`] where the client broke a rule,
    /// [`Refusal::BadUtf8`], [`Refusal::NameLong`]; [`Refusal::FullPending`], [`Refusal::FullQueue`],
    /// [`Refusal::FullTexts`], [`Refusal::ShortOut`], [`Refusal::BadState`].
    // Always inlined: where the variant is known, what is left of this is the call of one function.
    #[inline(always)]
    pub fn handle_request<'o>(
        &mut self,
        request: Request<'_>,
        now: u64,
        out: &'o mut [u8],
    ) -> Result<Events<'o>, Refusal> {
        match request {
            Request::Handshake(request) => self.handle_handshake_request(request),
            Request::Connection(request) => self.handle_connection_request(request, out),
            Request::Pingpong(request) => self.handle_pingpong_request(request),
            Request::Seat(seat, request) => self.handle_seat_request(seat, request, out),
            Request::Device(device, request) => self.handle_device_request(device, request, now),
            Request::Pointer(pointer, request) => match request {
                pointer::Request::Release => self.release(DeviceCapability::Pointer, pointer, out),
                pointer::Request::MotionRelative { x, y } => {
                    call!(self.session(), bozterrun_pointer_motion_relative, pointer.id, x, y)
                }
            },
            Request::PointerAbsolute(pointer, request) => match request {
                pointer_absolute::Request::Release => self.release(DeviceCapability::PointerAbsolute, pointer, out),
                pointer_absolute::Request::MotionAbsolute { x, y } => {
                    call!(
                        self.session(),
                        bozterrun_pointer_absolute_motion_absolute,
                        pointer.id,
                        x,
                        y
                    )
                }
            },
            Request::Scroll(scroll, request) => self.handle_scroll_request(scroll, request, out),
            Request::Button(object, request) => match request {
                button::Request::Release => self.release(DeviceCapability::Button, object, out),
                button::Request::Button { button, state } => {
                    call!(
                        self.session(),
                        bozterrun_button_button,
                        object.id,
                        button,
                        state.number()
                    )
                }
            },
            Request::Keyboard(keyboard, request) => match request {
                keyboard::Request::Release => self.release(DeviceCapability::Keyboard, keyboard, out),
                keyboard::Request::Key { key, state } => {
                    call!(self.session(), bozterrun_keyboard_key, keyboard.id, key, state.number())
                }
            },
            Request::Touchscreen(touchscreen, request) => self.handle_touchscreen_request(touchscreen, request, out),
            Request::Text(text, request) => self.handle_text_request(text, request, out),
        }
    }

    /// Handles a whole read: its requests one after another, each as [`handle_request`](Self::handle_request) would
    /// with what is left of `out`, up to the first that is refused. `now` is the clock for all.
    ///
    /// What was accepted before a refusal stays done and written; the refused request and those behind it leave no
    /// trace. A read of no request is refused with [`Refusal::BadState`] alone.
    ///
    /// ```
    /// # include!(concat!(env!("CARGO_MANIFEST_DIR"), "/tests/begin/mod.rs"));
    /// # fn main() -> Result<(), bozterrun::Refusal> {
    /// use bozterrun::eis::{keyboard, seat, Request};
    /// use bozterrun::{DeviceCapability::Keyboard, DeviceType, KeyState, Read, Refusal};
    ///
    /// # let (mut converter, now) = (begin(7), 0);
    /// # let mut out = [0; bozterrun::OUT_LENGTH];
    /// # let (seat, _) = converter.handle_mut().add_seat(None, Keyboard, &mut out)?;
    /// # let (device, _) = converter.handle_mut().add_device(seat, None, DeviceType::Virtual, Keyboard, &mut out)?;
    /// # let keyboard = converter.handle().interface(device, Keyboard)?.expect("the device has a keyboard");
    /// let key = |key| Request::Keyboard(keyboard, keyboard::Request::Key { key, state: KeyState::Press });
    /// let bind = Request::Seat(seat, seat::Request::Bind { capabilities: 128 });
    /// let read: Read = [key(30), bind, key(31)].into_iter().collect();
    /// let handled = converter.handle_requests(&read, now, &mut out);
    /// assert_eq!(handled.accepted, 1);
    /// assert_eq!(handled.refusal, Some(Refusal::InvalidCapabilities));
    /// assert!(handled.events.is_empty());
    /// # Ok(()) }
    /// ```
    pub fn handle_requests<'o>(&mut self, read: &Read, now: u64, out: &'o mut [u8]) -> Handled<'o> {
        let Session {
            control,
            words,
            reals,
            texts,
        } = self.session();
        let (records, points, lent) = read.slices();
        let (mut accepted, mut count, mut interface, mut version) = (0, 0, 0, 0);
        // SAFETY: the four slices of the session, `out` and the numbers are borrowed mutably for the call; the slices
        // of the read are only read.
        let status = unsafe {
            sys::bozterrun_handle_requests(
                control.as_mut_ptr(),
                control.len(),
                words.as_mut_ptr(),
                words.len(),
                reals.as_mut_ptr(),
                reals.len(),
                texts.as_mut_ptr(),
                texts.len(),
                records.as_ptr(),
                records.len(),
                points.as_ptr(),
                points.len(),
                lent.as_ptr(),
                lent.len(),
                now,
                out.as_mut_ptr(),
                out.len(),
                &mut accepted,
                &mut count,
                &mut interface,
                &mut version,
            )
        };
        Handled {
            accepted,
            events: Events::written(out, count),
            refusal: match status {
                0 => None,
                _ => Some(Refusal::from_versioned(status, interface, version)),
            },
        }
    }

    /// Handles the first message of a client's bytes, as they were received: it is read by the object that it addresses
    /// and handed on as the one request that it stands for. Bytes behind it are not read. `now` is the clock, as for
    /// [`handle_request`](Self::handle_request).
    ///
    /// Answers how many bytes the message had, and what the client is to be sent; `None` where it is not yet whole.
    /// Messages are those of the ei protocol, little-endian, of [`MESSAGE_LENGTH`](crate::MESSAGE_LENGTH) bytes at most.
    ///
    /// ```
    /// # include!(concat!(env!("CARGO_MANIFEST_DIR"), "/tests/begin/mod.rs"));
    /// # fn main() -> Result<(), bozterrun::Refusal> {
    /// use bozterrun::{DeviceCapability::Keyboard, DeviceType, EisRequest, KeyState, ParseError, Refusal};
    ///
    /// # let (mut converter, now) = (begin(7), 0);
    /// # let mut out = [0; bozterrun::OUT_LENGTH];
    /// # let (seat, _) = converter.handle_mut().add_seat(None, Keyboard, &mut out)?;
    /// let (device, _) = converter.handle_mut().add_device(seat, None, DeviceType::Virtual, Keyboard, &mut out)?;
    /// let keyboard = converter.handle().interface(device, Keyboard)?.expect("the device has a keyboard");
    ///
    /// // What the client sends: the object's id, the length, the opcode, the arguments.
    /// let message = |id: u64, opcode: u32, arguments: &[u8]| {
    ///     let length = 16 + arguments.len() as u32;
    ///     [&id.to_le_bytes(), &length.to_le_bytes()[..], &opcode.to_le_bytes(), arguments].concat()
    /// };
    /// let key = message(keyboard.id, 1, &[30, 0, 0, 0, 1, 0, 0, 0]); // the key 30 is pressed
    /// let frame = message(device.id(), 3, &[7, 0, 0, 0, 244, 1, 0, 0, 0, 0, 0, 0]); // serial 7, at 500
    /// let bytes = [key, frame].concat();
    ///
    /// let mut at = 0;
    /// while let Some(received) = converter.pending_request(&bytes[at..], now, &mut out)? {
    ///     at += received.taken; // and `received.events` are sent
    /// }
    /// assert_eq!(at, 24 + 28);
    /// let mut text = [0; bozterrun::TEXT_LENGTH];
    /// let Some(EisRequest::KeyboardKey(pressed)) = converter.next_request(&mut text)? else { panic!() };
    /// assert_eq!((pressed.key, pressed.state, pressed.time), (30, KeyState::Press, 500));
    ///
    /// // A refused message takes nothing.
    /// let refused = converter.pending_request(&message(keyboard.id, 2, &[]), now, &mut out).unwrap_err();
    /// assert_eq!(refused, Refusal::Malformed(ParseError::InvalidOpcode("ei_keyboard", 2)));
    /// # Ok(()) }
    /// ```
    ///
    /// # Errors
    ///
    /// [`Refusal::NoObject`] where no object with the addressed id is alive, [`Refusal::Malformed`],
    /// [`Refusal::InvalidId`]; then the refusals of the request, as [`handle_request`](Self::handle_request) has them.
    /// Object and length are looked at as soon as the header is there, the rest once the message is whole. Nothing is
    /// taken by a message that is refused: make room and hand the same bytes in again, or disconnect the client, or go
    /// on behind it, as many bytes further as its header says.
    pub fn pending_request<'o>(
        &mut self,
        message: &[u8],
        now: u64,
        out: &'o mut [u8],
    ) -> Result<Option<Received<'o>>, Refusal> {
        let Session {
            control,
            words,
            reals,
            texts,
        } = self.session();
        let mut told = Told::default();
        // SAFETY: the four slices of the session, `out` and the numbers are borrowed mutably for the call; the message
        // is only read.
        let status = unsafe {
            sys::bozterrun_pending_request(
                control.as_mut_ptr(),
                control.len(),
                words.as_mut_ptr(),
                words.len(),
                reals.as_mut_ptr(),
                reals.len(),
                texts.as_mut_ptr(),
                texts.len(),
                message.as_ptr(),
                message.len(),
                now,
                out.as_mut_ptr(),
                out.len(),
                &mut told.taken,
                &mut told.count,
                &mut told.error,
                &mut told.first,
                &mut told.second,
            )
        };
        match status {
            0 => Ok(Some(Received {
                taken: told.taken,
                events: Events::written(out, told.count),
            })),
            WAIT => Ok(None),
            _ => Err(told.refusal(status)),
        }
    }

    #[inline(always)]
    fn session(&mut self) -> &mut Session {
        &mut self.connection.session
    }

    fn handle_handshake_request<'o>(&mut self, request: handshake::Request<'_>) -> Result<Events<'o>, Refusal> {
        let control = &self.session().control;
        let (opcode, value, text): (u32, u32, &[u8]) = match request {
            handshake::Request::HandshakeVersion { version } => (0, version, b""),
            handshake::Request::Finish => (1, 0, b""),
            handshake::Request::ContextType { context_type } => (2, context_type.number(), b""),
            handshake::Request::Name { name } => (3, 0, name),
            handshake::Request::InterfaceVersion { name, version } => (4, version, name),
        };
        // SAFETY: the control words and the text are borrowed for the call and only read.
        let status = unsafe {
            sys::bozterrun_unexpected_handshake(
                control.as_ptr(),
                control.len(),
                opcode,
                value,
                text.as_ptr(),
                text.len(),
            )
        };
        quiet(status)
    }

    #[inline(always)]
    fn handle_connection_request<'o>(
        &mut self,
        request: connection::Request,
        out: &'o mut [u8],
    ) -> Result<Events<'o>, Refusal> {
        match request {
            connection::Request::Disconnect => call!(self.session(), bozterrun_connection_disconnect),
            connection::Request::Sync { callback } => self.sync(callback, out),
        }
    }

    fn sync<'o>(&mut self, callback: Object, out: &'o mut [u8]) -> Result<Events<'o>, Refusal> {
        let control = &self.session().control;
        let (mut count, mut interface, mut version) = (0, 0, 0);
        // SAFETY: the control words are borrowed for the call and only read; `out` and the numbers are borrowed
        // mutably.
        let status = unsafe {
            sys::bozterrun_connection_sync(
                control.as_ptr(),
                control.len(),
                callback.id,
                callback.version,
                out.as_mut_ptr(),
                out.len(),
                &mut count,
                &mut interface,
                &mut version,
            )
        };
        match status {
            0 => Ok(Events::written(out, count)),
            _ => Err(Refusal::from_versioned(status, interface, version)),
        }
    }

    #[inline(always)]
    fn handle_pingpong_request<'o>(&mut self, request: pingpong::Request) -> Result<Events<'o>, Refusal> {
        let pingpong::Request::Done { callback_data: _ } = request;
        let control = &self.session().control;
        // SAFETY: the control words are borrowed for the call and only read.
        quiet(unsafe { sys::bozterrun_pingpong_done(control.as_ptr(), control.len()) })
    }

    #[inline(always)]
    fn handle_seat_request<'o>(
        &mut self,
        seat: Seat,
        request: seat::Request,
        out: &'o mut [u8],
    ) -> Result<Events<'o>, Refusal> {
        match request {
            seat::Request::Release => self.release_seat(seat, out),
            seat::Request::Bind { capabilities } => {
                call!(self.session(), bozterrun_seat_bind, seat.id(), capabilities)
            }
            seat::Request::RequestDevice { capabilities } => {
                call!(self.session(), bozterrun_seat_request_device, seat.id(), capabilities)
            }
        }
    }

    fn release_seat<'o>(&mut self, seat: Seat, out: &'o mut [u8]) -> Result<Events<'o>, Refusal> {
        let Session {
            control, words, reals, ..
        } = self.session();
        let mut count = 0;
        // SAFETY: the three slices, `out` and the number are borrowed mutably for the call.
        let status = unsafe {
            sys::bozterrun_seat_release(
                control.as_mut_ptr(),
                control.len(),
                words.as_mut_ptr(),
                words.len(),
                reals.as_mut_ptr(),
                reals.len(),
                seat.id(),
                out.as_mut_ptr(),
                out.len(),
                &mut count,
            )
        };
        answer(status, out, count)
    }

    #[inline(always)]
    fn handle_device_request<'o>(
        &mut self,
        device: Device,
        request: device::Request,
        now: u64,
    ) -> Result<Events<'o>, Refusal> {
        let (session, id) = (self.session(), device.id());
        match request {
            device::Request::Release => call!(session, bozterrun_device_release, id, now),
            device::Request::StartEmulating { last_serial, sequence } => {
                call!(
                    session,
                    bozterrun_device_start_emulating,
                    id,
                    last_serial,
                    sequence,
                    now
                )
            }
            device::Request::StopEmulating { last_serial } => {
                call!(session, bozterrun_device_stop_emulating, id, last_serial, now)
            }
            device::Request::Frame { last_serial, timestamp } => {
                call!(session, bozterrun_device_frame, id, last_serial, timestamp)
            }
            device::Request::Ready => call!(session, bozterrun_device_ready, id, now),
        }
    }

    #[inline(always)]
    fn handle_scroll_request<'o>(
        &mut self,
        scroll: Object,
        request: scroll::Request,
        out: &'o mut [u8],
    ) -> Result<Events<'o>, Refusal> {
        match request {
            scroll::Request::Release => self.release(DeviceCapability::Scroll, scroll, out),
            scroll::Request::Scroll { x, y } => call!(self.session(), bozterrun_scroll_scroll, scroll.id, x, y),
            scroll::Request::ScrollDiscrete { x, y } => {
                call!(self.session(), bozterrun_scroll_scroll_discrete, scroll.id, x, y)
            }
            scroll::Request::ScrollStop { x, y, is_cancel } => {
                call!(self.session(), bozterrun_scroll_scroll_stop, scroll.id, x, y, is_cancel)
            }
        }
    }

    #[inline(always)]
    fn handle_touchscreen_request<'o>(
        &mut self,
        touchscreen: Object,
        request: touchscreen::Request,
        out: &'o mut [u8],
    ) -> Result<Events<'o>, Refusal> {
        let id = touchscreen.id;
        match request {
            touchscreen::Request::Release => self.release(DeviceCapability::Touch, touchscreen, out),
            touchscreen::Request::Down { touchid, x, y } => {
                call!(self.session(), bozterrun_touchscreen_down, id, touchid, x, y)
            }
            touchscreen::Request::Motion { touchid, x, y } => {
                call!(self.session(), bozterrun_touchscreen_motion, id, touchid, x, y)
            }
            touchscreen::Request::Up { touchid } => call!(self.session(), bozterrun_touchscreen_up, id, touchid),
            touchscreen::Request::Cancel { touchid } => self.cancel(touchscreen, touchid),
        }
    }

    fn cancel<'o>(&mut self, touchscreen: Object, touchid: u32) -> Result<Events<'o>, Refusal> {
        let Session {
            control, words, reals, ..
        } = self.session();
        let (mut interface, mut version) = (0, 0);
        // SAFETY: the slices of the session and the numbers are borrowed mutably for the call.
        let status = unsafe {
            sys::bozterrun_touchscreen_cancel(
                control.as_mut_ptr(),
                control.len(),
                words.as_mut_ptr(),
                words.len(),
                reals.as_mut_ptr(),
                reals.len(),
                touchscreen.id,
                touchscreen.version,
                touchid,
                &mut interface,
                &mut version,
            )
        };
        match status {
            0 => Ok(Events::default()),
            _ => Err(Refusal::from_versioned(status, interface, version)),
        }
    }

    #[inline(always)]
    fn handle_text_request<'o>(
        &mut self,
        object: Object,
        request: text::Request<'_>,
        out: &'o mut [u8],
    ) -> Result<Events<'o>, Refusal> {
        match request {
            text::Request::Release => self.release(DeviceCapability::Text, object, out),
            text::Request::Keysym { keysym, state } => {
                call!(self.session(), bozterrun_text_keysym, object.id, keysym, state.number())
            }
            text::Request::Utf8 { text } => {
                let Session {
                    control,
                    words,
                    reals,
                    texts,
                } = self.session();
                // SAFETY: the four slices of the session are borrowed mutably for the call; the text is only read.
                let status = unsafe {
                    sys::bozterrun_text_utf8(
                        control.as_mut_ptr(),
                        control.len(),
                        words.as_mut_ptr(),
                        words.len(),
                        reals.as_mut_ptr(),
                        reals.len(),
                        texts.as_mut_ptr(),
                        texts.len(),
                        object.id,
                        text.as_ptr(),
                        text.len(),
                    )
                };
                quiet(status)
            }
        }
    }

    /// The Release of a device's interface.
    fn release<'o>(
        &mut self,
        capability: DeviceCapability,
        object: Object,
        out: &'o mut [u8],
    ) -> Result<Events<'o>, Refusal> {
        let control = &mut self.session().control;
        let mut count = 0;
        // SAFETY: the control words, `out` and the number are borrowed mutably for the call.
        let status = unsafe {
            sys::bozterrun_interface_release(
                control.as_mut_ptr(),
                control.len(),
                capability.bits(),
                object.id,
                out.as_mut_ptr(),
                out.len(),
                &mut count,
            )
        };
        answer(status, out, count)
    }

    /// The numbers of the oldest queued request, taken out of the queue, with its text at the buffer's front.
    #[inline(always)]
    fn next_numbers(&mut self, buffer: &mut [u8]) -> Result<Option<Numbers>, Refusal> {
        let Session {
            control,
            words,
            reals,
            texts,
        } = self.session();
        let mut given = Numbers::default();
        // SAFETY: the control words, the buffer and both arrays are borrowed mutably for the call; the other slices
        // of the session are only read.
        let status = unsafe {
            sys::bozterrun_next_request(
                control.as_mut_ptr(),
                control.len(),
                words.as_ptr(),
                words.len(),
                reals.as_ptr(),
                reals.len(),
                texts.as_ptr(),
                texts.len(),
                &mut given.numbers,
                &mut given.coordinates,
                buffer.as_mut_ptr(),
                buffer.len(),
            )
        };
        match status {
            0 => Ok(Some(given)),
            NONE => Ok(None),
            _ => Err(Refusal::from_number(status)),
        }
    }

    /// The oldest queued request, taken out of the queue. Its text, if it has one, lies in `buffer`, for which
    /// [`TEXT_LENGTH`](crate::TEXT_LENGTH) bytes are enough.
    ///
    /// Timed requests come in frames: one or more of one device, with one time, then that device's
    /// [`Frame`](EisRequest::Frame) with that time. Nothing else comes between them, no `Frame` comes by itself, and
    /// no request comes twice.
    ///
    /// # Errors
    ///
    /// [`Refusal::ShortOut`] where the buffer is shorter than the text (the request is then still the oldest),
    /// [`Refusal::BadState`].
    #[inline(always)]
    pub fn next_request<'b>(&mut self, buffer: &'b mut [u8]) -> Result<Option<EisRequest<'b>>, Refusal> {
        let given = self.next_numbers(buffer)?;
        Ok(given.map(|given| EisRequest::from_numbers(&given, buffer)))
    }

    /// All that is queued, oldest first, each taken out of the queue as the iterator comes to it.
    ///
    /// Texts are put into `buffer` one behind another, so that requests can be kept while the iterator goes on.
    /// [`TEXTS_LENGTH`](crate::TEXTS_LENGTH) bytes are enough for all that can be queued. A refusal ends it.
    ///
    /// ```
    /// # include!(concat!(env!("CARGO_MANIFEST_DIR"), "/tests/begin/mod.rs"));
    /// # fn main() -> Result<(), bozterrun::Refusal> {
    /// use bozterrun::eis::{connection, Request};
    /// use bozterrun::request::EisRequest;
    ///
    /// # let mut converter = begin(7);
    /// converter.handle_request(Request::Connection(connection::Request::Disconnect), 0, &mut [])?;
    /// let mut buffer = [0; bozterrun::TEXTS_LENGTH];
    /// let all = converter.requests(&mut buffer).collect::<Result<Vec<_>, _>>()?;
    /// assert_eq!(all, [EisRequest::Disconnect]);
    /// # Ok(()) }
    /// ```
    pub fn requests<'c, 'b>(&'c mut self, buffer: &'b mut [u8]) -> Requests<'c, 'b> {
        Requests {
            converter: self,
            buffer,
            refused: false,
        }
    }
}

/// The iterator of [`EisRequestConverter::requests`].
#[derive(Debug)]
pub struct Requests<'c, 'b> {
    converter: &'c mut EisRequestConverter,
    /// What no text has been put into.
    buffer: &'b mut [u8],
    refused: bool,
}

impl<'b> Iterator for Requests<'_, 'b> {
    type Item = Result<EisRequest<'b>, Refusal>;

    fn next(&mut self) -> Option<Self::Item> {
        if self.refused {
            return None;
        }
        match self.converter.next_numbers(self.buffer) {
            Ok(None) => None,
            Ok(Some(given)) => {
                let buffer = std::mem::take(&mut self.buffer);
                let (text, rest) = buffer.split_at_mut(given.text_length().min(buffer.len()));
                self.buffer = rest;
                Some(Ok(EisRequest::from_numbers(&given, text)))
            }
            Err(refusal) => {
                self.refused = true;
                Some(Err(refusal))
            }
        }
    }
}
