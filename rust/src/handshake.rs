//! The handshake on the server's side: a client says who it is and which interfaces it knows.

use crate::{
    eis::{
        handshake::{ContextType, Request as HandshakeRequest},
        Request,
    },
    event::{Events, Interface},
    message::{HandshakeReceived, Told, WAIT},
    session::{Session, CONTROL_LENGTH, HANDSHAKE_LENGTH, NAME_LENGTH},
    sys, Refusal,
};
use std::{collections::HashMap, fmt};

/// What a handshake comes to: who the client is, and the session that begins.
///
/// Hand it to [`EisRequestConverter::new`](crate::EisRequestConverter::new).
pub struct EisHandshakeResp {
    /// The client's name, if it has said one.
    pub name: Option<String>,
    /// Whether the client sends input or receives it; a receiver where it has not said.
    pub context_type: ContextType,
    /// The interfaces that were negotiated, by name, and their versions.
    pub negotiated_interfaces: HashMap<&'static str, u32>,
    pub(crate) session: Box<Session>,
}

impl fmt::Debug for EisHandshakeResp {
    fn fmt(&self, f: &mut fmt::Formatter<'_>) -> fmt::Result {
        f.debug_struct("EisHandshakeResp")
            .field("name", &self.name)
            .field("context_type", &self.context_type)
            .field("negotiated_interfaces", &self.negotiated_interfaces)
            .finish_non_exhaustive()
    }
}

/// A handshake under way.
///
/// ```
/// use bozterrun::eis::{handshake, Request};
/// use bozterrun::{EisHandshaker, EisRequestConverter, Refusal};
///
/// let mut out = [0; 256];
/// let (mut handshaker, events) = EisHandshaker::new(7, &mut out)?;
/// assert_eq!(events.count(), 1); // the handshake's version, to be sent
///
/// // What the client answers. A station decodes it from its socket.
/// let finish = Request::Handshake(handshake::Request::Finish);
/// let refused = handshaker.handle_request(finish, &mut out);
/// assert_eq!(refused.unwrap_err(), Refusal::MissingInterface { count: 0 });
///
/// let names: [&[u8]; 3] = [b"ei_connection", b"ei_callback", b"ei_pingpong"];
/// for name in names {
///     let known = Request::Handshake(handshake::Request::InterfaceVersion { name, version: 1 });
///     assert!(handshaker.handle_request(known, &mut out)?.0.is_none());
/// }
/// let (response, events) = handshaker.handle_request(finish, &mut out)?;
/// assert_eq!(events.count(), 4); // three interface versions and the connection
/// let response = response.expect("a Finish that is accepted ends the handshake");
/// assert_eq!(response.negotiated_interfaces.get("ei_callback"), Some(&1));
/// let converter = EisRequestConverter::new(response);
/// assert_eq!(converter.handle().last_serial()?, 7);
/// # Ok::<(), Refusal>(())
/// ```
pub struct EisHandshaker {
    words: [u64; HANDSHAKE_LENGTH],
    name: [u8; NAME_LENGTH],
}

impl fmt::Debug for EisHandshaker {
    fn fmt(&self, f: &mut fmt::Formatter<'_>) -> fmt::Result {
        f.debug_struct("EisHandshaker").finish_non_exhaustive()
    }
}

impl EisHandshaker {
    /// Starts a handshake, and writes the version of the handshake. `initial_serial` is the session's first serial.
    ///
    /// # Errors
    ///
    /// [`Refusal::ShortOut`]: the event takes 14 bytes.
    pub fn new(initial_serial: u32, out: &mut [u8]) -> Result<(Self, Events<'_>), Refusal> {
        let mut handshaker = Self {
            words: [0; HANDSHAKE_LENGTH],
            name: [0; NAME_LENGTH],
        };
        let mut count = 0;
        // SAFETY: each pointer is that of a slice or a number that is borrowed mutably for the call, with its length.
        let status = unsafe {
            sys::bozterrun_handshake_new(
                handshaker.words.as_mut_ptr(),
                handshaker.words.len(),
                handshaker.name.as_mut_ptr(),
                handshaker.name.len(),
                initial_serial,
                out.as_mut_ptr(),
                out.len(),
                &mut count,
            )
        };
        match status {
            0 => Ok((handshaker, Events::written(out, count))),
            _ => Err(Refusal::from_number(status)),
        }
    }

    /// Handles a client's request. A Finish that is accepted answers the response, with which the session begins.
    ///
    /// # Errors
    ///
    /// [`Refusal::NonHandshakeEvent`] for a request that is no handshake's, [`Refusal::DuplicateEvent`],
    /// [`Refusal::BadUtf8`], [`Refusal::NameLong`]; for a Finish [`Refusal::ShortOut`] (206 bytes are enough) and
    /// [`Refusal::MissingInterface`], which alone writes: send the events in the first `count` bytes of `out` all the
    /// same. The handshake goes on behind each of them.
    pub fn handle_request<'o>(
        &mut self,
        request: Request<'_>,
        out: &'o mut [u8],
    ) -> Result<(Option<EisHandshakeResp>, Events<'o>), Refusal> {
        let (words, name) = (&mut self.words, &mut self.name);
        let status = match request {
            Request::Handshake(HandshakeRequest::Finish) => {
                return self.finish(out).map(|(response, events)| (Some(response), events));
            }
            Request::Handshake(HandshakeRequest::HandshakeVersion { version }) => {
                // SAFETY: both slices are this handshake's, borrowed mutably for the call.
                unsafe {
                    sys::bozterrun_handshake_handshake_version(
                        words.as_mut_ptr(),
                        words.len(),
                        name.as_mut_ptr(),
                        name.len(),
                        version,
                    )
                }
            }
            Request::Handshake(HandshakeRequest::ContextType { context_type }) => {
                // SAFETY: both slices are this handshake's, borrowed mutably for the call.
                unsafe {
                    sys::bozterrun_handshake_context_type(
                        words.as_mut_ptr(),
                        words.len(),
                        name.as_mut_ptr(),
                        name.len(),
                        context_type.number(),
                    )
                }
            }
            Request::Handshake(HandshakeRequest::Name { name: text }) => {
                // SAFETY: both slices are this handshake's, borrowed mutably for the call; the text is only read.
                unsafe {
                    sys::bozterrun_handshake_name(
                        words.as_mut_ptr(),
                        words.len(),
                        name.as_mut_ptr(),
                        name.len(),
                        text.as_ptr(),
                        text.len(),
                    )
                }
            }
            Request::Handshake(HandshakeRequest::InterfaceVersion { name: text, version }) => {
                // SAFETY: both slices are this handshake's, borrowed mutably for the call; the text is only read.
                unsafe {
                    sys::bozterrun_handshake_interface_version(
                        words.as_mut_ptr(),
                        words.len(),
                        name.as_mut_ptr(),
                        name.len(),
                        text.as_ptr(),
                        text.len(),
                        version,
                    )
                }
            }
            other => {
                let text = other.text();
                // SAFETY: both slices are this handshake's, borrowed mutably for the call; the text is only read.
                unsafe {
                    sys::bozterrun_handshake_other(
                        words.as_mut_ptr(),
                        words.len(),
                        name.as_mut_ptr(),
                        name.len(),
                        text.as_ptr(),
                        text.len(),
                    )
                }
            }
        };
        match status {
            0 => Ok((None, Events::default())),
            _ => Err(Refusal::from_number(status)),
        }
    }

    fn finish<'o>(&mut self, out: &'o mut [u8]) -> Result<(EisHandshakeResp, Events<'o>), Refusal> {
        let mut session = Session::zeroed();
        let mut count = 0;
        // SAFETY: each pointer is that of a slice or a number that is borrowed mutably for the call, with its length.
        let status = unsafe {
            sys::bozterrun_handshake_finish(
                self.words.as_mut_ptr(),
                self.words.len(),
                self.name.as_mut_ptr(),
                self.name.len(),
                session.control.as_mut_ptr(),
                session.control.len(),
                out.as_mut_ptr(),
                out.len(),
                &mut count,
            )
        };
        if status != 0 {
            return Err(Refusal::from_finish(status, count));
        }
        Ok((self.response(session)?, Events::written(out, count)))
    }

    /// Handles the first message of a client's bytes, as they were received: it is handed on as the request that it
    /// stands for. Bytes behind it are not read.
    ///
    /// Answers how many bytes the message had, what the client is to be sent, and the response where it was a Finish;
    /// `None` where it is not yet whole. What is behind a Finish goes to
    /// [`EisRequestConverter::pending_request`](crate::EisRequestConverter::pending_request).
    ///
    /// ```
    /// use bozterrun::{EisHandshaker, EisRequestConverter, Refusal};
    ///
    /// // What the client sends: the object's id, here 0, the length, the opcode, the arguments.
    /// fn message(opcode: u32, arguments: &[u8]) -> Vec<u8> {
    ///     let length = 16 + arguments.len() as u32;
    ///     [&[0; 8], &length.to_le_bytes()[..], &opcode.to_le_bytes(), arguments].concat()
    /// }
    /// // A text: its length with a closing zero, its bytes, and zeros up to a multiple of four.
    /// fn text(bytes: &[u8]) -> Vec<u8> {
    ///     let length = bytes.len() as u32 + 1;
    ///     let mut text = [&length.to_le_bytes(), bytes].concat();
    ///     text.resize(4 + length.next_multiple_of(4) as usize, 0);
    ///     text
    /// }
    /// let mut bytes = message(3, &text(b"token"));
    /// for name in ["ei_connection", "ei_callback", "ei_pingpong"] {
    ///     bytes.extend(message(4, &[text(name.as_bytes()), vec![1, 0, 0, 0]].concat()));
    /// }
    /// bytes.extend(message(1, &[]));
    ///
    /// let mut out = [0; bozterrun::OUT_LENGTH];
    /// let (mut handshaker, _) = EisHandshaker::new(7, &mut out)?;
    /// let mut at = 0;
    /// let mut converter = None;
    /// while let Some(received) = handshaker.pending_request(&bytes[at..], &mut out)? {
    ///     at += received.taken; // and `received.events` are sent
    ///     if let Some(response) = received.response {
    ///         assert_eq!(response.name.as_deref(), Some("token"));
    ///         converter = Some(EisRequestConverter::new(response));
    ///         break;
    ///     }
    /// }
    /// assert_eq!(at, bytes.len());
    /// let mut converter = converter.expect("the handshake is finished");
    /// assert!(converter.pending_request(&bytes[at..], 0, &mut out)?.is_none()); // it waits
    /// # Ok::<(), Refusal>(())
    /// ```
    ///
    /// # Errors
    ///
    /// [`Refusal::NoObject`] for an object that is not alive: the handshake's own is until its Finish succeeds.
    /// [`Refusal::Malformed`], [`Refusal::InvalidId`]; then what [`handle_request`](Self::handle_request) refuses, but
    /// [`Refusal::BadUtf8`], which is [`Refusal::Malformed`] here. Nothing is taken by a message that is refused.
    pub fn pending_request<'o>(
        &mut self,
        message: &[u8],
        out: &'o mut [u8],
    ) -> Result<Option<HandshakeReceived<'o>>, Refusal> {
        // The session's memory is made where it begins.
        let mut control = [0; CONTROL_LENGTH];
        let mut told = Told::default();
        // SAFETY: each pointer is that of a slice or a number that is borrowed mutably for the call, with its length;
        // the message is only read.
        let status = unsafe {
            sys::bozterrun_handshake_pending_request(
                self.words.as_mut_ptr(),
                self.words.len(),
                self.name.as_mut_ptr(),
                self.name.len(),
                control.as_mut_ptr(),
                control.len(),
                message.as_ptr(),
                message.len(),
                out.as_mut_ptr(),
                out.len(),
                &mut told.taken,
                &mut told.count,
                &mut told.begun,
                &mut told.error,
                &mut told.first,
                &mut told.second,
            )
        };
        let response = match (status, told.begun) {
            (0, 0) => None,
            (0, _) => {
                let mut session = Session::zeroed();
                session.control = control;
                Some(self.response(session)?)
            }
            (WAIT, _) => return Ok(None),
            _ => return Err(told.refusal(status)),
        };
        Ok(Some(HandshakeReceived {
            taken: told.taken,
            events: Events::written(out, told.count),
            response,
        }))
    }

    /// What the handshake comes to, with the session that it has begun.
    fn response(&self, session: Box<Session>) -> Result<EisHandshakeResp, Refusal> {
        let (name, context_type) = self.client()?;
        let mut negotiated_interfaces = HashMap::new();
        for interface in Interface::ALL {
            if let Some(version) = session.interface_version(interface.name().as_bytes())? {
                negotiated_interfaces.insert(interface.name(), version);
            }
        }
        Ok(EisHandshakeResp {
            name,
            context_type,
            negotiated_interfaces,
            session,
        })
    }

    /// Who the client says it is.
    fn client(&self) -> Result<(Option<String>, ContextType), Refusal> {
        let (mut given, mut length, mut context_type) = (0, 0, 0);
        // SAFETY: both slices are this handshake's and only read; the numbers are borrowed mutably for the call.
        let status = unsafe {
            sys::bozterrun_handshake_client(
                self.words.as_ptr(),
                self.words.len(),
                self.name.as_ptr(),
                self.name.len(),
                &mut given,
                &mut length,
                &mut context_type,
            )
        };
        if status != 0 {
            return Err(Refusal::from_number(status));
        }
        let bytes = self.name.get(..length).unwrap_or_default();
        let name = (given == 1).then(|| String::from_utf8_lossy(bytes).into_owned());
        let context_type = ContextType::from_number(context_type).unwrap_or(ContextType::Receiver);
        Ok((name, context_type))
    }

    /// The handshake's memory, for tests that write to it.
    #[doc(hidden)]
    pub fn memory(&mut self) -> (&mut [u64], &mut [u8]) {
        (&mut self.words, &mut self.name)
    }
}
