//! Plays call scripts through the crate: a call to a line in, its answer to a line out. docs/CALL-SCRIPTS.md of the
//! repository says how both are written.

use bozterrun::eis::{
    button, connection, device, handshake, keyboard, pingpong, pointer, pointer_absolute, scroll, seat, text,
    touchscreen, Object, Request,
};
use bozterrun::request::EisRequest;
use bozterrun::{
    read_message, write_message, ButtonState, ContextType, Device, DeviceCapabilities, DeviceCapability, DeviceType,
    DisconnectReason, EisHandshaker, EisRequestConverter, Events, Interface, KeyState, ParseError, Read, Refusal, Seat,
};
use std::io::{self, Write};

/// The most bytes that a line has.
const LINE_LENGTH: usize = 65536;

/// The most bytes that a call is lent, whatever the script says. No call writes so many: a read of 65,535 requests
/// writes 18 bytes for each Sync.
const LENT_LENGTH: usize = 1 << 21;

/// What a line asks for.
enum Step<'a> {
    Now(u64),
    Out(u64),
    Buffer(u64),
    Start(u32),
    WriteMessage(u8, &'a [u8]),
    ReadMessage(u8, &'a [u8]),
    Client(Request<'a>),
    Read(u16, &'a [u8]),
    Message(&'a [u8]),
    NextRequest,
    Station(Station<'a>),
}

/// A call of the station.
enum Station<'a> {
    AddSeat(Option<&'a [u8]>, DeviceCapabilities),
    AddDevice(Seat, Option<&'a [u8]>, DeviceType, DeviceCapabilities),
    RemoveSeat(Seat),
    RemoveDevice(Device),
    Resumed(Device),
    Paused(Device),
    StartEmulating(Device, u32),
    StopEmulating(Device),
    Frame(Device, u64),
    Disconnected(DisconnectReason, Option<&'a [u8]>),
    LastSerial,
    HasInterface(&'a [u8]),
    InterfaceVersion(&'a [u8]),
    HasCapability(Device, DeviceCapability),
}

/// The words of a line that have not been read. `None` of each method: the next word is no such thing.
struct Words<'l, 't> {
    rest: Option<&'l [u8]>,
    /// Where the bytes of the line's text are put; a line has one at most.
    text: &'t mut Vec<u8>,
    /// In a read a text is a part of the read's texts: where it begins, and how long it is.
    part: Option<(usize, usize)>,
}

/// A number: decimal, or hexadecimal behind `0x`.
fn number(word: &[u8]) -> Option<u64> {
    let (digits, radix) = match word.strip_prefix(b"0x") {
        Some(digits) => (digits, 16),
        None => (word, 10),
    };
    if digits.is_empty() {
        return None;
    }
    digits.iter().try_fold(0u64, |number, digit| {
        let digit = char::from(*digit).to_digit(radix)?;
        number.checked_mul(radix.into())?.checked_add(digit.into())
    })
}

impl<'l> Words<'l, '_> {
    /// The next word. An empty one is nothing's: no word is read from it.
    fn word(&mut self) -> Option<&'l [u8]> {
        let rest = self.rest?;
        let end = rest.iter().position(|byte| *byte == b' ');
        self.rest = end.map(|end| &rest[end + 1..]);
        Some(&rest[..end.unwrap_or(rest.len())])
    }

    fn u64(&mut self) -> Option<u64> {
        number(self.word()?)
    }

    fn u32(&mut self) -> Option<u32> {
        u32::try_from(self.u64()?).ok()
    }

    fn u8(&mut self) -> Option<u8> {
        u8::try_from(self.u64()?).ok()
    }

    /// A number that may have a `-` before it, if it is decimal.
    fn i32(&mut self) -> Option<i32> {
        let word = self.word()?;
        let (sign, word) = match word.strip_prefix(b"-") {
            Some(digits) if digits.starts_with(b"0x") => return None,
            Some(digits) => (-1, digits),
            None => (1, word),
        };
        let amount = i64::try_from(number(word)?).ok()?;
        i32::try_from(sign * amount).ok()
    }

    /// The bits of an f32, or `nan`.
    fn f32(&mut self) -> Option<f32> {
        match self.word()? {
            b"nan" => Some(f32::NAN),
            word if word.starts_with(b"0x") => Some(f32::from_bits(u32::try_from(number(word)?).ok()?)),
            _ => None,
        }
    }

    /// `t:` and two hexadecimal digits for each byte.
    fn read_text(&mut self, word: &[u8]) -> Option<()> {
        let digits = word.strip_prefix(b"t:")?;
        if digits.len() % 2 != 0 {
            return None;
        }
        for pair in digits.chunks_exact(2) {
            let high = char::from(pair[0]).to_digit(16)?;
            let low = char::from(pair[1]).to_digit(16)?;
            self.text.push((high * 16 + low) as u8);
        }
        Some(())
    }

    /// Reads a text, whose bytes are then in `text`, or a part, which is then in `part`.
    fn text(&mut self) -> Option<()> {
        let word = self.word()?;
        if self.part.is_none() {
            return self.read_text(word);
        }
        let mut numbers = word.strip_prefix(b"p:")?.split(|byte| *byte == b':');
        let (start, length) = (number(numbers.next()?)?, number(numbers.next()?)?);
        self.part = Some((start as usize, length as usize));
        numbers.next().is_none().then_some(())
    }

    /// The same, where it may be missing: whether it is there.
    fn optional(&mut self) -> Option<bool> {
        match self.word()? {
            b"none" => Some(false),
            word => self.read_text(word).map(|()| true),
        }
    }

    fn object(&mut self) -> Option<Object> {
        self.u64().map(|id| Object::new(id, 1))
    }

    fn seat(&mut self) -> Option<Seat> {
        self.u64().map(Seat)
    }

    fn device(&mut self) -> Option<Device> {
        self.u64().map(Device)
    }

    fn capabilities(&mut self) -> Option<DeviceCapabilities> {
        self.u64().map(DeviceCapabilities::from_bits)
    }

    /// A press state is 0 or 1. Which of the two takes no branch.
    fn key_state(&mut self) -> Option<KeyState> {
        KeyState::from_number(self.u32()?)
    }

    fn button_state(&mut self) -> Option<ButtonState> {
        ButtonState::from_number(self.u32()?)
    }
}

/// What a line asks for that is a call or a setting; `None` where it is neither.
fn parse<'t>(line: &[u8], text: &'t mut Vec<u8>) -> Option<Step<'t>> {
    text.clear();
    let mut words = Words {
        rest: Some(line),
        text,
        part: None,
    };
    let w = &mut words;
    // The text is at its place once the words are read: what is made here still lacks it.
    let lacks = b"".as_slice();
    let some = |given: bool| given.then_some(lacks);
    let mut step = match w.word()? {
        b"now" => Step::Now(w.u64()?),
        b"out" => Step::Out(w.u64()?),
        b"buffer" => Step::Buffer(w.u64()?),
        b"start" => Step::Start(w.u32()?),
        b"write_message" => {
            let interface = w.u8()?;
            w.text()?;
            Step::WriteMessage(interface, lacks)
        }
        b"read_message" => {
            let interface = w.u8()?;
            w.text()?;
            Step::ReadMessage(interface, lacks)
        }
        b"read" => {
            let requests = u16::try_from(w.u64()?).ok()?;
            w.text()?;
            Step::Read(requests, lacks)
        }
        b"message" => {
            w.text()?;
            Step::Message(lacks)
        }
        b"next_request" => Step::NextRequest,
        b"add_seat" => Step::Station(Station::AddSeat(w.optional().map(some)?, w.capabilities()?)),
        b"add_device" => Step::Station(Station::AddDevice(
            w.seat()?,
            w.optional().map(some)?,
            DeviceType::from_number(w.u32()?)?,
            w.capabilities()?,
        )),
        b"remove_seat" => Step::Station(Station::RemoveSeat(w.seat()?)),
        b"remove_device" => Step::Station(Station::RemoveDevice(w.device()?)),
        b"resumed" => Step::Station(Station::Resumed(w.device()?)),
        b"paused" => Step::Station(Station::Paused(w.device()?)),
        b"start_emulating" => Step::Station(Station::StartEmulating(w.device()?, w.u32()?)),
        b"stop_emulating" => Step::Station(Station::StopEmulating(w.device()?)),
        b"frame" => Step::Station(Station::Frame(w.device()?, w.u64()?)),
        b"disconnected" => Step::Station(Station::Disconnected(
            DisconnectReason::from_number(w.u32()?)?,
            w.optional().map(some)?,
        )),
        b"last_serial" => Step::Station(Station::LastSerial),
        b"has_interface" => {
            w.text()?;
            Step::Station(Station::HasInterface(lacks))
        }
        b"interface_version" => {
            w.text()?;
            Step::Station(Station::InterfaceVersion(lacks))
        }
        b"has_capability" => Step::Station(Station::HasCapability(
            w.device()?,
            DeviceCapability::from_bits(w.u64()?)?,
        )),
        name => Step::Client(parse_client(name, w)?),
    };
    if words.rest.is_some() {
        return None;
    }
    let text = words.text.as_slice();
    match &mut step {
        Step::Client(Request::Handshake(handshake::Request::Name { name })) => *name = text,
        Step::Client(Request::Handshake(handshake::Request::InterfaceVersion { name, .. })) => *name = text,
        Step::Client(Request::Text(_, text::Request::Utf8 { text: bytes })) => *bytes = text,
        Step::Read(_, texts) => *texts = text,
        Step::Message(message) => *message = text,
        Step::WriteMessage(_, bytes) | Step::ReadMessage(_, bytes) => *bytes = text,
        Step::Station(Station::AddSeat(Some(name), _) | Station::AddDevice(_, Some(name), ..)) => *name = text,
        Step::Station(Station::Disconnected(_, Some(explanation))) => *explanation = text,
        Step::Station(Station::HasInterface(name) | Station::InterfaceVersion(name)) => *name = text,
        _ => {}
    }
    Some(step)
}

/// Adds the request of a line to a read; `None` where it is no client's.
fn parse_record(line: &[u8], read: &mut Read) -> Option<()> {
    let mut words = Words {
        rest: Some(line),
        text: &mut Vec::new(),
        part: Some((0, 0)),
    };
    let name = words.word()?;
    let request = parse_client(name, &mut words)?;
    let (start, length) = words.part?;
    read.push_part(request, start, length);
    words.rest.is_none().then_some(())
}

/// A client's request, without its text.
fn parse_client<'t>(name: &[u8], w: &mut Words) -> Option<Request<'t>> {
    Some(match name {
        b"handshake.handshake_version" => {
            let version = w.u32()?;
            Request::Handshake(handshake::Request::HandshakeVersion { version })
        }
        b"handshake.name" => {
            w.text()?;
            Request::Handshake(handshake::Request::Name { name: b"" })
        }
        b"handshake.context_type" => {
            let context_type = ContextType::from_number(w.u32()?)?;
            Request::Handshake(handshake::Request::ContextType { context_type })
        }
        b"handshake.interface_version" => {
            w.text()?;
            let version = w.u32()?;
            Request::Handshake(handshake::Request::InterfaceVersion { name: b"", version })
        }
        b"handshake.finish" => Request::Handshake(handshake::Request::Finish),
        b"connection.sync" => {
            let callback = Object::new(w.u64()?, w.u32()?);
            Request::Connection(connection::Request::Sync { callback })
        }
        b"connection.disconnect" => Request::Connection(connection::Request::Disconnect),
        b"pingpong.done" => Request::Pingpong(pingpong::Request::Done { callback_data: 0 }),
        b"seat.release" => Request::Seat(w.seat()?, seat::Request::Release),
        b"seat.bind" => {
            let (seat, capabilities) = (w.seat()?, w.u64()?);
            Request::Seat(seat, seat::Request::Bind { capabilities })
        }
        b"seat.request_device" => {
            let (seat, capabilities) = (w.seat()?, w.u64()?);
            Request::Seat(seat, seat::Request::RequestDevice { capabilities })
        }
        b"device.release" => Request::Device(w.device()?, device::Request::Release),
        b"device.start_emulating" => {
            let (device, last_serial, sequence) = (w.device()?, w.u32()?, w.u32()?);
            Request::Device(device, device::Request::StartEmulating { last_serial, sequence })
        }
        b"device.stop_emulating" => {
            let (device, last_serial) = (w.device()?, w.u32()?);
            Request::Device(device, device::Request::StopEmulating { last_serial })
        }
        b"device.frame" => {
            let (device, last_serial, timestamp) = (w.device()?, w.u32()?, w.u64()?);
            Request::Device(device, device::Request::Frame { last_serial, timestamp })
        }
        b"device.ready" => Request::Device(w.device()?, device::Request::Ready),
        b"pointer.release" => Request::Pointer(w.object()?, pointer::Request::Release),
        b"pointer.motion_relative" => {
            let (pointer, x, y) = (w.object()?, w.f32()?, w.f32()?);
            Request::Pointer(pointer, pointer::Request::MotionRelative { x, y })
        }
        b"pointer_absolute.release" => Request::PointerAbsolute(w.object()?, pointer_absolute::Request::Release),
        b"pointer_absolute.motion_absolute" => {
            let (pointer, x, y) = (w.object()?, w.f32()?, w.f32()?);
            Request::PointerAbsolute(pointer, pointer_absolute::Request::MotionAbsolute { x, y })
        }
        b"scroll.release" => Request::Scroll(w.object()?, scroll::Request::Release),
        b"scroll.scroll" => {
            let (scroll, x, y) = (w.object()?, w.f32()?, w.f32()?);
            Request::Scroll(scroll, scroll::Request::Scroll { x, y })
        }
        b"scroll.scroll_discrete" => {
            let (scroll, x, y) = (w.object()?, w.i32()?, w.i32()?);
            Request::Scroll(scroll, scroll::Request::ScrollDiscrete { x, y })
        }
        b"scroll.scroll_stop" => {
            let (scroll, x, y, is_cancel) = (w.object()?, w.u32()?, w.u32()?, w.u32()?);
            Request::Scroll(scroll, scroll::Request::ScrollStop { x, y, is_cancel })
        }
        b"button.release" => Request::Button(w.object()?, button::Request::Release),
        b"button.button" => {
            let (object, button, state) = (w.object()?, w.u32()?, w.button_state()?);
            Request::Button(object, button::Request::Button { button, state })
        }
        b"keyboard.release" => Request::Keyboard(w.object()?, keyboard::Request::Release),
        b"keyboard.key" => {
            let (keyboard, key, state) = (w.object()?, w.u32()?, w.key_state()?);
            Request::Keyboard(keyboard, keyboard::Request::Key { key, state })
        }
        b"touchscreen.release" => Request::Touchscreen(w.object()?, touchscreen::Request::Release),
        b"touchscreen.down" => {
            let (touchscreen, touchid, x, y) = (w.object()?, w.u32()?, w.f32()?, w.f32()?);
            Request::Touchscreen(touchscreen, touchscreen::Request::Down { touchid, x, y })
        }
        b"touchscreen.motion" => {
            let (touchscreen, touchid, x, y) = (w.object()?, w.u32()?, w.f32()?, w.f32()?);
            Request::Touchscreen(touchscreen, touchscreen::Request::Motion { touchid, x, y })
        }
        b"touchscreen.up" => {
            let (touchscreen, touchid) = (w.object()?, w.u32()?);
            Request::Touchscreen(touchscreen, touchscreen::Request::Up { touchid })
        }
        b"touchscreen.cancel" => {
            let (touchscreen, touchid) = (Object::new(w.u64()?, w.u32()?), w.u32()?);
            Request::Touchscreen(touchscreen, touchscreen::Request::Cancel { touchid })
        }
        b"text.release" => Request::Text(w.object()?, text::Request::Release),
        b"text.keysym" => {
            let (object, keysym, state) = (w.object()?, w.u32()?, w.key_state()?);
            Request::Text(object, text::Request::Keysym { keysym, state })
        }
        b"text.utf8" => {
            let object = w.object()?;
            w.text()?;
            Request::Text(object, text::Request::Utf8 { text: b"" })
        }
        _ => return None,
    })
}

/// What the script has come to.
enum Stage {
    Nothing,
    Handshake(Box<EisHandshaker>),
    Session(EisRequestConverter),
}

/// A script that is played.
struct Play<W> {
    trail: W,
    stage: Stage,
    now: u64,
    out_length: usize,
    buffer_length: usize,
    out: Vec<u8>,
    /// A read that is being gathered, and how many requests it lacks.
    reading: Option<(u16, Read)>,
}

/// Why a script is not played to its end.
#[derive(Debug)]
pub enum Stop {
    /// The line of this number is no call, or comes where no such call can be made. The trail says so.
    Line(usize),
    /// The trail cannot be written.
    Unwritten(io::Error),
}

impl From<io::Error> for Stop {
    fn from(error: io::Error) -> Self {
        Self::Unwritten(error)
    }
}

/// Plays a script and writes its trail.
pub fn play(script: &[u8], trail: impl Write) -> Result<(), Stop> {
    let mut play = Play {
        trail,
        stage: Stage::Nothing,
        now: 0,
        out_length: 4096,
        buffer_length: bozterrun::TEXT_LENGTH,
        out: vec![0; LENT_LENGTH],
        reading: None,
    };
    let mut text = Vec::new();
    for (number, line) in script.split(|byte| *byte == b'\n').enumerate() {
        let line = line.strip_suffix(b"\r").unwrap_or(line);
        if line.len() <= LINE_LENGTH && (line.is_empty() || line[0] == b'#') {
            continue;
        }
        let played = if line.len() > LINE_LENGTH {
            false
        } else if play.reading.is_some() {
            play.record(line)?
        } else {
            match parse(line, &mut text) {
                Some(step) => play.step(step)?,
                None => false,
            }
        };
        if !played {
            return stop(&mut play.trail, number + 1);
        }
    }
    if play.reading.is_some() {
        // The line behind the last one.
        let lines = script.split(|byte| *byte == b'\n').count();
        return stop(&mut play.trail, lines + usize::from(!script.ends_with(b"\n")));
    }
    Ok(())
}

/// Says which line is no call.
fn stop(trail: &mut impl Write, number: usize) -> Result<(), Stop> {
    writeln!(trail, "error line {number}")?;
    Err(Stop::Line(number))
}

/// The events behind an answer, and the end of its line.
fn write_events(trail: &mut impl Write, mut events: Events) -> io::Result<()> {
    if !events.is_empty() {
        write!(trail, " |")?;
    }
    let mut rest = events.as_bytes();
    while events.next().is_some() {
        let length = rest.len() - events.as_bytes().len();
        write!(trail, " ")?;
        write_hexadecimal(trail, &rest[..length])?;
        rest = events.as_bytes();
    }
    if !rest.is_empty() {
        // The bytes are no records. No trail has this.
        write!(trail, " ?")?;
    }
    writeln!(trail)
}

fn write_hexadecimal(trail: &mut impl Write, bytes: &[u8]) -> io::Result<()> {
    bytes.iter().try_for_each(|byte| write!(trail, "{byte:02x}"))
}

/// A refusal with its details.
fn write_refused(trail: &mut impl Write, refusal: Refusal) -> io::Result<()> {
    write!(trail, "refused {}", refusal.number())?;
    match refusal {
        Refusal::InvalidInterfaceVersion { interface, version } => {
            write!(trail, " interface={} version={version}", interface.number())
        }
        Refusal::Malformed(error) => {
            write!(trail, " {}", error.name())?;
            match error {
                ParseError::InvalidOpcode(name, opcode) => {
                    let found = Interface::ALL.into_iter().find(|interface| interface.name() == name);
                    write!(trail, " {} {opcode}", found.map_or(0, Interface::number))
                }
                ParseError::InvalidVariant(number) | ParseError::HeaderLength(number) => write!(trail, " {number}"),
                ParseError::MessageLength(read, header) => write!(trail, " {read} {header}"),
                ParseError::EndOfMessage | ParseError::Utf8 | ParseError::InvalidNull => Ok(()),
            }
        }
        _ => Ok(()),
    }
}

/// The same, and the end of its line. A Finish that is refused may have written.
fn write_refusal(trail: &mut impl Write, refusal: Refusal, out: &[u8]) -> io::Result<()> {
    write_refused(trail, refusal)?;
    match refusal {
        Refusal::MissingInterface { count } => write_events(trail, Events::new(&out[..count])),
        _ => writeln!(trail),
    }
}

/// What a call answers, with its events.
fn write_answer(trail: &mut impl Write, answer: Result<Events, Refusal>) -> io::Result<()> {
    match answer {
        Ok(events) => {
            write!(trail, "accepted")?;
            write_events(trail, events)
        }
        Err(refusal) => write_refusal(trail, refusal, &[]),
    }
}

/// What a message answers: how many bytes it took, with its events, or that it waits. A Finish may have written.
fn write_received(trail: &mut impl Write, received: Option<(usize, Events)>) -> io::Result<()> {
    match received {
        Some((taken, events)) => {
            write!(trail, "accepted taken {taken}")?;
            write_events(trail, events)
        }
        None => writeln!(trail, "wait"),
    }
}

/// What a call answers that adds an object, with its events.
fn write_added(trail: &mut impl Write, kind: &str, answer: Result<(u64, Events), Refusal>) -> io::Result<()> {
    match answer {
        Ok((id, events)) => {
            write!(trail, "{kind} {id:#018x}")?;
            write_events(trail, events)
        }
        Err(refusal) => write_refusal(trail, refusal, &[]),
    }
}

/// What an event record or its message is turned into.
fn write_turned(trail: &mut impl Write, kind: &str, answer: Result<&[u8], Refusal>) -> io::Result<()> {
    match answer {
        Ok(bytes) => {
            write!(trail, "{kind} t:")?;
            write_hexadecimal(trail, bytes)?;
            writeln!(trail)
        }
        Err(refusal) => write_refusal(trail, refusal, &[]),
    }
}

/// The interface of an event's object, `Some(None)` for the handshake's; `None` where there is no such one, which this
/// crate's calls cannot be told: nothing can be sent on it.
fn interface_of(number: u8) -> Option<Option<Interface>> {
    match number {
        0 => Some(None),
        _ => Interface::from_number(number.into()).map(Some),
    }
}

/// What is answered to a question.
fn write_value(trail: &mut impl Write, answer: Result<String, Refusal>) -> io::Result<()> {
    match answer {
        Ok(value) => writeln!(trail, "{value}"),
        Err(refusal) => write_refusal(trail, refusal, &[]),
    }
}

impl<W: Write> Play<W> {
    /// Adds a line to the read that is being gathered; whether it is a client's request.
    fn record(&mut self, line: &[u8]) -> io::Result<bool> {
        let Some((lacking, read)) = &mut self.reading else {
            return Ok(false);
        };
        if parse_record(line, read).is_none() {
            return Ok(false);
        }
        *lacking -= 1;
        self.hand_over()
    }

    /// Hands the read over, if it lacks no request.
    fn hand_over(&mut self) -> io::Result<bool> {
        let Stage::Session(converter) = &mut self.stage else {
            return Ok(false);
        };
        if let Some((_, read)) = self.reading.take_if(|reading| reading.0 == 0) {
            let handled = converter.handle_requests(&read, self.now, &mut self.out[..self.out_length]);
            write!(self.trail, "accepted {}", handled.accepted)?;
            if let Some(refusal) = handled.refusal {
                write!(self.trail, " ")?;
                write_refused(&mut self.trail, refusal)?;
            }
            write_events(&mut self.trail, handled.events)?;
        }
        Ok(true)
    }

    /// Plays a step; whether it can be made.
    fn step(&mut self, step: Step) -> io::Result<bool> {
        let out = &mut self.out[..self.out_length];
        let trail = &mut self.trail;
        match (step, &mut self.stage) {
            (Step::Now(now), _) => self.now = now,
            (Step::Out(length), _) => self.out_length = length.min(LENT_LENGTH as u64) as usize,
            (Step::Buffer(length), _) => self.buffer_length = length.min(LENT_LENGTH as u64) as usize,
            (Step::Start(serial), stage) => {
                let answer = EisHandshaker::new(serial, out);
                let (handshaker, answer) = match answer {
                    Ok((handshaker, events)) => (Some(handshaker), Ok(events)),
                    Err(refusal) => (None, Err(refusal)),
                };
                write_answer(trail, answer)?;
                // A start that is refused has begun a handshake all the same.
                let handshaker = match handshaker {
                    Some(handshaker) => Some(handshaker),
                    None => EisHandshaker::new(serial, &mut [0; 14]).ok().map(|begun| begun.0),
                };
                *stage = handshaker.map_or(Stage::Nothing, |begun| Stage::Handshake(Box::new(begun)));
            }
            (Step::WriteMessage(interface, record), _) => {
                let answer = interface_of(interface)
                    .ok_or(Refusal::Unsendable)
                    .and_then(|interface| write_message(interface, record, out));
                write_turned(trail, "message", answer)?;
            }
            (Step::ReadMessage(interface, message), _) => {
                let answer = interface_of(interface)
                    .ok_or(Refusal::MalformedEvent)
                    .and_then(|interface| read_message(interface, message, out));
                write_turned(trail, "record", answer)?;
            }
            (Step::Client(request), Stage::Handshake(handshaker)) => {
                let mut response = None;
                match handshaker.handle_request(request, out) {
                    Ok((finished, events)) => {
                        response = finished;
                        write_answer(trail, Ok(events))?;
                    }
                    Err(refusal) => write_refusal(trail, refusal, out)?,
                }
                if let Some(response) = response {
                    self.stage = Stage::Session(EisRequestConverter::new(response));
                }
            }
            (Step::Client(request), Stage::Session(converter)) => {
                write_answer(trail, converter.handle_request(request, self.now, out))?;
            }
            (Step::Message(message), Stage::Handshake(handshaker)) => {
                let mut response = None;
                match handshaker.pending_request(message, out) {
                    Ok(received) => {
                        let received = received.map(|received| {
                            response = received.response;
                            (received.taken, received.events)
                        });
                        write_received(trail, received)?;
                    }
                    Err(refusal) => write_refusal(trail, refusal, out)?,
                }
                if let Some(response) = response {
                    self.stage = Stage::Session(EisRequestConverter::new(response));
                }
            }
            (Step::Message(message), Stage::Session(converter)) => {
                match converter.pending_request(message, self.now, out) {
                    Ok(received) => write_received(trail, received.map(|received| (received.taken, received.events)))?,
                    Err(refusal) => write_refusal(trail, refusal, &[])?,
                }
            }
            (Step::Read(requests, texts), Stage::Session(_)) => {
                self.reading = Some((requests, Read::with_texts(texts.to_vec())));
                return self.hand_over();
            }
            (Step::NextRequest, Stage::Session(converter)) => {
                let buffer = &mut self.out[..self.buffer_length];
                match converter.next_request(buffer) {
                    Ok(Some(request)) => write_request(trail, &request)?,
                    Ok(None) => writeln!(trail, "none")?,
                    Err(refusal) => write_refusal(trail, refusal, &[])?,
                }
            }
            (Step::Station(call), Stage::Session(converter)) => station(trail, converter, call, out)?,
            _ => return Ok(false),
        }
        Ok(true)
    }
}

fn station(
    trail: &mut impl Write,
    converter: &mut EisRequestConverter,
    call: Station,
    out: &mut [u8],
) -> io::Result<()> {
    let connection = converter.handle_mut();
    match call {
        Station::AddSeat(name, capabilities) => {
            let answer = connection.add_seat(name, capabilities, out);
            write_added(trail, "seat", answer.map(|(seat, events)| (seat.id(), events)))
        }
        Station::AddDevice(seat, name, device_type, capabilities) => {
            let answer = connection.add_device(seat, name, device_type, capabilities, out);
            write_added(trail, "device", answer.map(|(device, events)| (device.id(), events)))
        }
        Station::RemoveSeat(seat) => write_answer(trail, connection.remove_seat(seat, out)),
        Station::RemoveDevice(device) => write_answer(trail, connection.remove_device(device, out)),
        Station::Resumed(device) => write_answer(trail, connection.resumed(device, out)),
        Station::Paused(device) => write_answer(trail, connection.paused(device, out)),
        Station::StartEmulating(device, sequence) => {
            write_answer(trail, connection.start_emulating(device, sequence, out))
        }
        Station::StopEmulating(device) => write_answer(trail, connection.stop_emulating(device, out)),
        Station::Frame(device, time) => write_answer(trail, connection.frame(device, time, out)),
        Station::Disconnected(reason, explanation) => {
            write_answer(trail, connection.disconnected(reason, explanation, out))
        }
        Station::LastSerial => write_value(trail, connection.last_serial().map(|serial| serial.to_string())),
        Station::HasInterface(name) => {
            write_value(trail, connection.has_interface(name).map(|truth| truth.to_string()))
        }
        Station::InterfaceVersion(name) => {
            let version = connection.interface_version(name);
            let value = |version: Option<u32>| version.map_or("none".to_owned(), |version| version.to_string());
            write_value(trail, version.map(value))
        }
        Station::HasCapability(device, capability) => {
            let truth = connection.has_capability(device, capability);
            write_value(trail, truth.map(|truth| truth.to_string()))
        }
    }
}

/// The bits of an f32, or `nan`.
fn real(number: f32) -> String {
    if number.is_nan() {
        "nan".to_owned()
    } else {
        format!("{:#010x}", number.to_bits())
    }
}

/// A delivered request: its kind and its fields.
pub fn write_request(trail: &mut impl Write, request: &EisRequest) -> io::Result<()> {
    match request {
        EisRequest::Disconnect => writeln!(trail, "Disconnect"),
        EisRequest::Bind(given) => {
            let capabilities = given.capabilities.bits();
            writeln!(trail, "Bind seat={:#018x} capabilities={capabilities}", given.seat.id())
        }
        EisRequest::RequestDevice(given) => {
            let capabilities = given.capabilities.bits();
            writeln!(
                trail,
                "RequestDevice seat={:#018x} capabilities={capabilities}",
                given.seat.id()
            )
        }
        EisRequest::DeviceClosed(given) => writeln!(trail, "DeviceClosed device={:#018x}", given.device.id()),
        EisRequest::Ready(given) => writeln!(trail, "Ready device={:#018x}", given.device.id()),
        EisRequest::Frame(given) => {
            let (device, last_serial, time) = (given.device.id(), given.last_serial, given.time);
            writeln!(
                trail,
                "Frame device={device:#018x} last_serial={last_serial} time={time}"
            )
        }
        EisRequest::DeviceStartEmulating(given) => {
            let (device, last_serial, sequence) = (given.device.id(), given.last_serial, given.sequence);
            write!(trail, "DeviceStartEmulating device={device:#018x} ")?;
            writeln!(trail, "last_serial={last_serial} sequence={sequence}")
        }
        EisRequest::DeviceStopEmulating(given) => {
            let (device, last_serial) = (given.device.id(), given.last_serial);
            writeln!(
                trail,
                "DeviceStopEmulating device={device:#018x} last_serial={last_serial}"
            )
        }
        EisRequest::PointerMotion(given) => {
            write_timed(trail, "PointerMotion", request)?;
            writeln!(trail, "dx={} dy={}", real(given.dx), real(given.dy))
        }
        EisRequest::PointerMotionAbsolute(given) => {
            write_timed(trail, "PointerMotionAbsolute", request)?;
            let (x, y) = (real(given.dx_absolute), real(given.dy_absolute));
            writeln!(trail, "dx_absolute={x} dy_absolute={y}")
        }
        EisRequest::Button(given) => {
            write_timed(trail, "Button", request)?;
            writeln!(trail, "button={} state={}", given.button, given.state.number())
        }
        EisRequest::ScrollDelta(given) => {
            write_timed(trail, "ScrollDelta", request)?;
            writeln!(trail, "dx={} dy={}", real(given.dx), real(given.dy))
        }
        EisRequest::ScrollStop(given) => {
            write_timed(trail, "ScrollStop", request)?;
            writeln!(trail, "x={} y={}", given.x, given.y)
        }
        EisRequest::ScrollCancel(given) => {
            write_timed(trail, "ScrollCancel", request)?;
            writeln!(trail, "x={} y={}", given.x, given.y)
        }
        EisRequest::ScrollDiscrete(given) => {
            write_timed(trail, "ScrollDiscrete", request)?;
            writeln!(
                trail,
                "discrete_dx={} discrete_dy={}",
                given.discrete_dx, given.discrete_dy
            )
        }
        EisRequest::KeyboardKey(given) => {
            write_timed(trail, "KeyboardKey", request)?;
            writeln!(trail, "key={} state={}", given.key, given.state.number())
        }
        EisRequest::TouchDown(given) => {
            write_timed(trail, "TouchDown", request)?;
            writeln!(
                trail,
                "touch_id={} x={} y={}",
                given.touch_id,
                real(given.x),
                real(given.y)
            )
        }
        EisRequest::TouchMotion(given) => {
            write_timed(trail, "TouchMotion", request)?;
            writeln!(
                trail,
                "touch_id={} x={} y={}",
                given.touch_id,
                real(given.x),
                real(given.y)
            )
        }
        EisRequest::TouchUp(given) => {
            write_timed(trail, "TouchUp", request)?;
            writeln!(trail, "touch_id={}", given.touch_id)
        }
        EisRequest::TouchCancel(given) => {
            write_timed(trail, "TouchCancel", request)?;
            writeln!(trail, "touch_id={}", given.touch_id)
        }
        EisRequest::TextKeysym(given) => {
            write_timed(trail, "TextKeysym", request)?;
            writeln!(trail, "keysym={} state={}", given.keysym, given.state.number())
        }
        EisRequest::TextUtf8(given) => {
            write_timed(trail, "TextUtf8", request)?;
            write!(trail, "text=t:")?;
            write_hexadecimal(trail, given.text)?;
            writeln!(trail)
        }
    }
}

/// What a timed request begins with: its kind, its device and its time.
fn write_timed(trail: &mut impl Write, kind: &str, request: &EisRequest) -> io::Result<()> {
    let device = request.device().map_or(0, Device::id);
    let time = request.time().unwrap_or(0);
    write!(trail, "{kind} device={device:#018x} time={time} ")
}
