//! A counter station's loop: a clerk's client keys a token of twenty digits and sends a text, and the station writes
//! what it is given, frame by frame.
//!
//! What the client sends stands here in its place, as requests; what it is sent are the protocol's bytes. The example
//! `server` has a socket, and bytes both ways.
//!
//!     cargo run --example station

use bozterrun::eis::{device, handshake, keyboard, seat, text, Object, Request};
use bozterrun::{
    DeviceCapability, DeviceType, EisHandshaker, EisRequest, EisRequestConverter, Events, Interface, KeyState,
    MessageWriter, Refusal,
};
use std::error::Error;
use std::io::{self, Write};

/// The token. Its digits are keyed, 1 to 9 on the keys 2 to 10 and 0 on the key 11.
const TOKEN: &str = "53190046728811530297";

/// A client that keeps the rules of the protocol, and its clock in microseconds.
struct Client {
    clock: u64,
    device: bozterrun::Device,
    keyboard: Object,
    text: Object,
}

impl Client {
    /// A key goes down and up, in a frame.
    fn key(&mut self, digit: u32) -> [Request<'static>; 3] {
        let key = if digit == 0 { 11 } else { digit + 1 };
        let sent = |state| Request::Keyboard(self.keyboard, keyboard::Request::Key { key, state });
        let (press, release) = (sent(KeyState::Press), sent(KeyState::Released));
        [press, release, self.frame()]
    }

    /// A text, in a frame.
    fn text<'a>(&mut self, text: &'a str) -> [Request<'a>; 2] {
        let text = text.as_bytes();
        [Request::Text(self.text, text::Request::Utf8 { text }), self.frame()]
    }

    fn frame(&mut self) -> Request<'static> {
        self.clock += 1000;
        let (last_serial, timestamp) = (8, self.clock);
        Request::Device(self.device, device::Request::Frame { last_serial, timestamp })
    }
}

/// The station: its session, what it sends, and what it writes.
struct Station<W> {
    converter: EisRequestConverter,
    out: [u8; bozterrun::OUT_LENGTH],
    sent: Sent,
    lines: W,
}

/// What went to the client: its bytes, and the writer that makes them.
#[derive(Default)]
struct Sent {
    bytes: Vec<u8>,
    writer: MessageWriter,
}

impl Sent {
    /// Sends events to the client, each as its message.
    fn send(&mut self, events: Events) -> Result<(), Refusal> {
        self.writer.write(events, &mut self.bytes)
    }
}

impl<W: Write> Station<W> {
    /// Takes a request of the client, and acts on all that is then delivered.
    fn receive(&mut self, request: Request, now: u64) -> Result<(), Box<dyn Error>> {
        self.sent
            .send(self.converter.handle_request(request, now, &mut self.out)?)?;
        let mut buffer = [0; bozterrun::TEXT_LENGTH];
        while let Some(request) = self.converter.next_request(&mut buffer)? {
            let connection = self.converter.handle_mut();
            match request {
                EisRequest::Bind(bind) => {
                    writeln!(self.lines, "bind {}", bind.capabilities.bits())?;
                    let kind = DeviceType::Virtual;
                    let added = connection.add_device(bind.seat, None, kind, bind.capabilities, &mut self.out)?;
                    self.sent.send(added.1)?;
                }
                EisRequest::Ready(ready) => {
                    writeln!(self.lines, "ready")?;
                    self.sent.send(connection.resumed(ready.device, &mut self.out)?)?;
                }
                EisRequest::KeyboardKey(key) => {
                    let state = if key.state == KeyState::Press { "down" } else { "up" };
                    writeln!(self.lines, "  key {} {state}", key.key)?;
                }
                EisRequest::TextUtf8(text) => writeln!(self.lines, "  text {:?}", text.to_str()?)?,
                EisRequest::Frame(frame) => writeln!(self.lines, "frame at {}", frame.time)?,
                EisRequest::DeviceClosed(closed) => {
                    writeln!(self.lines, "closed")?;
                    self.sent
                        .send(connection.remove_device(closed.device, &mut self.out)?)?;
                }
                other => writeln!(self.lines, "other: {other:?}")?,
            }
        }
        Ok(())
    }
}

/// A handshake of a client that knows every interface, and the session that begins.
fn shake_hands(sent: &mut Sent, out: &mut [u8]) -> Result<EisRequestConverter, Refusal> {
    let (mut handshaker, events) = EisHandshaker::new(7, out)?;
    sent.send(events)?;
    for interface in Interface::ALL {
        let (name, version) = (interface.name().as_bytes(), interface.version());
        let known = handshake::Request::InterfaceVersion { name, version };
        handshaker.handle_request(Request::Handshake(known), out)?;
    }
    let finish = Request::Handshake(handshake::Request::Finish);
    let (response, events) = handshaker.handle_request(finish, out)?;
    sent.send(events)?;
    // Only a Finish that is refused has no response.
    Ok(EisRequestConverter::new(
        response.ok_or(Refusal::MissingInterface { count: 0 })?,
    ))
}

/// The whole of it, written to `lines`.
pub fn run(lines: impl Write) -> Result<(), Box<dyn Error>> {
    let mut out = [0; bozterrun::OUT_LENGTH];
    let mut sent = Sent::default();
    let mut converter = shake_hands(&mut sent, &mut out)?;
    let both = DeviceCapability::Keyboard | DeviceCapability::Text;
    let (seat, events) = converter.handle_mut().add_seat(Some(b"counter 3"), both, &mut out)?;
    sent.send(events)?;
    let mut station = Station {
        converter,
        out,
        sent,
        lines,
    };

    // The client binds, and finds its device: its id follows the seat's, and its interfaces' follow it.
    let capabilities = both.bits();
    station.receive(Request::Seat(seat, seat::Request::Bind { capabilities }), 0)?;
    let device = bozterrun::Device(seat.id() + 1);
    let connection = station.converter.handle();
    let keyboard = connection.interface(device, DeviceCapability::Keyboard)?;
    let text = connection.interface(device, DeviceCapability::Text)?;
    let (Some(keyboard), Some(text)) = (keyboard, text) else {
        return Err("the device has no keyboard or no text interface".into());
    };
    let mut client = Client {
        clock: 0,
        device,
        keyboard,
        text,
    };
    station.receive(Request::Device(device, device::Request::Ready), 0)?;

    for digit in TOKEN.chars().filter_map(|digit| digit.to_digit(10)) {
        for request in client.key(digit) {
            station.receive(request, client.clock)?;
        }
    }
    for request in client.text("Zähler 17") {
        station.receive(request, client.clock)?;
    }
    station.receive(Request::Device(device, device::Request::Release), client.clock)?;
    writeln!(station.lines, "{} bytes sent", station.sent.bytes.len())?;
    Ok(())
}

fn main() -> Result<(), Box<dyn Error>> {
    run(io::stdout().lock())
}
