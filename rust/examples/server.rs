//! A server on a Unix socket: the client's bytes in, the protocol's bytes out, one client after another.
//!
//!     cargo run --example server -- SOCKET [CLIENTS]
//!
//! SOCKET is where the socket is made; where a file stands already that is an error. Each client is offered a seat, and
//! with each Bind it is given a device with a keyboard and one for texts, as far as it asks for them. A line is written
//! for each request that is delivered; what belongs to a frame has its time. A client that breaks the protocol is told
//! why and disconnected, and the next one is served. With CLIENTS the server ends after so many.

use bozterrun::{
    DeviceCapability, DeviceType, DisconnectReason, EisHandshaker, EisRequest, EisRequestConverter, Events,
    MessageWriter, Refusal,
};
use std::io::{self, Read, Write};
use std::net::Shutdown;
use std::os::unix::net::{UnixListener, UnixStream};
use std::time::{Duration, Instant};
use std::{env, error::Error, fs, process::ExitCode};

/// How long a client may take to read what it is sent, and to hang up once it is disconnected.
const PATIENCE: Duration = Duration::from_secs(5);

/// A client: its socket, what has come in and is not yet taken, and how its events become messages.
struct Client {
    socket: UnixStream,
    received: Vec<u8>,
    writer: MessageWriter,
}

impl Client {
    /// Waits for bytes; whether there are any, or the client has hung up.
    fn receive(&mut self) -> io::Result<bool> {
        let mut bytes = [0; 4096];
        loop {
            match self.socket.read(&mut bytes) {
                Err(error) if error.kind() == io::ErrorKind::Interrupted => {}
                Err(error) => return Err(error),
                Ok(count) => {
                    self.received.extend_from_slice(&bytes[..count]);
                    return Ok(count > 0);
                }
            }
        }
    }

    /// Sends events, each as its message.
    fn send(&mut self, events: Events) -> Result<(), Box<dyn Error>> {
        let mut bytes = Vec::new();
        self.writer.write(events, &mut bytes)?;
        Ok(self.socket.write_all(&bytes)?)
    }

    /// Hangs up. What the client has still sent is read first: else it would find its connection reset.
    fn close(mut self) -> io::Result<()> {
        self.socket.shutdown(Shutdown::Write)?;
        self.socket.set_read_timeout(Some(PATIENCE))?;
        let called = Instant::now();
        while called.elapsed() < PATIENCE && self.receive()? {
            self.received.clear();
        }
        Ok(())
    }
}

/// Shakes hands; `None` where the client hangs up before that is done.
fn shake_hands(client: &mut Client) -> Result<Option<EisRequestConverter>, Box<dyn Error>> {
    let mut out = [0; bozterrun::OUT_LENGTH];
    let (mut handshaker, events) = EisHandshaker::new(1, &mut out)?;
    client.send(events)?;
    loop {
        match handshaker.pending_request(&client.received, &mut out) {
            Ok(Some(message)) => {
                client.received.drain(..message.taken);
                client.send(message.events)?;
                if let Some(response) = message.response {
                    return Ok(Some(EisRequestConverter::new(response)));
                }
            }
            Ok(None) if client.receive()? => {}
            Ok(None) => return Ok(None),
            Err(refusal) => {
                if let Refusal::MissingInterface { count } = refusal {
                    client.send(Events::new(&out[..count]))?;
                }
                return Err(refusal.into());
            }
        }
    }
}

/// Acts on all that is delivered; whether the client stays.
fn deliver(
    client: &mut Client,
    converter: &mut EisRequestConverter,
    mut lines: impl Write,
) -> Result<bool, Box<dyn Error>> {
    let mut out = [0; bozterrun::OUT_LENGTH];
    let mut text = [0; bozterrun::TEXT_LENGTH];
    while let Some(request) = converter.next_request(&mut text)? {
        let connection = converter.handle_mut();
        match request {
            EisRequest::KeyboardKey(key) => writeln!(lines, "key {} {:?} at {}", key.key, key.state, key.time)?,
            EisRequest::TextUtf8(text) => writeln!(lines, "text {:?} at {}", text.to_str()?, text.time)?,
            EisRequest::Frame(frame) => writeln!(lines, "frame at {}", frame.time)?,
            EisRequest::Bind(bind) => {
                writeln!(lines, "bind {}", bind.capabilities.bits())?;
                for capability in [DeviceCapability::Keyboard, DeviceCapability::Text] {
                    if bind.capabilities.contains(capability) {
                        let added =
                            connection.add_device(bind.seat, None, DeviceType::Virtual, capability, &mut out)?;
                        client.send(added.1)?;
                    }
                }
            }
            EisRequest::Ready(ready) => {
                writeln!(lines, "ready {:#x}", ready.device.id())?;
                client.send(connection.resumed(ready.device, &mut out)?)?;
            }
            EisRequest::DeviceClosed(closed) => {
                writeln!(lines, "closed {:#x}", closed.device.id())?;
                client.send(connection.remove_device(closed.device, &mut out)?)?;
            }
            EisRequest::Disconnect => {
                writeln!(lines, "disconnect")?;
                return Ok(false);
            }
            other => writeln!(lines, "{other:?}")?,
        }
    }
    Ok(true)
}

/// Offers a seat, and takes what the client sends until it leaves. The clock is in microseconds, from `began` on.
fn attend(
    client: &mut Client,
    converter: &mut EisRequestConverter,
    began: Instant,
    mut lines: impl Write,
) -> Result<(), Box<dyn Error>> {
    let mut out = [0; bozterrun::OUT_LENGTH];
    let both = DeviceCapability::Keyboard | DeviceCapability::Text;
    let (_seat, events) = converter.handle_mut().add_seat(Some(b"counter"), both, &mut out)?;
    client.send(events)?;
    loop {
        let now = began.elapsed().as_micros() as u64;
        match converter.pending_request(&client.received, now, &mut out)? {
            Some(message) => {
                client.received.drain(..message.taken);
                client.send(message.events)?;
                if !deliver(client, converter, &mut lines)? {
                    return Ok(());
                }
            }
            None if client.receive()? => {}
            None => return Ok(()),
        }
    }
}

/// Serves a client until it leaves, or is disconnected because of something that is refused.
fn serve(client: &mut Client, began: Instant, lines: impl Write) -> Result<(), Box<dyn Error>> {
    // Before its session a client has no connection to be told anything on: a refusal ends the handshake wordlessly.
    let Some(mut converter) = shake_hands(client)? else {
        return Ok(());
    };
    let ended = attend(client, &mut converter, began, lines);
    if let Some(refusal) = ended.as_ref().err().and_then(|error| error.downcast_ref::<Refusal>()) {
        let mut out = [0; bozterrun::OUT_LENGTH];
        let (reason, why) = (DisconnectReason::Protocol, refusal.to_string());
        let connection = converter.handle_mut();
        let events = connection.disconnected(reason, Some(why.as_bytes()), &mut out)?;
        // It may have hung up: that it was refused is what counts.
        let _ = client.send(events);
    }
    ended
}

/// Serves clients one after another, as many as are asked for. What becomes of one is no matter to the next.
pub fn run(listener: &UnixListener, clients: Option<usize>, mut lines: impl Write) -> io::Result<()> {
    let began = Instant::now();
    for (number, socket) in listener.incoming().enumerate().take(clients.unwrap_or(usize::MAX)) {
        let (socket, received, writer) = (socket?, Vec::new(), MessageWriter::new());
        socket.set_write_timeout(Some(PATIENCE))?;
        let mut client = Client {
            socket,
            received,
            writer,
        };
        writeln!(lines, "client {}", number + 1)?;
        match serve(&mut client, began, &mut lines) {
            Ok(()) => writeln!(lines, "gone")?,
            Err(error) => writeln!(lines, "gone: {error}")?,
        }
        let _ = client.close();
    }
    Ok(())
}

fn main() -> ExitCode {
    let mut words = env::args().skip(1);
    let (path, clients) = (words.next(), words.next().map(|word| word.parse()).transpose());
    let (Some(path), Ok(clients), None) = (path, clients, words.next()) else {
        eprintln!("usage: server SOCKET [CLIENTS]");
        return ExitCode::from(2);
    };
    let served = UnixListener::bind(&path).and_then(|listener| {
        let served = run(&listener, clients, io::stdout().lock());
        fs::remove_file(&path).and(served)
    });
    match served {
        Ok(()) => ExitCode::SUCCESS,
        Err(error) => {
            eprintln!("server: {path}: {error}");
            ExitCode::FAILURE
        }
    }
}
