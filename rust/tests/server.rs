//! The example server, over a real socket: clients that keep the protocol, clients that break it, and clients that hang
//! up. Nothing waits for ever: sockets and lines have timeouts.
//!
//! The server runs twice: the built example, where cargo has built it beside this test (`cargo test` does), and its
//! code in a thread.

#[allow(dead_code)]
#[path = "../examples/server.rs"]
mod server;

mod encode;

use bozterrun::eis::Object;
use bozterrun::request::{DeviceStartEmulating, EisRequest};
use bozterrun::{
    Device, DeviceCapability, DeviceType, DisconnectReason, Event, EventKind, Interface, MessageReader, Seat,
};
use encode::{message, with_text};
use std::io::{self, BufRead, BufReader, Read, Write};
use std::os::unix::net::{UnixListener, UnixStream};
use std::path::{Path, PathBuf};
use std::process::{Child, Command, Stdio};
use std::sync::mpsc::{self, Receiver};
use std::time::{Duration, Instant};
use std::{env, fs, process, thread};

/// How long anything may take.
const LIMIT: Duration = Duration::from_secs(20);

/// Ids as the server gives them: the seat, and behind it each device with its interface.
const CONNECTION: u64 = 0xff00000000000000;
const SEAT: u64 = 0xff00000000000001;
const KEYS: u64 = 0xff00000000000002;
const KEYBOARD: u64 = 0xff00000000000003;
const TEXTS: u64 = 0xff00000000000004;
const TEXT: u64 = 0xff00000000000005;

/// What a client is told when it is connected and when it binds, in order.
const INTERFACES: [Interface; 7] = [
    Interface::Connection,
    Interface::Callback,
    Interface::Pingpong,
    Interface::Seat,
    Interface::Device,
    Interface::Keyboard,
    Interface::Text,
];

/// A client with a reader of its own. It sends in pieces of random sizes.
struct Client {
    socket: UnixStream,
    reader: MessageReader,
    random: u64,
}

impl Client {
    fn connect(path: &Path, seed: u64) -> Self {
        let began = Instant::now();
        let socket = loop {
            match UnixStream::connect(path) {
                Ok(socket) => break socket,
                // The server may not have made its socket yet.
                Err(error) => assert!(began.elapsed() < LIMIT, "{}: {error}", path.display()),
            }
            thread::sleep(Duration::from_millis(10));
        };
        socket.set_read_timeout(Some(LIMIT)).expect("a timeout can be set");
        socket.set_write_timeout(Some(LIMIT)).expect("a timeout can be set");
        let (reader, random) = (MessageReader::new(), seed);
        Self { socket, reader, random }
    }

    fn below(&mut self, limit: usize) -> usize {
        self.random = self
            .random
            .wrapping_mul(6364136223846793005)
            .wrapping_add(1442695040888963407);
        (self.random >> 33) as usize % limit
    }

    /// Sends the bytes in pieces of one byte and more. Between some of them the server has time to read.
    fn send(&mut self, mut bytes: &[u8]) {
        while !bytes.is_empty() {
            let most = [1, 3, 20, 200][self.below(4)];
            let (piece, rest) = bytes.split_at((1 + self.below(most)).min(bytes.len()));
            self.socket.write_all(piece).expect("the server reads");
            bytes = rest;
            if self.below(8) == 0 {
                thread::sleep(Duration::from_micros(300));
            }
        }
    }

    /// Reads some bytes; whether there were any, or the end.
    fn receive(&mut self) -> bool {
        let mut bytes = [0; 64];
        let most = 1 + self.below(bytes.len());
        let count = self.socket.read(&mut bytes[..most]).expect("the server sends or ends");
        self.reader.push(&bytes[..count]);
        count > 0
    }

    /// The next event is this one.
    fn expect(&mut self, object: u64, kind: EventKind) {
        let wanted = Event { object, kind };
        loop {
            if let Some(event) = self.reader.next_event().expect("a proper message") {
                assert_eq!(event, wanted);
                return;
            }
            assert!(self.receive(), "the end, before {wanted:?}");
        }
    }

    /// The server has sent all that it had to, and has hung up.
    fn expect_end(&mut self) {
        while self.receive() {}
        assert_eq!(self.reader.next_event(), Ok(None));
        assert!(self.reader.waiting().is_empty());
    }

    /// A handshake, and with its last bytes already `then`. The server then tells of its seat.
    fn shake_hands(&mut self, then: &[u8]) {
        self.expect(0, EventKind::HandshakeVersion { version: 1 });
        let mut bytes = [message(0, 0, &[1]), with_text(0, 3, b"clerk", &[]), message(0, 2, &[2])].concat();
        for interface in INTERFACES {
            bytes.extend(with_text(0, 4, interface.name().as_bytes(), &[interface.version()]));
        }
        bytes.extend(message(0, 1, &[]));
        bytes.extend(then);
        self.send(&bytes);
        for interface in INTERFACES {
            let version = interface.version();
            self.expect(0, EventKind::InterfaceVersion { interface, version });
        }
        let connection = Object::new(CONNECTION, 1);
        self.expect(0, EventKind::Connection { connection, serial: 1 });
        let (seat, version) = (Seat(SEAT), 2);
        self.expect(CONNECTION, EventKind::Seat { seat, version });
        self.expect(SEAT, EventKind::Name { name: b"counter" });
        for mask in [DeviceCapability::Keyboard, DeviceCapability::Text] {
            let interface = mask.interface();
            self.expect(SEAT, EventKind::Capability { mask, interface });
        }
        self.expect(SEAT, EventKind::Done);
    }

    /// A device with one interface is told of, whose id is the next.
    fn expect_device(&mut self, id: u64, interface: Interface) {
        let (device, version, device_type) = (Device(id), 3, DeviceType::Virtual);
        self.expect(SEAT, EventKind::Device { device, version });
        self.expect(id, EventKind::DeviceType { device_type });
        let object = Object::new(id + 1, 1);
        self.expect(id, EventKind::Interface { object, interface });
        self.expect(id, EventKind::Done);
    }

    /// The server takes its objects back, the last serial being this one, and says why.
    fn expect_disconnected(&mut self, last_serial: u32, why: &str) {
        let (reason, explanation) = (DisconnectReason::Protocol, Some(why.as_bytes()));
        let kind = EventKind::Disconnected {
            last_serial,
            reason,
            explanation,
        };
        self.expect(CONNECTION, kind);
        self.expect_end();
    }
}

/// The lines of the server, as they come.
struct Lines(Receiver<String>);

impl Lines {
    fn of(output: impl Read + Send + 'static) -> Self {
        let (sender, receiver) = mpsc::channel();
        thread::spawn(move || {
            for line in BufReader::new(output).lines().map_while(Result::ok) {
                if sender.send(line).is_err() {
                    return;
                }
            }
        });
        Self(receiver)
    }

    fn next(&self) -> String {
        self.0.recv_timeout(LIMIT).expect("a line comes")
    }

    fn expect(&self, wanted: &[&str]) {
        for line in wanted {
            assert_eq!(self.next(), *line);
        }
    }
}

/// A client that keeps the protocol: it keys, sends a text, gives its keyboard back and leaves.
fn work(path: &Path, lines: &Lines, number: u64) {
    let mut client = Client::connect(path, number);
    client.shake_hands(&message(CONNECTION, 0, &[5, 0, 1]));
    client.expect(5, EventKind::CallbackDone { callback_data: 0 });
    lines.expect(&[&format!("client {number}")]);

    client.send(&message(SEAT, 1, &[4 | 64, 0]));
    client.expect_device(KEYS, Interface::Keyboard);
    client.expect_device(TEXTS, Interface::Text);
    lines.expect(&["bind 68"]);

    client.send(&[message(KEYS, 4, &[]), message(TEXTS, 4, &[])].concat());
    client.expect(KEYS, EventKind::Resumed { serial: 2 });
    client.expect(TEXTS, EventKind::Resumed { serial: 3 });
    lines.expect(&["ready 0xff00000000000002", "ready 0xff00000000000004"]);

    // Twenty keys, each down and up in a frame of its own, and a text.
    let mut bytes = message(KEYS, 1, &[3, 9]);
    let mut wanted = vec![format!(
        "{:?}",
        EisRequest::DeviceStartEmulating(DeviceStartEmulating {
            device: Device(KEYS),
            last_serial: 3,
            sequence: 9,
        })
    )];
    for turn in 0..20 {
        let (key, time) = (2 + turn % 10, 1000 + 10 * turn);
        bytes.extend(message(KEYBOARD, 1, &[key, 1]));
        bytes.extend(message(KEYBOARD, 1, &[key, 0]));
        bytes.extend(message(KEYS, 3, &[3, time, 0]));
        wanted.push(format!("key {key} Press at {time}"));
        wanted.push(format!("key {key} Released at {time}"));
        wanted.push(format!("frame at {time}"));
    }
    bytes.extend(with_text(TEXT, 2, "Zähler 17".as_bytes(), &[]));
    bytes.extend(message(TEXTS, 3, &[3, 7, 1]));
    wanted.push("text \"Zähler 17\" at 4294967303".to_owned());
    wanted.push("frame at 4294967303".to_owned());
    client.send(&bytes);
    for line in &wanted {
        lines.expect(&[line]);
    }

    client.send(&message(KEYS, 0, &[]));
    client.expect(KEYBOARD, EventKind::Destroyed { serial: 4 });
    client.expect(KEYS, EventKind::Destroyed { serial: 5 });
    lines.expect(&["closed 0xff00000000000002"]);
    client.send(&message(CONNECTION, 1, &[]));
    client.expect_end();
    lines.expect(&["disconnect", "gone"]);
}

/// A client that sends this behind its handshake, and is told why it is disconnected.
fn break_off(path: &Path, lines: &Lines, number: u64, bytes: &[u8], why: &str) {
    let mut client = Client::connect(path, number);
    client.shake_hands(bytes);
    client.expect(SEAT, EventKind::Destroyed { serial: 2 });
    client.expect_disconnected(2, why);
    lines.expect(&[&format!("client {number}"), &format!("gone: {why}")]);
}

/// How many clients `drive` has.
const CLIENTS: u64 = 13;

fn drive(path: &Path, lines: &Lines) {
    work(path, lines, 1);

    // Garbage: random bytes, an object that is not alive, messages that are malformed.
    let mut noise = [0; 300];
    let mut random = Client::connect(path, 2);
    noise.fill_with(|| random.below(256) as u8);
    noise[..8].fill(0x5a);
    random.shake_hands(&noise);
    random.expect(SEAT, EventKind::Destroyed { serial: 2 });
    random.expect_disconnected(2, "the message is to an object that is not alive");
    drop(random);
    lines.expect(&["client 2", "gone: the message is to an object that is not alive"]);
    let why = "the message is to an object that is not alive";
    break_off(path, lines, 3, &message(KEYBOARD, 1, &[30, 1]), why);
    let why = "the client's message is malformed: opcode '9' invalid for interface 'ei_connection'";
    break_off(path, lines, 4, &message(CONNECTION, 9, &[]), why);
    let mut long = message(SEAT, 1, &[]);
    long[8..12].copy_from_slice(&u32::MAX.to_le_bytes());
    let why = "the client's message is malformed: header length 4294967295 is not 16 to 1024";
    break_off(path, lines, 5, &long, why);
    let why = "the client asked for a capability that the seat does not have";
    break_off(path, lines, 6, &message(SEAT, 1, &[1, 0]), why);

    // In its devices as well: a key's state that there is not.
    let mut client = Client::connect(path, 7);
    client.shake_hands(&message(SEAT, 1, &[4, 0]));
    client.expect_device(KEYS, Interface::Keyboard);
    client.send(&[message(KEYBOARD, 1, &[30, 1]), message(KEYBOARD, 1, &[30, 2])].concat());
    for (serial, gone) in (2..).zip([KEYBOARD, KEYS, SEAT]) {
        client.expect(gone, EventKind::Destroyed { serial });
    }
    let why = "the client's message is malformed: variant '2' invalid for its enum";
    client.expect_disconnected(4, why);
    drop(client);
    lines.expect(&["client 7", "bind 4", &format!("gone: {why}")]);

    // Before the handshake is done there is nothing to be told on.
    let mut client = Client::connect(path, 8);
    client.expect(0, EventKind::HandshakeVersion { version: 1 });
    client.send(&[0xff; 40]);
    client.expect_end();
    drop(client);
    lines.expect(&["client 8", "gone: the message is to an object that is not alive"]);
    // A Finish too soon: what was negotiated is told all the same.
    let mut client = Client::connect(path, 9);
    client.expect(0, EventKind::HandshakeVersion { version: 1 });
    client.send(&[with_text(0, 4, b"ei_seat", &[1]), message(0, 1, &[])].concat());
    let (interface, version) = (Interface::Seat, 1);
    client.expect(0, EventKind::InterfaceVersion { interface, version });
    client.expect_end();
    drop(client);
    assert_eq!(lines.next(), "client 9");
    assert!(lines.next().starts_with("gone: the client knows no ei_connection"));

    // Clients that hang up: at once, and within a message.
    drop(Client::connect(path, 10));
    assert_eq!(lines.next(), "client 10");
    assert!(lines.next().starts_with("gone"));
    let mut client = Client::connect(path, 11);
    client.shake_hands(&message(SEAT, 1, &[4, 0])[..21]);
    drop(client);
    lines.expect(&["client 11", "gone"]);
    // One that does not wait to be told why.
    let mut client = Client::connect(path, 12);
    client.shake_hands(&message(CONNECTION, 9, &[]));
    drop(client);
    let why = "the client's message is malformed: opcode '9' invalid for interface 'ei_connection'";
    lines.expect(&["client 12", &format!("gone: {why}")]);

    work(path, lines, CLIENTS);
}

/// A place for a socket, which is empty.
fn place(name: &str) -> PathBuf {
    let path = env::temp_dir().join(format!("bozterrun-{name}-{}", process::id()));
    let _ = fs::remove_file(&path);
    path
}

/// A process that does not outlive its test.
struct Running(Child);

impl Drop for Running {
    fn drop(&mut self) {
        let _ = self.0.kill();
        let _ = self.0.wait();
    }
}

/// The example beside this test's own program, where it is built; else says what is left out.
fn example(what: &str) -> Option<PathBuf> {
    let own = env::current_exe().expect("a program knows where it is");
    let folder = own.parent().and_then(Path::parent)?;
    let built = Some(folder.join("examples/server")).filter(|path| path.exists());
    if built.is_none() {
        // Written past the harness, which shows nothing of a test that passes.
        let line = format!("\nleft out, the example server not being built: {what}\n");
        let _ = io::stderr().write_all(line.as_bytes());
    }
    built
}

#[test]
fn the_example_serves_one_client_after_another() {
    let Some(example) = example("the server as a program") else {
        return;
    };
    let path = place("server");
    let started = Command::new(example)
        .args([path.as_os_str(), CLIENTS.to_string().as_ref()])
        .stdout(Stdio::piped())
        .spawn();
    let mut running = Running(started.expect("the example can be run"));
    let lines = Lines::of(running.0.stdout.take().expect("its output is piped"));
    drive(&path, &lines);
    let ended = Instant::now();
    let status = loop {
        if let Some(status) = running.0.try_wait().expect("it can be waited for") {
            break status;
        }
        assert!(
            ended.elapsed() < LIMIT,
            "the server has served its clients and does not end"
        );
        thread::sleep(Duration::from_millis(10));
    };
    assert!(status.success());
    assert!(!path.exists(), "its socket is still there");
}

#[test]
fn the_same_in_a_thread() {
    let path = place("thread");
    let listener = UnixListener::bind(&path).expect("the place is empty");
    let (written, read) = UnixStream::pair().expect("two sockets can be had");
    let lines = Lines::of(read);
    let (ended, end) = mpsc::channel();
    thread::spawn(move || ended.send(server::run(&listener, Some(CLIENTS as usize), written)));
    drive(&path, &lines);
    let served = end.recv_timeout(LIMIT).expect("the server ends with its clients");
    assert!(served.is_ok(), "{served:?}");
    fs::remove_file(&path).expect("the socket is still there");
}

/// A file that stands where the socket is to be made is left alone.
#[test]
fn a_place_that_is_taken_is_an_error() {
    let Some(example) = example("a socket's place that is taken") else {
        return;
    };
    let path = place("taken");
    fs::write(&path, "not a socket").expect("the place is empty");
    for (words, status) in [
        (vec![path.as_os_str()], 1),
        (vec![], 2),
        (vec![path.as_os_str(), "x".as_ref()], 2),
    ] {
        let ended = Command::new(&example)
            .args(words)
            .output()
            .expect("the example can be run");
        assert_eq!(ended.status.code(), Some(status));
        assert!(ended.stdout.is_empty() && !ended.stderr.is_empty());
    }
    assert_eq!(fs::read(&path).expect("the file is still there"), b"not a socket");
    fs::remove_file(&path).expect("the file is still there");
}
