//! Event records as messages and back. The bytes were written by hand from the scope; with the oracle's folder in
//! BOZTERRUN_ORACLE what the original sends is compared too.

mod begin;
mod releases;

use bozterrun::eis::{connection, handshake, keyboard, Object, Request};
use bozterrun::{
    read_message, write_message, Device, DeviceCapabilities, DeviceCapability, DeviceType, DisconnectReason,
    EisHandshaker, EisRequestConverter, Event, EventKind, Events, Interface, MessageReader, MessageWriter, Refusal,
    Seat, EVENT_MESSAGE_LENGTH, EVENT_RECORD_LENGTH, OUT_LENGTH,
};
use std::io::{self, Write};
use std::path::PathBuf;
use std::{env, fs, process, process::Command};

/// Bytes from hexadecimal digits, two for each; spaces are left out.
fn bytes(digits: &str) -> Vec<u8> {
    let digits: Vec<u32> = digits.chars().filter_map(|digit| digit.to_digit(16)).collect();
    digits.chunks(2).map(|pair| (16 * pair[0] + pair[1]) as u8).collect()
}

fn interface(number: u32) -> Option<Interface> {
    Interface::from_number(number)
}

/// Each kind, on the interface that it is sent on.
const WORKED: [(u32, &str, &str); 21] = [
    (
        0,
        "901a 0000000000000000 ff00000000000000 00000007 00000001",
        "0000000000000000 20000000 02000000 07000000 00000000000000ff 01000000",
    ),
    (
        0,
        "800e 0000000000000000 00000001",
        "0000000000000000 14000000 00000000 01000000",
    ),
    (
        0,
        "880f 0000000000000000 03 00000001",
        "0000000000000000 24000000 01000000 0c000000 65695f70696e67706f6e6700 01000000",
    ),
    (
        1,
        "0816 ff00000000000000 ff00000000000001 00000002",
        "00000000000000ff 1c000000 01000000 01000000000000ff 02000000",
    ),
    (
        1,
        "7013 ff00000000000000 00000007 00000000 00",
        "00000000000000ff 1c000000 00000000 07000000 00000000 00000000",
    ),
    (
        1,
        "7013 ff00000000000000 00000007 00000000 80",
        "00000000000000ff 20000000 00000000 07000000 00000000 01000000 00000000",
    ),
    (
        1,
        "7015 ff00000000000000 00000007 00000005 80 6162",
        "00000000000000ff 20000000 00000000 07000000 05000000 03000000 61620000",
    ),
    (
        2,
        "7812 0000000000000005 0102030405060708",
        "0500000000000000 18000000 00000000 0807060504030201",
    ),
    (
        4,
        "100d ff00000000000001 616263",
        "01000000000000ff 18000000 01000000 04000000 61626300",
    ),
    (
        4,
        "1813 ff00000000000001 0000000000000004 0a",
        "01000000000000ff 28000000 02000000 0400000000000000 0c000000 65695f6b6579626f61726400",
    ),
    (4, "200a ff00000000000001", "01000000000000ff 10000000 03000000"),
    (
        4,
        "3016 ff00000000000001 ff00000000000002 00000003",
        "01000000000000ff 1c000000 04000000 02000000000000ff 03000000",
    ),
    (5, "200a ff00000000000002", "02000000000000ff 10000000 06000000"),
    (
        5,
        "380e ff00000000000002 00000002",
        "02000000000000ff 14000000 02000000 02000000",
    ),
    (
        5,
        "4017 ff00000000000002 ff00000000000003 06 00000001",
        "02000000000000ff 2c000000 05000000 03000000000000ff 0b000000 65695f706f696e7465720000 01000000",
    ),
    (
        5,
        "480e ff00000000000002 00000009",
        "02000000000000ff 14000000 07000000 09000000",
    ),
    (
        5,
        "500e ff00000000000002 0000000a",
        "02000000000000ff 14000000 08000000 0a000000",
    ),
    (
        5,
        "5812 ff00000000000002 0000000b 01020304",
        "02000000000000ff 18000000 09000000 0b000000 04030201",
    ),
    (
        5,
        "600e ff00000000000002 0000000c",
        "02000000000000ff 14000000 0a000000 0c000000",
    ),
    (
        5,
        "6816 ff00000000000002 0000000d 00000000000001f4",
        "02000000000000ff 1c000000 0b000000 0d000000 f401000000000000",
    ),
    (
        11,
        "280e ff00000000000001 00000008",
        "01000000000000ff 14000000 00000000 08000000",
    ),
];

#[test]
fn a_record_of_each_kind_is_its_message() {
    let kind = |record: &[u8]| record[0] >> 3;
    let mut kinds: Vec<u8> = WORKED.iter().map(|row| kind(&bytes(row.1))).collect();
    kinds.sort_unstable();
    kinds.dedup();
    assert_eq!(kinds, (1..=18).collect::<Vec<u8>>());
    for (number, record, message) in WORKED {
        let (record, message) = (bytes(record), bytes(message));
        let mut out = [0xee; 400];
        assert_eq!(write_message(interface(number), &record, &mut out), Ok(&message[..]));
        assert!(out[message.len()..].iter().all(|byte| *byte == 0xee));
        assert_eq!(read_message(interface(number), &message, &mut out), Ok(&record[..]));
        // Exactly as much room as it takes, and a byte less.
        let mut out = vec![0xee; message.len()];
        assert_eq!(write_message(interface(number), &record, &mut out), Ok(&message[..]));
        let mut short = vec![0xee; message.len() - 1];
        assert_eq!(
            write_message(interface(number), &record, &mut short),
            Err(Refusal::ShortOut)
        );
        assert!(short.iter().all(|byte| *byte == 0xee));
        let mut short = vec![0xee; record.len() - 1];
        assert_eq!(
            read_message(interface(number), &message, &mut short),
            Err(Refusal::ShortOut)
        );
        assert!(short.iter().all(|byte| *byte == 0xee));
    }
}

#[test]
fn what_cannot_be_sent_is_unsendable() {
    let refused = [
        (0, "280e ff00000000000001 00000008"), // a kind that the interface lacks
        (1, "280e ff00000000000001 00000008"),
        (3, "280e ff00000000000001 00000008"),
        (4, ""), // lengths
        (4, "280e ff00000000000001 000000"),
        (4, "280f ff00000000000001 0000000800"),
        (4, "000a ff00000000000001"), // no kind
        (5, "981e ff00000000000002 00000780 00000000 00000500 00000400 3fc00000"),
        (4, "1813 ff00000000000001 0000000000000004 00"), // no interface, no type, no reason
        (4, "1813 ff00000000000001 0000000000000004 0d"),
        (5, "380e ff00000000000002 00000003"),
        (1, "7013 ff00000000000000 00000007 00000006 00"),
        (1, "7013 ff00000000000000 00000007 00000000 01"), // a zero bit, a text that is not given
        (1, "7014 ff00000000000000 00000007 00000000 00 61"),
        (4, "100b ff00000000000001 80"), // no UTF-8, a zero byte
        (4, "100d ff00000000000001 610062"),
    ];
    for (number, record) in refused {
        // Before the room is looked at.
        for room in [0, EVENT_MESSAGE_LENGTH] {
            let mut out = vec![0xee; room];
            let answer = write_message(interface(number), &bytes(record), &mut out);
            assert_eq!(answer, Err(Refusal::Unsendable), "{record}");
            assert!(out.iter().all(|byte| *byte == 0xee));
        }
    }
}

#[test]
fn what_no_writer_writes_is_malformed() {
    let refused = [
        (4, ""),
        (4, "01000000000000ff 10000000 000000"),
        (4, "01000000000000ff 14000000 00000000 080000"), // lengths
        (4, "01000000000000ff 14000000 00000000 08000000 00"),
        (4, "01000000000000ff 18000000 00000000 08000000"),
        (4, "01000000000000ff 14000000 05000000 08000000"), // no such event
        (1, "01000000000000ff 14000000 00000000 08000000"),
        (5, "02000000000000ff 18000000 03000000 01000000 01000000"),
        (4, "01000000000000ff 18000000 01000000 03000000 61620001"), // what closes a text and fills it up
        (4, "01000000000000ff 18000000 01000000 03000000 61620100"),
        (4, "01000000000000ff 14000000 01000000 00000000"), // null
        (4, "01000000000000ff 18000000 01000000 03000000 80620000"), // no UTF-8, a zero byte
        (4, "01000000000000ff 18000000 01000000 03000000 61000000"),
        (
            0,
            "0000000000000000 24000000 01000000 0c000000 65695f70696e67706f6e4700 01000000",
        ),
        (1, "00000000000000ff 1c000000 00000000 07000000 06000000 00000000"),
    ];
    for (number, message) in refused {
        for room in [0, EVENT_RECORD_LENGTH] {
            let mut out = vec![0xee; room];
            let answer = read_message(interface(number), &bytes(message), &mut out);
            assert_eq!(answer, Err(Refusal::MalformedEvent), "{message}");
            assert!(out.iter().all(|byte| *byte == 0xee));
        }
    }
}

#[test]
fn the_longest_of_each() {
    let mut record = bytes("7111 ff00000000000000 00000007 00000003 80");
    record.resize(EVENT_RECORD_LENGTH, b'x');
    let (mut out, mut back) = ([0; EVENT_MESSAGE_LENGTH], [0; EVENT_RECORD_LENGTH]);
    let message = write_message(interface(1), &record, &mut out).expect("254 bytes are allowed");
    assert_eq!(message.len(), EVENT_MESSAGE_LENGTH);
    assert_eq!(read_message(interface(1), message, &mut back), Ok(&record[..]));
    record[1] += 1;
    record.push(b'x');
    assert_eq!(write_message(interface(1), &record, &mut out), Err(Refusal::Unsendable));
}

/// Both ends of a connection. What is written is pushed in pieces of so many bytes, and each event has to come out as
/// it went in.
struct Ends {
    writer: MessageWriter,
    reader: MessageReader,
    piece: usize,
    events: usize,
}

impl Ends {
    fn new(piece: usize) -> Self {
        let (writer, reader) = (MessageWriter::new(), MessageReader::new());
        Self {
            writer,
            reader,
            piece,
            events: 0,
        }
    }

    fn pass(&mut self, events: Events) {
        let mut bytes = Vec::new();
        self.writer
            .write(events.clone(), &mut bytes)
            .expect("a session's events are sendable");
        let mut events = events.peekable();
        for piece in bytes.chunks(self.piece) {
            self.reader.push(piece);
            while let Some(event) = self.reader.next_event().expect("what was written is read") {
                assert_eq!(events.next(), Some(event));
                self.events += 1;
            }
        }
        assert_eq!(events.peek(), None);
        assert!(self.reader.waiting().is_empty());
    }

    /// A handshake that knows every interface.
    fn shake_hands(&mut self) -> EisRequestConverter {
        let mut out = [0; OUT_LENGTH];
        let (mut handshaker, events) = EisHandshaker::new(7, &mut out).expect("it is long enough");
        self.pass(events);
        for interface in Interface::ALL {
            let (name, version) = (interface.name().as_bytes(), interface.version());
            let known = Request::Handshake(handshake::Request::InterfaceVersion { name, version });
            let (_, events) = handshaker.handle_request(known, &mut out).expect("it is accepted");
            self.pass(events);
        }
        let finish = Request::Handshake(handshake::Request::Finish);
        let (response, events) = handshaker.handle_request(finish, &mut out).expect("it is accepted");
        self.pass(events);
        EisRequestConverter::new(response.expect("a Finish ends the handshake"))
    }
}

/// Every call that writes events, over the wire in pieces of each size.
#[test]
fn a_whole_session_comes_out_as_it_went_in() {
    for piece in [1, 2, 3, 7, 16, 64, 2000] {
        let mut ends = Ends::new(piece);
        let mut converter = ends.shake_hands();
        assert_eq!(ends.events, 1 + 12 + 1);
        let mut out = [0; OUT_LENGTH];
        let all = DeviceCapabilities::ALL;
        let session = converter.handle_mut();
        let (seat, events) = session
            .add_seat(Some("Schalter 3 €".as_bytes()), all, &mut out)
            .expect("a seat fits");
        ends.pass(events);
        let added = session.add_device(seat, Some(b""), DeviceType::Physical, all, &mut out);
        let (device, events) = added.expect("a device fits");
        ends.pass(events);
        assert_eq!(ends.events, 14 + 10 + 11);
        ends.pass(session.resumed(device, &mut out).expect("it stands"));
        ends.pass(session.start_emulating(device, 3, &mut out).expect("it stands"));
        ends.pass(session.frame(device, u64::MAX, &mut out).expect("it stands"));
        ends.pass(session.stop_emulating(device, &mut out).expect("it stands"));
        ends.pass(session.paused(device, &mut out).expect("it stands"));
        let sync = Request::Connection(connection::Request::Sync {
            callback: Object::new(5, 1),
        });
        ends.pass(converter.handle_request(sync, 0, &mut out).expect("it is accepted"));
        let keyboard = converter.handle().interface(device, DeviceCapability::Keyboard);
        let keyboard = keyboard.expect("it stands").expect("it has one");
        let release = Request::Keyboard(keyboard, keyboard::Request::Release);
        ends.pass(converter.handle_request(release, 0, &mut out).expect("it is accepted"));
        let session = converter.handle_mut();
        ends.pass(session.remove_device(device, &mut out).expect("it stands"));
        ends.pass(session.remove_seat(seat, &mut out).expect("it stands"));
        assert_eq!(ends.events, 35 + 5 + 1 + 1 + 7 + 1);
        let (_, events) = session.add_seat(None, all, &mut out).expect("a seat fits");
        ends.pass(events);
        let events = session.disconnected(DisconnectReason::Mode, Some(b"closing time"), &mut out);
        ends.pass(events.expect("it is accepted"));
        assert_eq!(ends.events, 50 + 9 + 2);
    }
}

#[test]
fn what_a_station_sends_byte_for_byte() {
    let mut converter = begin::begin(7);
    let mut writer = MessageWriter::new();
    let (mut out, mut sent) = ([0; OUT_LENGTH], Vec::new());
    let keys = DeviceCapability::Keyboard;
    let (seat, events) = converter
        .handle_mut()
        .add_seat(Some(b"c3"), keys, &mut out)
        .expect("a seat fits");
    writer.write(events, &mut sent).expect("it is sendable");
    let seated = "00000000000000ff 1c000000 01000000 01000000000000ff 02000000 \
                  01000000000000ff 18000000 01000000 03000000 63330000 \
                  01000000000000ff 28000000 02000000 0400000000000000 0c000000 65695f6b6579626f61726400 \
                  01000000000000ff 10000000 03000000";
    assert_eq!(sent, bytes(seated));
    sent.clear();
    let added = converter
        .handle_mut()
        .add_device(seat, None, DeviceType::Virtual, keys, &mut out);
    writer
        .write(added.expect("a device fits").1, &mut sent)
        .expect("it is sendable");
    let given = "01000000000000ff 1c000000 04000000 02000000000000ff 03000000 \
                 02000000000000ff 14000000 02000000 01000000 \
                 02000000000000ff 2c000000 05000000 03000000000000ff 0c000000 65695f6b6579626f61726400 01000000 \
                 02000000000000ff 10000000 06000000";
    assert_eq!(sent, bytes(given));
    sent.clear();
    let removed = converter.handle_mut().remove_seat(seat, &mut out).expect("it stands");
    writer.write(removed, &mut sent).expect("it is sendable");
    let gone = "03000000000000ff 14000000 00000000 08000000 02000000000000ff 14000000 00000000 09000000 \
                01000000000000ff 14000000 00000000 0a000000";
    assert_eq!(sent, bytes(gone));
}

#[test]
fn a_writer_refuses_what_it_cannot_send() {
    let (mut writer, mut sent) = (MessageWriter::new(), vec![1, 2]);
    for unknown in [
        "100b ff00000000000001 61",
        "200a ff00000000000001",
        "280e ff00000000000001 00000008",
    ] {
        let refused = writer.write(Events::new(&bytes(unknown)), &mut sent);
        assert_eq!(refused, Err(Refusal::Unsendable), "{unknown}");
    }
    for none in ["00", "200a ff000000000000", "000a ff00000000000001"] {
        assert_eq!(
            writer.write(Events::new(&bytes(none)), &mut sent),
            Err(Refusal::Unsendable)
        );
    }
    assert_eq!(sent, [1, 2]);
    assert_eq!(writer.write(Events::default(), &mut sent), Ok(()));
    // A name with a zero byte: what stands before it is sent.
    let mut converter = begin::begin(7);
    let mut out = [0; OUT_LENGTH];
    let all = DeviceCapabilities::ALL;
    let (_, events) = converter
        .handle_mut()
        .add_seat(Some(b"c\0"), all, &mut out)
        .expect("a seat fits");
    assert_eq!(writer.write(events, &mut sent), Err(Refusal::Unsendable));
    assert_eq!(
        sent[2..],
        bytes("00000000000000ff 1c000000 01000000 01000000000000ff 02000000")
    );
    // The seat is known, so that it can go.
    let mut sent = Vec::new();
    let removed = converter
        .handle_mut()
        .remove_seat(Seat(0xff00000000000001), &mut out)
        .expect("it stands");
    assert_eq!(writer.write(removed, &mut sent), Ok(()));
    assert_eq!(sent, bytes("01000000000000ff 14000000 00000000 08000000"));
}

/// A reader that knows the connection, a seat and a device.
fn reader() -> MessageReader {
    let mut reader = MessageReader::new();
    reader.push(&bytes(
        "0000000000000000 20000000 02000000 07000000 00000000000000ff 01000000 \
         00000000000000ff 1c000000 01000000 01000000000000ff 02000000 \
         01000000000000ff 1c000000 04000000 02000000000000ff 03000000",
    ));
    let (connection, device) = (Object::new(0xff00000000000000, 1), Device(0xff00000000000002));
    let wanted = [
        (0, EventKind::Connection { connection, serial: 7 }),
        (
            connection.id,
            EventKind::Seat {
                seat: Seat(0xff00000000000001),
                version: 2,
            },
        ),
        (0xff00000000000001, EventKind::Device { device, version: 3 }),
    ];
    for (object, kind) in wanted {
        assert_eq!(reader.next_event(), Ok(Some(Event { object, kind })));
    }
    assert_eq!(reader.next_event(), Ok(None));
    reader
}

#[test]
fn a_message_that_is_cut_waits() {
    let whole = bytes("01000000000000ff 18000000 01000000 03000000 63330000");
    for cut in 0..whole.len() {
        let mut reader = reader();
        reader.push(&whole[..cut]);
        assert_eq!(reader.next_event(), Ok(None));
        assert_eq!(reader.waiting(), &whole[..cut]);
        reader.push(&whole[cut..]);
        let (object, kind) = (0xff00000000000001, EventKind::Name { name: b"c3" });
        assert_eq!(reader.next_event(), Ok(Some(Event { object, kind })));
        assert!(reader.waiting().is_empty());
    }
}

#[test]
fn a_reader_refuses_what_no_writer_sends() {
    let refused = [
        // No object: one that was never told of, the handshake's when it is over.
        ("03000000000000ff 14000000 07000000 09000000", Refusal::NoObject),
        ("ffffffffffffffff 14000000 07000000 09000000", Refusal::NoObject),
        ("0000000000000000 14000000 00000000 01000000", Refusal::NoObject),
        // Lengths, before the message is whole.
        ("01000000000000ff 0f000000", Refusal::MalformedEvent),
        ("01000000000000ff 1d010000", Refusal::MalformedEvent),
        ("01000000000000ff ffffffff", Refusal::MalformedEvent),
        // An event of another interface: a seat is not resumed. A mask of two capabilities is none of this crate's.
        ("01000000000000ff 14000000 07000000 09000000", Refusal::MalformedEvent),
        (
            "01000000000000ff 28000000 02000000 0300000000000000 0c000000 65695f6b6579626f61726400",
            Refusal::MalformedEvent,
        ),
    ];
    for (message, refusal) in refused {
        let mut reader = reader();
        reader.push(&bytes(message));
        assert_eq!(reader.next_event(), Err(refusal), "{message}");
        assert_eq!(reader.next_event(), Err(refusal), "{message}");
        assert_eq!(reader.waiting(), bytes(message));
    }
    // The longest length is none of these: it waits.
    let mut reader = reader();
    reader.push(&bytes("01000000000000ff 1c010000"));
    assert_eq!(reader.next_event(), Ok(None));
}

#[test]
fn what_is_gone_is_not_known() {
    let mut reader = reader();
    let destroyed = bytes("02000000000000ff 14000000 00000000 08000000");
    reader.push(&destroyed);
    let (object, kind) = (0xff00000000000002, EventKind::Destroyed { serial: 8 });
    assert_eq!(reader.next_event(), Ok(Some(Event { object, kind })));
    // The answer to a Sync is on an object that the client has made.
    reader.push(&bytes("0500000000000000 18000000 00000000 0000000000000000"));
    let (object, kind) = (5, EventKind::CallbackDone { callback_data: 0 });
    assert_eq!(reader.next_event(), Ok(Some(Event { object, kind })));
    reader.push(&bytes("00000000000000ff 1c000000 00000000 08000000 03000000 00000000"));
    let kind = EventKind::Disconnected {
        last_serial: 8,
        reason: DisconnectReason::Protocol,
        explanation: None,
    };
    let object = 0xff00000000000000;
    assert_eq!(reader.next_event(), Ok(Some(Event { object, kind })));
    for gone in [
        "00000000000000ff 1c000000 00000000 08000000 03000000 00000000",
        "02000000000000ff 10000000 06000000",
    ] {
        let mut reader = reader.clone();
        reader.push(&bytes(gone));
        assert_eq!(reader.next_event(), Err(Refusal::NoObject));
    }
}

/// What the original's own proxies and backend send in random sessions: the writer makes the same bytes, by what it
/// knows of the objects, and they are read as the same records.
#[test]
fn the_originals_messages_are_these() {
    let Some(oracle) = env::var_os("BOZTERRUN_ORACLE").map(PathBuf::from) else {
        // Written past the harness, which shows nothing of a test that passes.
        let line = "\nleft out, BOZTERRUN_ORACLE not being set: the original's messages\n";
        let _ = io::stderr().write_all(line.as_bytes());
        return;
    };
    let path = env::temp_dir().join(format!("bozterrun-wire-{}", process::id()));
    let mut sent = 0;
    let profiles = ["mixed", "text", "removal", "frames"];
    for (seed, profile) in (1..=3).flat_map(|seed| profiles.map(|profile| (seed, profile))) {
        let script = releases::random_script(&oracle, seed, profile);
        fs::write(&path, script).expect("it can be written");
        let mut program = Command::new(oracle.join("target/release/oracle"));
        let told = program.arg("--wire").arg(&path).output().expect("it can be run");
        assert!(told.status.success(), "seed {seed}, {profile}");
        let mut writer = MessageWriter::new();
        // `wire INTERFACE t:MESSAGE t:RECORD`, among other lines.
        for line in String::from_utf8(told.stdout).expect("it is ASCII").lines() {
            let Some(words) = line.strip_prefix("wire ") else {
                continue;
            };
            let words: Vec<&str> = words.split(' ').collect();
            let number: u32 = words[0].parse().expect("a number");
            let (message, record) = (bytes(&words[1][2..]), bytes(&words[2][2..]));
            let begins = number == 0 && record[0] >> 3 == 16;
            writer = if begins { MessageWriter::new() } else { writer };
            // A text with a zero byte is sent by the original, and by nobody here.
            let text = match record[0] >> 3 {
                2 => &record[10..],
                14 => &record[19..],
                _ => &[],
            };
            let (mut written, mut out) = (Vec::new(), [0; EVENT_RECORD_LENGTH]);
            let answer = writer.write(Events::new(&record), &mut written);
            let read = read_message(interface(number), &message, &mut out);
            if text.contains(&0) {
                assert_eq!(
                    (answer, read),
                    (Err(Refusal::Unsendable), Err(Refusal::MalformedEvent)),
                    "{line}"
                );
            } else {
                assert_eq!((answer, written, read), (Ok(()), message, Ok(&record[..])), "{line}");
                sent += 1;
            }
        }
    }
    let _ = fs::remove_file(&path);
    println!("{sent} messages");
    assert!(sent > 1000, "{sent} messages");
}

/// Damaged bytes: nothing panics, and what is read is written again as it was.
#[test]
fn random_messages() {
    let mut state = 1u64;
    let mut random = move |limit: usize| {
        state = state
            .wrapping_mul(6364136223846793005)
            .wrapping_add(1442695040888963407);
        (state >> 33) as usize % limit
    };
    let (mut read, mut refused) = (0, 0);
    for _ in 0..20000 {
        let (number, _, message) = WORKED[random(WORKED.len())];
        let mut message = bytes(message);
        for _ in 0..random(3) {
            let at = random(message.len());
            message[at] = random(256) as u8;
        }
        let (mut out, mut back) = ([0; EVENT_RECORD_LENGTH], [0; EVENT_MESSAGE_LENGTH]);
        match read_message(interface(number), &message, &mut out) {
            Ok(record) => {
                assert_eq!(write_message(interface(number), record, &mut back), Ok(&message[..]));
                read += 1;
            }
            Err(refusal) => {
                assert_eq!(refusal, Refusal::MalformedEvent);
                refused += 1;
            }
        }
        let mut reader = reader();
        reader.push(&message);
        while matches!(reader.next_event(), Ok(Some(_))) {}
    }
    assert!(read > 1000 && refused > 1000, "{read} read, {refused} refused");
}
