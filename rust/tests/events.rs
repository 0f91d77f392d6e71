//! Event records, decoded. What their bytes mean is in docs/REFERENCE.md, Event records; the trails are the oracle's.

mod begin;

use begin::begin;
use bozterrun::eis::{seat, touchscreen, Object, Request};
use bozterrun::{
    Device, DeviceCapability, DeviceType, DisconnectReason, Event, EventKind, Events, Interface, Refusal, Seat,
};
use std::io::{self, Write};
use std::{env, fs, path::PathBuf};

/// Bytes from hexadecimal digits, two for each; spaces are left out.
fn bytes(digits: &str) -> Vec<u8> {
    let digits: Vec<u8> = digits.bytes().filter(|byte| *byte != b' ').collect();
    let byte = |pair: &[u8]| u8::from_str_radix(std::str::from_utf8(pair).expect("digits are ASCII"), 16);
    digits.chunks(2).map(|pair| byte(pair).expect("two digits")).collect()
}

/// A record of each kind: its bytes by the table, field by field, and what they say.
fn records() -> Vec<(Vec<u8>, EventKind<'static>)> {
    let connection = Object::new(0xff00000000000000, 1);
    let record = |digits: &str, kind| (bytes(digits), kind);
    vec![
        record(
            "0816 ff00000000000001 ff00000000000009 00000002",
            EventKind::Seat {
                seat: Seat(0xff00000000000009),
                version: 2,
            },
        ),
        record(
            "100e ff00000000000001 61c3a97a",
            EventKind::Name {
                name: "aéz".as_bytes()
            },
        ),
        record("100a ff00000000000001", EventKind::Name { name: b"" }),
        record(
            "1813 ff00000000000001 0000000000000008 0b",
            EventKind::Capability {
                mask: DeviceCapability::Touch,
                interface: Interface::Touchscreen,
            },
        ),
        record("200a ff00000000000001", EventKind::Done),
        record("280e ff00000000000001 00000008", EventKind::Destroyed { serial: 8 }),
        record(
            "3016 ff00000000000001 ff00000000000002 00000003",
            EventKind::Device {
                device: Device(0xff00000000000002),
                version: 3,
            },
        ),
        record(
            "380e ff00000000000001 00000002",
            EventKind::DeviceType {
                device_type: DeviceType::Physical,
            },
        ),
        record(
            "4017 ff00000000000001 ff00000000000003 0a 00000001",
            EventKind::Interface {
                object: Object::new(0xff00000000000003, 1),
                interface: Interface::Keyboard,
            },
        ),
        record(
            "480e ff00000000000001 ffffffff",
            EventKind::Resumed { serial: u32::MAX },
        ),
        record("500e ff00000000000001 00000000", EventKind::Paused { serial: 0 }),
        record(
            "5812 ff00000000000001 00000102 03040506",
            EventKind::StartEmulating {
                serial: 0x102,
                sequence: 0x3040506,
            },
        ),
        record("600e ff00000000000001 00000001", EventKind::StopEmulating { serial: 1 }),
        record(
            "6816 ff00000000000001 00000001 0102030405060708",
            EventKind::Frame {
                serial: 1,
                time: 0x102030405060708,
            },
        ),
        record(
            "7013 ff00000000000001 0000000c 00000000 00",
            EventKind::Disconnected {
                last_serial: 12,
                reason: DisconnectReason::Disconnected,
                explanation: None,
            },
        ),
        record(
            "7013 ff00000000000001 0000000c 00000005 80",
            EventKind::Disconnected {
                last_serial: 12,
                reason: DisconnectReason::Transport,
                explanation: Some(b""),
            },
        ),
        record(
            "7016 ff00000000000001 0000000c 00000003 80 6f0a6f",
            EventKind::Disconnected {
                last_serial: 12,
                reason: DisconnectReason::Protocol,
                explanation: Some(b"o\no"),
            },
        ),
        record(
            "7812 ff00000000000001 0000000000000000",
            EventKind::CallbackDone { callback_data: 0 },
        ),
        record(
            "800e ff00000000000001 00000001",
            EventKind::HandshakeVersion { version: 1 },
        ),
        record(
            "880f ff00000000000001 04 00000002",
            EventKind::InterfaceVersion {
                interface: Interface::Seat,
                version: 2,
            },
        ),
        record(
            "901a ff00000000000001 ff00000000000000 00000007 00000001",
            EventKind::Connection { connection, serial: 7 },
        ),
    ]
}

/// The bytes of an event by the table: kind 5 bits, length 11, object 64, then the fields.
fn encode(event: &Event) -> Vec<u8> {
    let mut fields = Vec::new();
    let mut put = |bytes: &[u8]| fields.extend_from_slice(bytes);
    let kind: u16 = match event.kind {
        EventKind::Seat { seat, version } => {
            put(&seat.id().to_be_bytes());
            put(&version.to_be_bytes());
            1
        }
        EventKind::Name { name } => {
            put(name);
            2
        }
        EventKind::Capability { mask, interface } => {
            put(&mask.bits().to_be_bytes());
            put(&[interface.number() as u8]);
            3
        }
        EventKind::Done => 4,
        EventKind::Destroyed { serial } => {
            put(&serial.to_be_bytes());
            5
        }
        EventKind::Device { device, version } => {
            put(&device.id().to_be_bytes());
            put(&version.to_be_bytes());
            6
        }
        EventKind::DeviceType { device_type } => {
            put(&device_type.number().to_be_bytes());
            7
        }
        EventKind::Interface { object, interface } => {
            put(&object.id.to_be_bytes());
            put(&[interface.number() as u8]);
            put(&object.version.to_be_bytes());
            8
        }
        EventKind::Resumed { serial } => {
            put(&serial.to_be_bytes());
            9
        }
        EventKind::Paused { serial } => {
            put(&serial.to_be_bytes());
            10
        }
        EventKind::StartEmulating { serial, sequence } => {
            put(&serial.to_be_bytes());
            put(&sequence.to_be_bytes());
            11
        }
        EventKind::StopEmulating { serial } => {
            put(&serial.to_be_bytes());
            12
        }
        EventKind::Frame { serial, time } => {
            put(&serial.to_be_bytes());
            put(&time.to_be_bytes());
            13
        }
        EventKind::Disconnected {
            last_serial,
            reason,
            explanation,
        } => {
            put(&last_serial.to_be_bytes());
            put(&reason.number().to_be_bytes());
            put(&[if explanation.is_some() { 0x80 } else { 0 }]);
            put(explanation.unwrap_or_default());
            14
        }
        EventKind::CallbackDone { callback_data } => {
            put(&callback_data.to_be_bytes());
            15
        }
        EventKind::HandshakeVersion { version } => {
            put(&version.to_be_bytes());
            16
        }
        EventKind::InterfaceVersion { interface, version } => {
            put(&[interface.number() as u8]);
            put(&version.to_be_bytes());
            17
        }
        EventKind::Connection { connection, serial } => {
            put(&connection.id.to_be_bytes());
            put(&serial.to_be_bytes());
            put(&connection.version.to_be_bytes());
            18
        }
    };
    let length = 10 + fields.len() as u16;
    let mut record = (kind << 11 | length).to_be_bytes().to_vec();
    record.extend_from_slice(&event.object.to_be_bytes());
    record.extend_from_slice(&fields);
    record
}

#[test]
fn a_record_of_each_kind_says_what_the_table_has() {
    let records = records();
    let mut kinds: Vec<u8> = records.iter().map(|(record, _)| record[0] >> 3).collect();
    kinds.dedup();
    assert_eq!(kinds, (1..=18).collect::<Vec<u8>>());
    for (record, kind) in &records {
        let event = Event {
            object: 0xff00000000000001,
            kind: *kind,
        };
        assert_eq!(Event::decode(record), Some((event, record.len())));
        assert_eq!(encode(&event), *record);
    }
    // One behind another.
    let all: Vec<u8> = records.iter().flat_map(|(record, _)| record.clone()).collect();
    let mut events = Events::new(&all);
    for (_, kind) in &records {
        assert_eq!(events.next().map(|event| event.kind), Some(*kind));
    }
    assert_eq!(events.next(), None);
    assert!(events.is_empty());
}

#[test]
fn bytes_that_are_no_record_are_none() {
    for (record, kind) in records() {
        for length in 0..record.len() {
            assert_eq!(Event::decode(&record[..length]), None, "{kind:?} cut to {length} bytes");
        }
        // A length that says one byte less or more, with a byte behind it.
        let is_text = matches!(
            kind,
            EventKind::Name { .. }
                | EventKind::Disconnected {
                    explanation: Some(_),
                    ..
                }
        );
        for change in [-1, 1] {
            let mut other = record.clone();
            other.push(0);
            other[1] = (i16::from(other[1]) + change) as u8;
            let shortest = record.len() == 10 || record.len() == 19;
            let decodes = is_text && (change == 1 || !shortest);
            assert_eq!(Event::decode(&other).is_some(), decodes, "{kind:?}, length {change:+}");
        }
    }
    for kind in [0, 19, 20, 31] {
        let mut record = bytes("200a ff00000000000001");
        record[0] = kind << 3;
        assert_eq!(Event::decode(&record), None, "kind {kind}");
    }
}

#[test]
fn numbers_that_are_no_case_are_no_record() {
    for digits in [
        // Masks of no capability, interfaces 0 and 13.
        "1813 ff00000000000001 0000000000000000 0a",
        "1813 ff00000000000001 0000000000000003 0a",
        "1813 ff00000000000001 0000000000000080 0a",
        "1813 ff00000000000001 8000000000000004 0a",
        "1813 ff00000000000001 0000000000000004 00",
        "1813 ff00000000000001 0000000000000004 0d",
        "4017 ff00000000000001 ff00000000000003 00 00000001",
        "880f ff00000000000001 0d 00000002",
        // Device types 0 and 3, reason 6.
        "380e ff00000000000001 00000000",
        "380e ff00000000000001 00000003",
        "7013 ff00000000000001 0000000c 00000006 00",
        // An explanation that is given or not, and neither; a text that is not given.
        "7013 ff00000000000001 0000000c 00000000 01",
        "7013 ff00000000000001 0000000c 00000000 c0",
        "7014 ff00000000000001 0000000c 00000000 00 61",
    ] {
        assert_eq!(Event::decode(&bytes(digits)), None, "{digits}");
    }
}

/// The iterator ends at bytes that are no record, and says where.
#[test]
fn the_iterator_stops_at_what_is_no_record() {
    let two = bytes("200a ff00000000000001 f80a ff00000000000001");
    let mut events = Events::new(&two);
    assert_eq!(
        events.next(),
        Some(Event {
            object: 0xff00000000000001,
            kind: EventKind::Done
        })
    );
    assert_eq!(events.next(), None);
    assert_eq!(events.as_bytes(), &two[10..]);
}

/// What a seat and a device are announced with, in the words of docs/API.md, and what their releases write.
#[test]
fn a_seat_and_a_device_are_announced_and_released() {
    let mut converter = begin(7);
    let mut out = [0; bozterrun::OUT_LENGTH];
    let both = DeviceCapability::Touch | DeviceCapability::Text;
    let (seat, events) = converter
        .handle_mut()
        .add_seat(Some(b"counter"), both, &mut out)
        .expect("a seat fits");
    let (touch, text) = (DeviceCapability::Touch, DeviceCapability::Text);
    let (touchscreen, texts) = (Interface::Touchscreen, Interface::Text);
    let told: Vec<_> = events.map(|event| (event.object, event.kind)).collect();
    let wanted = [
        (0xff00000000000000, EventKind::Seat { seat, version: 2 }),
        (seat.id(), EventKind::Name { name: b"counter" }),
        (
            seat.id(),
            EventKind::Capability {
                mask: touch,
                interface: touchscreen,
            },
        ),
        (
            seat.id(),
            EventKind::Capability {
                mask: text,
                interface: texts,
            },
        ),
        (seat.id(), EventKind::Done),
    ];
    assert_eq!(told, wanted);

    let kind = DeviceType::Virtual;
    let (device, events) = converter
        .handle_mut()
        .add_device(seat, None, kind, both, &mut out)
        .expect("it fits");
    let told: Vec<_> = events.map(|event| (event.object, event.kind)).collect();
    let (first, second) = (Object::new(device.id() + 1, 2), Object::new(device.id() + 2, 1));
    let wanted = [
        (seat.id(), EventKind::Device { device, version: 3 }),
        (device.id(), EventKind::DeviceType { device_type: kind }),
        (
            device.id(),
            EventKind::Interface {
                object: first,
                interface: touchscreen,
            },
        ),
        (
            device.id(),
            EventKind::Interface {
                object: second,
                interface: texts,
            },
        ),
        (device.id(), EventKind::Done),
    ];
    assert_eq!(told, wanted);
    assert_eq!(converter.handle().interface(device, touch), Ok(Some(first)));
    assert_eq!(converter.handle().interface(device, text), Ok(Some(second)));

    // What is released is destroyed once and listed no longer; the other interface keeps its id.
    let destroyed = |object, serial| Event {
        object,
        kind: EventKind::Destroyed { serial },
    };
    let released = Request::Touchscreen(first, touchscreen::Request::Release);
    let events = converter.handle_request(released, 0, &mut out).expect("it fits");
    assert_eq!(events.collect::<Vec<_>>(), [destroyed(first.id, 8)]);
    assert_eq!(converter.handle().interface(device, touch), Ok(None));
    assert_eq!(converter.handle().interface(device, text), Ok(Some(second)));
    let released = Request::Seat(seat, seat::Request::Release);
    let events = converter.handle_request(released, 0, &mut out).expect("it fits");
    let wanted = [
        destroyed(second.id, 9),
        destroyed(device.id(), 10),
        destroyed(seat.id(), 11),
    ];
    assert_eq!(events.collect::<Vec<_>>(), wanted);
    let unknown = Err(Refusal::UnknownHandle);
    assert_eq!(converter.handle().interface(device, text), unknown);
}

/// Every record of the oracle's trails decodes, and by the table its event has these very bytes.
#[test]
fn the_records_of_the_oracles_trails_are_understood() {
    let Some(oracle) = env::var_os("BOZTERRUN_ORACLE").map(PathBuf::from) else {
        // Written past the harness, which shows nothing of a test that passes.
        let line = "\nleft out, BOZTERRUN_ORACLE not being set: the records of its trails\n";
        let _ = io::stderr().write_all(line.as_bytes());
        return;
    };
    let mut seen = [0; 32];
    for entry in fs::read_dir(oracle.join("cases")).expect("the oracle has cases") {
        let path = entry.expect("the folder can be read").path();
        if path.extension().is_some_and(|extension| extension == "trail") {
            let trail = fs::read_to_string(&path).expect("a trail is ASCII");
            for record in trail
                .lines()
                .filter_map(|line| line.split_once(" | "))
                .flat_map(|line| line.1.split(' '))
            {
                let record = bytes(record);
                let (event, length) = Event::decode(&record).expect("a record of the oracle is one");
                assert_eq!(length, record.len());
                assert_eq!(encode(&event), record);
                seen[usize::from(record[0] >> 3)] += 1;
            }
        }
    }
    assert!(seen[1..=18].iter().all(|count| *count > 0), "{seen:?}");
}
