//! A client's bytes, message by message. What each is to answer was worked out by hand from the scope.

mod begin;
mod encode;

use begin::begin;
use bozterrun::eis::{connection, keyboard, text, Object, Request};
use bozterrun::request::{EisRequest, Frame, KeyboardKey};
use bozterrun::{
    ContextType, Device, DeviceCapabilities, DeviceType, DisconnectReason, EisHandshaker, EisRequestConverter,
    Interface, KeyState, ParseError, Refusal, Seat, HEADER_LENGTH, MESSAGE_LENGTH, OUT_LENGTH, TEXT_LENGTH,
};
use encode::{message, with_text};

/// Ids as `begin` leaves them: the connection, the first seat and the first device, with every interface.
const CONNECTION: u64 = 0xff00000000000000;
const SEAT: u64 = 0xff00000000000001;
const DEVICE: u64 = 0xff00000000000002;
const KEYBOARD: u64 = 0xff00000000000005;
const TEXT: u64 = 0xff00000000000009;

fn with_device() -> EisRequestConverter {
    let mut converter = begin(7);
    let (mut out, all) = ([0; OUT_LENGTH], DeviceCapabilities::ALL);
    let connection = converter.handle_mut();
    let (seat, _) = connection.add_seat(None, all, &mut out).expect("a seat fits");
    let (device, _) = connection
        .add_device(seat, None, DeviceType::Virtual, all, &mut out)
        .expect("a device fits");
    assert_eq!((seat, device), (Seat(SEAT), Device(DEVICE)));
    converter
}

fn with_length(mut bytes: Vec<u8>, length: u32) -> Vec<u8> {
    bytes[8..12].copy_from_slice(&length.to_le_bytes());
    bytes
}

fn key(key: u32, state: u32) -> Vec<u8> {
    message(KEYBOARD, 1, &[key, state])
}

fn sync(id: u64, version: u32) -> Vec<u8> {
    message(CONNECTION, 0, &[id as u32, (id >> 32) as u32, version])
}

/// How many bytes were taken and written; 0 and 0 where it waits.
fn take(converter: &mut EisRequestConverter, bytes: &[u8]) -> Result<(usize, usize), Refusal> {
    let mut out = [0xee; OUT_LENGTH];
    let (taken, count) = match converter.pending_request(bytes, 3, &mut out)? {
        Some(received) => {
            assert!(received.taken >= HEADER_LENGTH);
            (received.taken, received.events.as_bytes().len())
        }
        None => (0, 0),
    };
    assert!(out[count..].iter().all(|byte| *byte == 0xee));
    Ok((taken, count))
}

fn malformed(error: ParseError) -> Result<(usize, usize), Refusal> {
    Err(Refusal::Malformed(error))
}

#[test]
fn a_key_and_its_frame() {
    let mut converter = with_device();
    let bytes = [key(30, 1), message(DEVICE, 3, &[7, 500, 0])].concat();
    assert_eq!(take(&mut converter, &bytes), Ok((24, 0)));
    assert_eq!(take(&mut converter, &bytes[24..]), Ok((28, 0)));
    assert_eq!(take(&mut converter, &bytes[52..]), Ok((0, 0)));
    let mut text = [0; TEXT_LENGTH];
    let (device, time, state) = (Device(DEVICE), 500, KeyState::Press);
    let pressed = EisRequest::KeyboardKey(KeyboardKey {
        device,
        time,
        key: 30,
        state,
    });
    assert_eq!(converter.next_request(&mut text), Ok(Some(pressed)));
    let last_serial = 7;
    let framed = EisRequest::Frame(Frame {
        device,
        last_serial,
        time,
    });
    assert_eq!(converter.next_request(&mut text), Ok(Some(framed)));
    assert_eq!(converter.next_request(&mut text), Ok(None));
}

#[test]
fn a_message_that_is_cut_waits() {
    let mut converter = with_device();
    let bytes = with_text(TEXT, 2, "grüezi".as_bytes(), &[]);
    for cut in 0..bytes.len() {
        assert_eq!(take(&mut converter, &bytes[..cut]), Ok((0, 0)));
    }
    assert_eq!(take(&mut converter, &bytes), Ok((bytes.len(), 0)));
}

#[test]
fn object_and_length_are_looked_at_before_it_is_whole() {
    let mut converter = with_device();
    let header = |object, length| with_length(message(object, 99, &[]), length);
    assert_eq!(take(&mut converter, &header(999, 24)), Err(Refusal::NoObject));
    assert_eq!(take(&mut converter, &header(999, 5)), Err(Refusal::NoObject));
    assert_eq!(take(&mut converter, &header(0, 16)), Err(Refusal::NoObject));
    for length in [0, 15, 1025, u32::MAX] {
        let wrong = malformed(ParseError::HeaderLength(length));
        assert_eq!(take(&mut converter, &header(KEYBOARD, length)), wrong);
    }
    assert_eq!(
        take(&mut converter, &header(KEYBOARD, MESSAGE_LENGTH as u32)),
        Ok((0, 0))
    );
    let opcode = malformed(ParseError::InvalidOpcode("ei_keyboard", 99));
    assert_eq!(take(&mut converter, &header(KEYBOARD, 16)), opcode);
}

#[test]
fn each_case_of_a_malformed_message() {
    let mut converter = with_device();
    let mut refused = |bytes: Vec<u8>, error| assert_eq!(take(&mut converter, &bytes), malformed(error));
    refused(key(30, 2), ParseError::InvalidVariant(2));
    refused(message(KEYBOARD, 1, &[30]), ParseError::EndOfMessage);
    refused(message(KEYBOARD, 1, &[30, 1, 0]), ParseError::MessageLength(32, 28));
    refused(message(KEYBOARD, 1, &[30, 2, 0]), ParseError::InvalidVariant(2));
    refused(with_text(TEXT, 2, b"\x80", &[]), ParseError::Utf8);
    refused(message(TEXT, 2, &[0]), ParseError::InvalidNull);
    refused(message(TEXT, 2, &[u32::MAX, 0]), ParseError::EndOfMessage);
    refused(
        message(CONNECTION, 2, &[]),
        ParseError::InvalidOpcode("ei_connection", 2),
    );
}

#[test]
fn ids_of_callbacks() {
    let mut converter = with_device();
    assert_eq!(take(&mut converter, &sync(5, 1)), Ok((28, 18)));
    assert_eq!(take(&mut converter, &sync(5, 1)), Err(Refusal::InvalidId));
    assert_eq!(take(&mut converter, &sync(0, 1)), Err(Refusal::InvalidId));
    assert_eq!(take(&mut converter, &sync(CONNECTION, 1)), Err(Refusal::InvalidId));
    let (interface, version) = (Interface::Callback, 2);
    let refused = Err(Refusal::InvalidInterfaceVersion { interface, version });
    assert_eq!(take(&mut converter, &sync(9, 2)), refused);
    assert_eq!(take(&mut converter, &sync(9, 1)), Ok((28, 18)));
    // One that is made as a request is not remembered.
    let request = Request::Connection(connection::Request::Sync {
        callback: Object::new(20, 1),
    });
    let mut out = [0; OUT_LENGTH];
    assert!(converter.handle_request(request, 0, &mut out).is_ok());
    assert_eq!(take(&mut converter, &sync(10, 1)), Ok((28, 18)));
}

#[test]
fn what_is_released_or_disconnected_is_not_alive() {
    let mut converter = with_device();
    assert_eq!(take(&mut converter, &message(KEYBOARD, 0, &[])), Ok((16, 14)));
    assert_eq!(take(&mut converter, &key(30, 1)), Err(Refusal::NoObject));
    let mut out = [0; OUT_LENGTH];
    let reason = DisconnectReason::Disconnected;
    assert!(converter.handle_mut().disconnected(reason, None, &mut out).is_ok());
    for object in [CONNECTION, SEAT, DEVICE, TEXT] {
        assert_eq!(take(&mut converter, &message(object, 0, &[])), Err(Refusal::NoObject));
    }
}

#[test]
fn a_limit_takes_nothing_and_the_same_bytes_fit_later() {
    let mut converter = with_device();
    for pressed in 0..64 {
        assert_eq!(take(&mut converter, &key(pressed, 1)), Ok((24, 0)));
    }
    assert_eq!(take(&mut converter, &key(30, 1)), Err(Refusal::FullPending));
    assert_eq!(take(&mut converter, &message(DEVICE, 3, &[7, 500, 0])), Ok((28, 0)));
    assert_eq!(take(&mut converter, &key(30, 1)), Ok((24, 0)));
    // `out` is too short for the event.
    let refused = converter.pending_request(&sync(1, 1), 0, &mut [0; 17]).map(|_| ());
    assert_eq!(refused, Err(Refusal::ShortOut));
    assert_eq!(take(&mut converter, &sync(1, 1)), Ok((28, 18)));
}

#[test]
fn a_message_is_its_request() {
    let (mut by_message, mut by_request) = (with_device(), with_device());
    let keyboard = Object::new(KEYBOARD, 1);
    let (key_code, state) = (30, KeyState::Press);
    let requests = [
        (
            key(30, 1),
            Request::Keyboard(keyboard, keyboard::Request::Key { key: key_code, state }),
        ),
        (
            with_text(TEXT, 2, b"ab", &[]),
            Request::Text(Object::new(TEXT, 1), text::Request::Utf8 { text: b"ab" }),
        ),
        (
            message(CONNECTION, 1, &[]),
            Request::Connection(connection::Request::Disconnect),
        ),
    ];
    let (mut out, mut other) = ([0; OUT_LENGTH], [0; OUT_LENGTH]);
    for (bytes, request) in requests {
        let received = by_message.pending_request(&bytes, 9, &mut out).expect("it is accepted");
        let received = received.expect("it is whole");
        let events = by_request
            .handle_request(request, 9, &mut other)
            .expect("it is accepted");
        assert_eq!(received.taken, bytes.len());
        assert_eq!(received.events.as_bytes(), events.as_bytes());
    }
    let (mut left, mut right) = ([0; TEXT_LENGTH], [0; TEXT_LENGTH]);
    loop {
        let given = by_message.next_request(&mut left).expect("the buffer is long enough");
        assert_eq!(Ok(given), by_request.next_request(&mut right));
        if given.is_none() {
            break;
        }
    }
}

#[test]
fn a_handshake_of_bytes() {
    let mut out = [0; OUT_LENGTH];
    let (mut handshaker, _) = EisHandshaker::new(7, &mut out).expect("it is long enough");
    let mut refused = |bytes: Vec<u8>, refusal| {
        let answer = handshaker.pending_request(&bytes, &mut [0; OUT_LENGTH]).map(|_| ());
        assert_eq!(answer, Err(refusal));
    };
    refused(message(0, 1, &[]), Refusal::MissingInterface { count: 0 });
    refused(message(CONNECTION, 1, &[]), Refusal::NoObject);
    let opcode = ParseError::InvalidOpcode("ei_handshake", 5);
    refused(message(0, 5, &[]), Refusal::Malformed(opcode));
    refused(message(0, 2, &[3]), Refusal::Malformed(ParseError::InvalidVariant(3)));
    refused(with_text(0, 3, &[b'x'; 255], &[]), Refusal::NameLong);
    let mut bytes = message(0, 0, &[1]);
    bytes.extend(with_text(0, 3, b"token", &[]));
    bytes.extend(message(0, 2, &[2]));
    for name in ["ei_connection", "ei_callback", "ei_pingpong", "ei_seat"] {
        bytes.extend(with_text(0, 4, name.as_bytes(), &[9]));
    }
    bytes.extend(message(0, 1, &[]));
    bytes.extend(sync(5, 1));
    // Byte by byte: each message is taken once its last byte is there.
    let (mut at, mut response) = (0, None);
    for end in 0..bytes.len() {
        let received = handshaker.pending_request(&bytes[at..end], &mut out).expect("accepted");
        let Some(received) = received else { continue };
        assert_eq!(received.taken, end - at);
        at = end;
        if let Some(finished) = received.response {
            assert_eq!(received.events.as_bytes().len(), 4 * 15 + 26);
            response = Some(finished);
            break;
        }
        assert!(received.events.is_empty());
    }
    let response = response.expect("the handshake is finished");
    assert_eq!(response.name.as_deref(), Some("token"));
    assert_eq!(response.context_type, ContextType::Sender);
    assert_eq!(response.negotiated_interfaces.get("ei_seat"), Some(&2));
    // The handshake's object is gone, and the connection's messages are the session's.
    let finish = handshaker.pending_request(&message(0, 1, &[]), &mut out).map(|_| ());
    assert_eq!(finish, Err(Refusal::NoObject));
    let other = handshaker.pending_request(&bytes[at..], &mut out).map(|_| ());
    assert_eq!(other, Err(Refusal::NonHandshakeEvent));
    let mut converter = EisRequestConverter::new(response);
    assert_eq!(take(&mut converter, &bytes[at..]), Ok((28, 18)));
    assert_eq!(converter.handle().last_serial(), Ok(7));
}

/// Whatever a client sends, nothing panics, and what is not accepted takes nothing.
#[test]
fn random_bytes() {
    let mut state = 1u64;
    let mut random = move |limit: u64| {
        state = state
            .wrapping_mul(6364136223846793005)
            .wrapping_add(1442695040888963407);
        (state >> 33) % limit
    };
    let mut converter = with_device();
    let (mut accepted, mut refused) = (0, 0);
    for round in 0..20000 {
        if round % 100 == 0 {
            converter = with_device();
        }
        let mut arguments = Vec::new();
        for _ in 0..random(5) {
            arguments.push(random(3) as u32);
        }
        let mut bytes = message(CONNECTION + random(12), random(5) as u32, &arguments);
        if random(3) == 0 {
            let at = random(bytes.len() as u64) as usize;
            bytes[at] = random(256) as u8;
        }
        let length = u32::from_le_bytes([bytes[8], bytes[9], bytes[10], bytes[11]]);
        match take(&mut converter, &bytes) {
            Ok((0, 0)) => assert!(bytes.len() < length as usize),
            Ok((taken, _)) => {
                assert_eq!(taken, length as usize);
                accepted += 1;
            }
            Err(refusal) => {
                assert_ne!(refusal, Refusal::BadState);
                refused += 1;
            }
        }
    }
    assert!(
        accepted > 1000 && refused > 1000,
        "{accepted} accepted, {refused} refused"
    );
}
