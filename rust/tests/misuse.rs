//! What a careless station or a hostile client can do: each call answers with its refusal, and nothing is touched.
//! Which refusal it is, docs/REFERENCE.md says.

mod begin;

use begin::begin;
use bozterrun::eis::{
    button, connection, device, handshake, keyboard, pingpong, pointer, pointer_absolute, scroll, seat, text,
    touchscreen, Object, Request,
};
use bozterrun::request::{EisRequest, TextUtf8};
use bozterrun::{
    ButtonState, ContextType, Device, DeviceCapabilities, DeviceCapability, DeviceType, DisconnectReason,
    EisHandshaker, EisRequestConverter, Event, EventKind, Interface, KeyState, Read, Refusal, Seat,
};

/// Ids as `begin` leaves them: the first seat and the first device, with every interface.
const SEAT: Seat = Seat(0xff00000000000001);
const DEVICE: Device = Device(0xff00000000000002);

/// An interface of that device, by its place.
fn interface(place: u64) -> Object {
    Object::new(DEVICE.id() + 1 + place, 2)
}

/// A session with a seat and a device that have every capability.
fn with_device() -> EisRequestConverter {
    let mut converter = begin(7);
    let mut out = [0; bozterrun::OUT_LENGTH];
    let connection = converter.handle_mut();
    let (seat, _) = connection
        .add_seat(None, DeviceCapabilities::ALL, &mut out)
        .expect("a seat fits");
    assert_eq!(seat, SEAT);
    let all = DeviceCapabilities::ALL;
    let (device, _) = connection
        .add_device(seat, None, DeviceType::Virtual, all, &mut out)
        .expect("a device fits");
    assert_eq!(device, DEVICE);
    converter
}

/// All bytes of a session's memory.
fn memory_of(converter: &mut EisRequestConverter) -> Vec<u8> {
    let memory = converter.handle_mut().memory();
    let words = memory
        .control
        .iter()
        .chain(&memory.words)
        .flat_map(|word| word.to_ne_bytes());
    let reals = memory.reals.iter().flat_map(|real| real.to_bits().to_ne_bytes());
    words.chain(reals).chain(memory.texts).collect()
}

fn key(key: u32) -> Request<'static> {
    let state = KeyState::Press;
    Request::Keyboard(interface(2), keyboard::Request::Key { key, state })
}

fn utf8(text: &[u8]) -> Request<'_> {
    Request::Text(interface(6), text::Request::Utf8 { text })
}

fn frame(timestamp: u64) -> Request<'static> {
    let last_serial = 7;
    Request::Device(DEVICE, device::Request::Frame { last_serial, timestamp })
}

fn down(touchid: u32) -> Request<'static> {
    let (x, y) = (1.0, 2.0);
    Request::Touchscreen(interface(3), touchscreen::Request::Down { touchid, x, y })
}

/// Hands a request over that is accepted and writes nothing.
fn accept(converter: &mut EisRequestConverter, request: Request) {
    let events = converter.handle_request(request, 5, &mut []);
    assert_eq!(events.map(|events| events.is_empty()), Ok(true), "{request:?}");
}

/// A call of any kind, with a buffer to write to; whether it is refused.
type Call = Box<dyn Fn(&mut EisRequestConverter, &mut [u8]) -> Result<(), Refusal>>;

fn sent(request: Request<'static>) -> Call {
    Box::new(move |converter, out| converter.handle_request(request, 5, out).map(drop))
}

/// A whole read, and its first refusal.
fn handed_over(read: fn() -> Read) -> Call {
    Box::new(move |converter, out| converter.handle_requests(&read(), 5, out).refusal.map_or(Ok(()), Err))
}

/// The bytes of a message, all numbers of 32 bits: the object, the opcode, the arguments.
fn message(object: u64, opcode: u32, arguments: &[u32]) -> Vec<u8> {
    let mut bytes = object.to_le_bytes().to_vec();
    bytes.extend((16 + 4 * arguments.len() as u32).to_le_bytes());
    bytes.extend(opcode.to_le_bytes());
    bytes.extend(arguments.iter().flat_map(|number| number.to_le_bytes()));
    bytes
}

fn received(bytes: Vec<u8>) -> Call {
    Box::new(move |converter, out| converter.pending_request(&bytes, 5, out).map(drop))
}

fn made<F>(call: F) -> Call
where
    F: Fn(&mut bozterrun::Connection, &mut [u8]) -> Result<(), Refusal> + 'static,
{
    Box::new(move |converter, out| call(converter.handle_mut(), out))
}

/// Every call that there is on a running session, on the objects of `with_device`.
fn every_call() -> Vec<Call> {
    let (x, y) = (f32::NAN, -0.0);
    let callback = Object::new(5, 1);
    let (key, keysym, button, touchid) = (30, 65, 272, 3);
    let (last_serial, sequence, timestamp, capabilities) = (7, 1, 500, 127);
    let press = (KeyState::Press, ButtonState::Press);
    let (reason, explanation) = (DisconnectReason::Error, Some(&b"why"[..]));
    let context_type = ContextType::Sender;
    let name: &[u8] = b"ei_text";
    vec![
        sent(Request::Handshake(handshake::Request::HandshakeVersion { version: 1 })),
        sent(Request::Handshake(handshake::Request::Finish)),
        sent(Request::Handshake(handshake::Request::ContextType { context_type })),
        sent(Request::Handshake(handshake::Request::Name { name })),
        sent(Request::Handshake(handshake::Request::InterfaceVersion {
            name,
            version: 1,
        })),
        sent(Request::Connection(connection::Request::Sync { callback })),
        sent(Request::Connection(connection::Request::Disconnect)),
        sent(Request::Pingpong(pingpong::Request::Done { callback_data: 0 })),
        sent(Request::Seat(SEAT, seat::Request::Release)),
        sent(Request::Seat(SEAT, seat::Request::Bind { capabilities })),
        sent(Request::Seat(SEAT, seat::Request::RequestDevice { capabilities })),
        sent(Request::Device(DEVICE, device::Request::Release)),
        sent(Request::Device(
            DEVICE,
            device::Request::StartEmulating { last_serial, sequence },
        )),
        sent(Request::Device(DEVICE, device::Request::StopEmulating { last_serial })),
        sent(Request::Device(
            DEVICE,
            device::Request::Frame { last_serial, timestamp },
        )),
        sent(Request::Device(DEVICE, device::Request::Ready)),
        sent(Request::Pointer(interface(0), pointer::Request::Release)),
        sent(Request::Pointer(
            interface(0),
            pointer::Request::MotionRelative { x, y },
        )),
        sent(Request::PointerAbsolute(
            interface(1),
            pointer_absolute::Request::Release,
        )),
        sent(Request::PointerAbsolute(
            interface(1),
            pointer_absolute::Request::MotionAbsolute { x, y },
        )),
        sent(Request::Keyboard(interface(2), keyboard::Request::Release)),
        sent(Request::Keyboard(
            interface(2),
            keyboard::Request::Key { key, state: press.0 },
        )),
        sent(Request::Touchscreen(interface(3), touchscreen::Request::Release)),
        sent(Request::Touchscreen(
            interface(3),
            touchscreen::Request::Down { touchid, x, y },
        )),
        sent(Request::Touchscreen(
            interface(3),
            touchscreen::Request::Motion { touchid, x, y },
        )),
        sent(Request::Touchscreen(interface(3), touchscreen::Request::Up { touchid })),
        sent(Request::Touchscreen(
            interface(3),
            touchscreen::Request::Cancel { touchid },
        )),
        sent(Request::Scroll(interface(4), scroll::Request::Release)),
        sent(Request::Scroll(interface(4), scroll::Request::Scroll { x, y })),
        sent(Request::Scroll(
            interface(4),
            scroll::Request::ScrollDiscrete { x: -1, y: i32::MIN },
        )),
        sent(Request::Scroll(
            interface(4),
            scroll::Request::ScrollStop {
                x: 1,
                y: 0,
                is_cancel: 0,
            },
        )),
        sent(Request::Button(interface(5), button::Request::Release)),
        sent(Request::Button(
            interface(5),
            button::Request::Button { button, state: press.1 },
        )),
        sent(Request::Text(interface(6), text::Request::Release)),
        sent(Request::Text(
            interface(6),
            text::Request::Keysym { keysym, state: press.0 },
        )),
        sent(Request::Text(interface(6), text::Request::Utf8 { text: b"a text" })),
        handed_over(|| {
            [frame(5), self::key(31), utf8(b"a text"), down(9), utf8(b"\xff")]
                .into_iter()
                .collect()
        }),
        handed_over(Read::new),
        Box::new(|converter, buffer| converter.next_request(buffer).map(drop)),
        Box::new(|converter, buffer| converter.requests(buffer).try_for_each(|given| given.map(drop))),
        made(|connection, out| {
            connection
                .add_seat(Some(b"seat"), DeviceCapabilities::ALL, out)
                .map(drop)
        }),
        made(|connection, out| {
            let all = DeviceCapabilities::ALL;
            connection
                .add_device(SEAT, None, DeviceType::Physical, all, out)
                .map(drop)
        }),
        made(|connection, out| connection.remove_seat(SEAT, out).map(drop)),
        made(|connection, out| connection.remove_device(DEVICE, out).map(drop)),
        made(|connection, out| connection.resumed(DEVICE, out).map(drop)),
        made(|connection, out| connection.paused(DEVICE, out).map(drop)),
        made(|connection, out| connection.start_emulating(DEVICE, 1, out).map(drop)),
        made(|connection, out| connection.stop_emulating(DEVICE, out).map(drop)),
        made(|connection, out| connection.frame(DEVICE, 500, out).map(drop)),
        made(move |connection, out| connection.disconnected(reason, explanation, out).map(drop)),
        made(|connection, _| connection.last_serial().map(drop)),
        made(|connection, _| connection.has_interface(b"ei_text").map(drop)),
        made(|connection, _| connection.interface_version(b"ei_text").map(drop)),
        made(|connection, _| connection.has_capability(DEVICE, DeviceCapability::Text).map(drop)),
        made(|connection, _| connection.interface(DEVICE, DeviceCapability::Text).map(drop)),
        received(Vec::new()),
        received(message(0xff00000000000000, 0, &[9, 0, 1])),
        received(message(DEVICE.id(), 3, &[7, 500, 0])),
        received(message(interface(2).id, 1, &[30, 1])),
        received(message(interface(6).id, 2, &[3, 0x6261, 0])),
    ]
}

/// Makes a call that is refused so, and sees that neither session nor buffer was touched.
fn refuse<F>(converter: &mut EisRequestConverter, length: usize, refusal: Refusal, call: F)
where
    F: FnOnce(&mut EisRequestConverter, &mut [u8]) -> Result<(), Refusal>,
{
    let before = memory_of(converter);
    let mut out = vec![0xa5; length];
    assert_eq!(call(converter, &mut out), Err(refusal));
    assert!(memory_of(converter) == before, "{refusal:?} left the session changed");
    assert_eq!(out, vec![0xa5; length], "{refusal:?} wrote to the buffer");
}

/// The same of a client's request.
fn refuse_request(converter: &mut EisRequestConverter, refusal: Refusal, request: Request) {
    let call =
        |converter: &mut EisRequestConverter, out: &mut [u8]| converter.handle_request(request, 5, out).map(drop);
    refuse(converter, 64, refusal, call);
}

#[test]
fn handshake_requests_in_a_session_are_refused() {
    let mut converter = with_device();
    let context_type = ContextType::Receiver;
    for request in [
        handshake::Request::HandshakeVersion { version: u32::MAX },
        handshake::Request::Finish,
        handshake::Request::ContextType { context_type },
        handshake::Request::Name { name: &[b'a'; 254] },
        handshake::Request::InterfaceVersion {
            name: &[b'a'; 300],
            version: 0,
        },
    ] {
        refuse_request(
            &mut converter,
            Refusal::UnexpectedHandshakeEvent,
            Request::Handshake(request),
        );
    }
    // The text is looked at first.
    let long = handshake::Request::Name { name: &[b'a'; 255] };
    refuse_request(&mut converter, Refusal::NameLong, Request::Handshake(long));
    let bad = handshake::Request::InterfaceVersion {
        name: b"\x80",
        version: 1,
    };
    refuse_request(&mut converter, Refusal::BadUtf8, Request::Handshake(bad));
}

#[test]
fn versions_that_do_not_fit_are_refused_and_told() {
    let mut converter = with_device();
    for version in [0, 2, u32::MAX] {
        let refusal = Refusal::InvalidInterfaceVersion {
            interface: Interface::Callback,
            version,
        };
        let callback = Object::new(5, version);
        refuse_request(
            &mut converter,
            refusal,
            Request::Connection(connection::Request::Sync { callback }),
        );
    }
    for version in [0, 1] {
        let refusal = Refusal::InvalidInterfaceVersion {
            interface: Interface::Touchscreen,
            version,
        };
        let touchscreen = Object::new(interface(3).id, version);
        let cancel = touchscreen::Request::Cancel { touchid: 9 };
        refuse_request(&mut converter, refusal, Request::Touchscreen(touchscreen, cancel));
    }
    // On a touchscreen that is not known nothing is asked.
    let cancel = touchscreen::Request::Cancel { touchid: 9 };
    accept(&mut converter, Request::Touchscreen(Object::new(5, 0), cancel));
}

#[test]
fn masks_with_other_bits_are_refused() {
    let mut converter = with_device();
    for capabilities in [1 << 7, 1 << 63, u64::MAX] {
        let bind = Request::Seat(SEAT, seat::Request::Bind { capabilities });
        refuse_request(&mut converter, Refusal::InvalidCapabilities, bind);
        let ask = Request::Seat(SEAT, seat::Request::RequestDevice { capabilities });
        refuse_request(&mut converter, Refusal::InvalidCapabilities, ask);
        let mask = DeviceCapabilities::from_bits(capabilities);
        refuse(&mut converter, 512, Refusal::BadCapabilities, |converter, out| {
            converter.handle_mut().add_seat(None, mask, out).map(drop)
        });
        refuse(&mut converter, 512, Refusal::BadCapabilities, |converter, out| {
            converter
                .handle_mut()
                .add_device(SEAT, None, DeviceType::Virtual, mask, out)
                .map(drop)
        });
    }
}

#[test]
fn texts_that_do_not_fit_are_refused() {
    let mut converter = with_device();
    refuse_request(&mut converter, Refusal::InvalidTextLength, utf8(b""));
    refuse_request(&mut converter, Refusal::InvalidTextLength, utf8(&[b'a'; 255]));
    accept(&mut converter, utf8(&[b'a'; 254]));
    let bad: [&[u8]; 6] = [
        b"\x80",
        b"\xc0\x80",
        b"\xed\xa0\x80",
        b"\xf4\x90\x80\x80",
        b"\xff",
        b"a\xe2\x82",
    ];
    for bad in bad {
        refuse_request(&mut converter, Refusal::BadUtf8, utf8(bad));
    }
    let long: &[u8] = &[b'a'; 255];
    for (text, refusal) in [(long, Refusal::NameLong), (b"\xff", Refusal::BadUtf8)] {
        refuse(&mut converter, 512, refusal, |converter, out| {
            converter
                .handle_mut()
                .add_seat(Some(text), DeviceCapability::Text, out)
                .map(drop)
        });
        refuse(&mut converter, 512, refusal, |converter, out| {
            let (kind, all) = (DeviceType::Virtual, DeviceCapabilities::ALL);
            converter
                .handle_mut()
                .add_device(SEAT, Some(text), kind, all, out)
                .map(drop)
        });
        refuse(&mut converter, 2048, refusal, |converter, out| {
            converter
                .handle_mut()
                .disconnected(DisconnectReason::Error, Some(text), out)
                .map(drop)
        });
    }
    for asked in [b"\x80".as_slice(), b"ei_text\xff"] {
        assert_eq!(converter.handle().has_interface(asked), Err(Refusal::BadUtf8));
        assert_eq!(converter.handle().interface_version(asked), Err(Refusal::BadUtf8));
    }
    assert_eq!(converter.handle().has_interface(&[b'a'; 1000]), Ok(false));
}

#[test]
fn handles_that_do_not_stand_are_refused() {
    let mut converter = with_device();
    let mut out = [0; 512];
    converter
        .handle_mut()
        .remove_device(DEVICE, &mut out)
        .expect("the device stands");
    // Removed, never given, of another kind.
    for device in [
        DEVICE,
        Device(0),
        Device(u64::MAX),
        Device(SEAT.id()),
        Device(interface(2).id),
    ] {
        let calls: [Call; 9] = [
            made(move |connection, out| connection.remove_device(device, out).map(drop)),
            made(move |connection, out| connection.resumed(device, out).map(drop)),
            made(move |connection, out| connection.paused(device, out).map(drop)),
            made(move |connection, out| connection.start_emulating(device, 1, out).map(drop)),
            made(move |connection, out| connection.stop_emulating(device, out).map(drop)),
            made(move |connection, out| connection.frame(device, 1, out).map(drop)),
            made(move |connection, _| connection.has_capability(device, DeviceCapability::Text).map(drop)),
            made(move |connection, _| connection.interface(device, DeviceCapability::Text).map(drop)),
            made(move |connection, out| connection.remove_seat(Seat(device.id() | 2), out).map(drop)),
        ];
        for call in calls {
            refuse(&mut converter, 512, Refusal::UnknownHandle, call);
        }
    }
    converter
        .handle_mut()
        .remove_seat(SEAT, &mut out)
        .expect("the seat stands");
    refuse(&mut converter, 512, Refusal::UnknownHandle, |converter, out| {
        converter.handle_mut().remove_seat(SEAT, out).map(drop)
    });
    refuse(&mut converter, 512, Refusal::UnknownHandle, |converter, out| {
        let (kind, all) = (DeviceType::Virtual, DeviceCapabilities::ALL);
        converter.handle_mut().add_device(SEAT, None, kind, all, out).map(drop)
    });
}

/// A client's request on an object that is not known is accepted and does nothing.
#[test]
fn requests_on_unknown_objects_do_nothing() {
    let mut converter = with_device();
    let before = memory_of(&mut converter);
    for id in [0, 5, u64::MAX, SEAT.id()] {
        let unknown = Object::new(id, 2);
        let (x, y, touchid) = (1.0, 2.0, 1);
        let state = (KeyState::Press, ButtonState::Press);
        accept(
            &mut converter,
            Request::Pointer(unknown, pointer::Request::MotionRelative { x, y }),
        );
        accept(
            &mut converter,
            Request::PointerAbsolute(unknown, pointer_absolute::Request::MotionAbsolute { x, y }),
        );
        accept(
            &mut converter,
            Request::Scroll(unknown, scroll::Request::Scroll { x, y }),
        );
        accept(
            &mut converter,
            Request::Button(
                unknown,
                button::Request::Button {
                    button: 1,
                    state: state.1,
                },
            ),
        );
        accept(
            &mut converter,
            Request::Keyboard(unknown, keyboard::Request::Key { key: 1, state: state.0 }),
        );
        accept(
            &mut converter,
            Request::Touchscreen(unknown, touchscreen::Request::Down { touchid, x, y }),
        );
        accept(
            &mut converter,
            Request::Text(unknown, text::Request::Utf8 { text: b"a" }),
        );
        accept(&mut converter, Request::Text(unknown, text::Request::Release));
        accept(&mut converter, Request::Device(Device(id), device::Request::Ready));
    }
    accept(
        &mut converter,
        Request::Seat(Seat(5), seat::Request::Bind { capabilities: u64::MAX }),
    );
    // Neither a device nor an interface is a seat.
    for id in [0, 5, u64::MAX, DEVICE.id(), interface(2).id] {
        accept(&mut converter, Request::Seat(Seat(id), seat::Request::Release));
    }
    // A keyboard is no pointer.
    let motion = pointer::Request::MotionRelative { x: 1.0, y: 1.0 };
    accept(&mut converter, Request::Pointer(interface(2), motion));
    assert!(memory_of(&mut converter) == before);
}

#[test]
fn touches_that_do_not_fit_are_refused() {
    let mut converter = with_device();
    accept(&mut converter, down(0));
    refuse_request(&mut converter, Refusal::DuplicatedTouchDown, down(0));
    for touchid in 1..16 {
        accept(&mut converter, down(touchid));
    }
    // Sixteen are held: one that is held is one too many as well.
    refuse_request(&mut converter, Refusal::TooManyTouches, down(0));
    refuse_request(&mut converter, Refusal::TooManyTouches, down(u32::MAX));
}

#[test]
fn full_tables_are_refused() {
    let mut converter = with_device();
    let mut out = [0; 512];
    for _ in 0..3 {
        converter
            .handle_mut()
            .add_seat(None, DeviceCapabilities::ALL, &mut out)
            .expect("four seats fit");
    }
    refuse(&mut converter, 512, Refusal::FullSeats, |converter, out| {
        converter
            .handle_mut()
            .add_seat(None, DeviceCapabilities::ALL, out)
            .map(drop)
    });
    let (kind, all) = (DeviceType::Virtual, DeviceCapabilities::ALL);
    for _ in 0..7 {
        converter
            .handle_mut()
            .add_device(SEAT, None, kind, all, &mut out)
            .expect("eight devices fit");
    }
    refuse(&mut converter, 512, Refusal::FullDevices, |converter, out| {
        converter.handle_mut().add_device(SEAT, None, kind, all, out).map(drop)
    });
}

#[test]
fn full_lists_are_refused_and_can_be_emptied() {
    let mut converter = with_device();
    for code in 0..64 {
        accept(&mut converter, key(code));
    }
    refuse_request(&mut converter, Refusal::FullPending, key(64));
    // 65 entries with their frame; three times fit into 256, and 61 more.
    accept(&mut converter, frame(1));
    for time in 2..=3 {
        for code in 0..64 {
            accept(&mut converter, key(code));
        }
        accept(&mut converter, frame(time));
    }
    for _ in 0..61 {
        accept(&mut converter, Request::Connection(connection::Request::Disconnect));
    }
    let leave = Request::Connection(connection::Request::Disconnect);
    refuse_request(&mut converter, Refusal::FullQueue, leave);
    accept(&mut converter, key(1));
    refuse_request(&mut converter, Refusal::FullQueue, frame(4));
    let mut buffer = [0; bozterrun::TEXT_LENGTH];
    for _ in 0..2 {
        assert!(matches!(
            converter.next_request(&mut buffer),
            Ok(Some(EisRequest::KeyboardKey(_)))
        ));
    }
    accept(&mut converter, frame(4));
    assert_eq!(converter.requests(&mut buffer).count(), 256);
}

#[test]
fn texts_are_delivered_as_they_came_and_no_more_than_32_stand() {
    let mut converter = with_device();
    // The first has 6 bytes, the last 254.
    let lengths = std::iter::once(6).chain(224..=254);
    let texts: Vec<Vec<u8>> = lengths.map(|length| vec![b'a' + (length % 26) as u8; length]).collect();
    for text in &texts {
        accept(&mut converter, utf8(text));
    }
    refuse_request(&mut converter, Refusal::FullTexts, utf8(b"one too many"));
    accept(&mut converter, frame(9));
    refuse_request(&mut converter, Refusal::FullTexts, utf8(b"one too many"));

    // A buffer that is shorter than the oldest text is refused, and the text is still the oldest.
    for length in 0..6 {
        refuse(&mut converter, length, Refusal::ShortOut, |converter, out| {
            converter.next_request(out).map(drop)
        });
    }
    let mut buffer = [0; bozterrun::TEXTS_LENGTH];
    let given = converter
        .requests(&mut buffer)
        .collect::<Result<Vec<_>, _>>()
        .expect("all texts fit");
    assert_eq!(given.len(), 33);
    for (given, text) in given.iter().zip(&texts) {
        assert_eq!(
            *given,
            EisRequest::TextUtf8(TextUtf8 {
                device: DEVICE,
                time: 9,
                text
            })
        );
    }
}

/// The longest text takes a buffer of `TEXT_LENGTH` bytes and no fewer.
#[test]
fn text_length_is_what_the_longest_text_takes() {
    let mut converter = with_device();
    let text = [b'a'; 254];
    accept(&mut converter, utf8(&text));
    accept(&mut converter, frame(9));
    let short = bozterrun::TEXT_LENGTH - 1;
    refuse(&mut converter, short, Refusal::ShortOut, |converter, out| {
        converter.next_request(out).map(drop)
    });
    let mut buffer = [0; bozterrun::TEXT_LENGTH];
    let given = converter.next_request(&mut buffer);
    assert_eq!(
        given,
        Ok(Some(EisRequest::TextUtf8(TextUtf8 {
            device: DEVICE,
            time: 9,
            text: &text
        })))
    );
}

/// The iterator puts texts one behind another, and ends where they fit no more; what is left can be taken later.
#[test]
fn the_iterator_ends_where_its_buffer_does() {
    let mut converter = with_device();
    for text in [b"first".as_slice(), b"second", b"third"] {
        accept(&mut converter, utf8(text));
    }
    accept(&mut converter, frame(9));
    let mut buffer = [0; 12];
    let text = |text| {
        Ok(EisRequest::TextUtf8(TextUtf8 {
            device: DEVICE,
            time: 9,
            text,
        }))
    };
    let given: Vec<_> = converter.requests(&mut buffer).collect();
    assert_eq!(given, [text(b"first"), text(b"second"), Err(Refusal::ShortOut)]);
    let mut buffer = [0; 5];
    let given: Vec<_> = converter.requests(&mut buffer).collect();
    assert_eq!(given[0], text(b"third"));
    assert_eq!(given.len(), 2);
}

/// What each call writes, and so the shortest buffer that it takes (docs/REFERENCE.md, Event records).
#[test]
fn buffers_that_are_too_short_are_refused_and_are_left() {
    let callback = Object::new(5, 1);
    let named = DeviceCapability::Keyboard | DeviceCapability::Text;
    let calls: Vec<(usize, Call)> = vec![
        (18, sent(Request::Connection(connection::Request::Sync { callback }))),
        // Seven interfaces, the device and the seat.
        (9 * 14, sent(Request::Seat(SEAT, seat::Request::Release))),
        (14, sent(Request::Keyboard(interface(2), keyboard::Request::Release))),
        (14, sent(Request::Text(interface(6), text::Request::Release))),
        // A seat, its name, two capabilities, done.
        (
            22 + 10 + 4 + 2 * 19 + 10,
            made(move |connection, out| connection.add_seat(Some(b"name"), named, out).map(drop)),
        ),
        // A device, its type, two interfaces, done.
        (
            22 + 14 + 2 * 23 + 10,
            made(move |connection, out| {
                connection
                    .add_device(SEAT, None, DeviceType::Virtual, named, out)
                    .map(drop)
            }),
        ),
        (14, made(|connection, out| connection.resumed(DEVICE, out).map(drop))),
        (14, made(|connection, out| connection.paused(DEVICE, out).map(drop))),
        (
            18,
            made(|connection, out| connection.start_emulating(DEVICE, 1, out).map(drop)),
        ),
        (
            14,
            made(|connection, out| connection.stop_emulating(DEVICE, out).map(drop)),
        ),
        (22, made(|connection, out| connection.frame(DEVICE, 1, out).map(drop))),
        // Seven interfaces and the device.
        (
            8 * 14,
            made(|connection, out| connection.remove_device(DEVICE, out).map(drop)),
        ),
        // The seat besides.
        (
            9 * 14,
            made(|connection, out| connection.remove_seat(SEAT, out).map(drop)),
        ),
        // Disconnected besides.
        (
            9 * 14 + 19 + 3,
            made(|connection, out| {
                connection
                    .disconnected(DisconnectReason::Error, Some(b"why"), out)
                    .map(drop)
            }),
        ),
    ];
    for (length, call) in calls {
        let mut converter = with_device();
        for short in [0, 1, length - 1] {
            refuse(&mut converter, short, Refusal::ShortOut, &call);
        }
        let mut out = vec![0xa5; length + 1];
        assert_eq!(call(&mut converter, &mut out[..length]), Ok(()));
        // The last byte that was lent is written to by each, the one behind it by none.
        assert_eq!(out[length], 0xa5);
        let mut rest = bozterrun::Events::new(&out[..length]);
        assert!(rest.by_ref().count() > 0);
        assert!(rest.is_empty());
    }
}

/// 1,225 bytes are enough: four seats, eight devices of seven interfaces, an explanation of 254 bytes.
#[test]
fn out_length_is_what_the_longest_call_takes() {
    let mut converter = with_device();
    let mut out = [0; bozterrun::OUT_LENGTH];
    let all = DeviceCapabilities::ALL;
    for _ in 0..3 {
        converter
            .handle_mut()
            .add_seat(None, all, &mut out)
            .expect("four seats fit");
    }
    for _ in 0..7 {
        converter
            .handle_mut()
            .add_device(SEAT, None, DeviceType::Virtual, all, &mut out)
            .expect("eight devices fit");
    }
    let (reason, why) = (DisconnectReason::Error, [b'a'; 254]);
    refuse(
        &mut converter,
        bozterrun::OUT_LENGTH - 1,
        Refusal::ShortOut,
        |converter, out| converter.handle_mut().disconnected(reason, Some(&why), out).map(drop),
    );
    let events = converter
        .handle_mut()
        .disconnected(reason, Some(&why), &mut out)
        .expect("it fits");
    assert_eq!(events.as_bytes().len(), bozterrun::OUT_LENGTH);
    let last = events.last().map(|event| event.kind);
    assert!(matches!(last, Some(EventKind::Disconnected { explanation: Some(said), .. }) if said == why));
}

/// A NaN is moved as it is: every bit comes out as it went in.
#[test]
fn the_bits_of_a_nan_come_out_as_they_went_in() {
    let mut converter = with_device();
    let mut buffer = [0; bozterrun::TEXT_LENGTH];
    // Quiet and signalling ones of both signs, with payloads, and numbers at the ends of their range.
    let patterns = [
        0x7fc00000, 0x7fc00001, 0x7f800001, 0xffc12345, 0xff812345, 0x7fffffff, 0xffffffff, 0x80000000, 1, 0x7f800000,
        0x3f800000,
    ];
    for (touchid, bits) in patterns.into_iter().enumerate() {
        let (touchid, other) = (touchid as u32, !bits);
        let (x, y) = (f32::from_bits(bits), f32::from_bits(other));
        accept(
            &mut converter,
            Request::Pointer(interface(0), pointer::Request::MotionRelative { x, y }),
        );
        let motion = pointer_absolute::Request::MotionAbsolute { x, y };
        accept(&mut converter, Request::PointerAbsolute(interface(1), motion));
        accept(
            &mut converter,
            Request::Scroll(interface(4), scroll::Request::Scroll { x, y }),
        );
        accept(
            &mut converter,
            Request::Touchscreen(interface(3), touchscreen::Request::Down { touchid, x, y }),
        );
        accept(
            &mut converter,
            Request::Touchscreen(interface(3), touchscreen::Request::Motion { touchid, x, y }),
        );
        accept(&mut converter, frame(1));
        let mut seen = 0;
        while let Some(request) = converter.next_request(&mut buffer).expect("nothing is refused") {
            let (x, y) = match request {
                EisRequest::PointerMotion(given) => (given.dx, given.dy),
                EisRequest::PointerMotionAbsolute(given) => (given.dx_absolute, given.dy_absolute),
                EisRequest::ScrollDelta(given) => (given.dx, given.dy),
                EisRequest::TouchDown(given) => (given.x, given.y),
                EisRequest::TouchMotion(given) => (given.x, given.y),
                EisRequest::Frame(_) => continue,
                other => panic!("{other:?} was not sent"),
            };
            assert_eq!((x.to_bits(), y.to_bits()), (bits, other), "{request:?}");
            seen += 1;
        }
        assert_eq!(seen, 5);
        let up = touchscreen::Request::Up { touchid };
        accept(&mut converter, Request::Touchscreen(interface(3), up));
        accept(&mut converter, frame(2));
        assert_eq!(converter.requests(&mut buffer).count(), 2);
    }
}

/// Numbers without a pattern that are the same at each run.
struct Random(u64);

impl Random {
    fn next(&mut self) -> u64 {
        self.0 = self.0.wrapping_add(0x9e3779b97f4a7c15);
        let mixed = (self.0 ^ self.0 >> 30).wrapping_mul(0xbf58476d1ce4e5b9);
        mixed ^ mixed >> 27
    }
}

/// Memory whose counts are above their limits is no session's: every call says so and touches nothing.
#[test]
fn memory_that_is_no_sessions_is_refused_by_every_call() {
    for call in every_call() {
        let mut converter = with_device();
        converter.handle_mut().memory().control.fill(u64::MAX);
        refuse(&mut converter, 2048, Refusal::BadState, call);
    }
}

/// Whatever stands in the memory, a call answers: with 21 where the counts are above their limits, else with what the
/// numbers mean. Nothing panics, and nothing is written behind the memory (valgrind and the like see that).
#[test]
fn memory_that_was_scribbled_over_has_some_meaning() {
    let mut random = Random(1);
    let (mut refused, mut accepted) = (0, 0);
    for round in 0..400 {
        let mut converter = with_device();
        accept(&mut converter, key(1));
        accept(&mut converter, utf8(b"a text"));
        accept(&mut converter, frame(1));
        let memory = converter.handle_mut().memory();
        for _ in 0..1 + round % 7 {
            let (word, small) = (random.next(), random.next() % 300);
            let value = if word % 2 == 0 { small } else { random.next() };
            let place = random.next() as usize;
            memory.control[place % 224] = value;
            memory.words[place % 3840] = random.next() % 40;
            memory.reals[place % 1536] = f32::from_bits(random.next() as u32);
            memory.texts[place % 8192] = random.next() as u8;
        }
        for call in every_call() {
            match call(&mut converter, &mut [0; 2048]) {
                Ok(()) => accepted += 1,
                Err(Refusal::BadState) => refused += 1,
                Err(_) => {}
            }
        }
    }
    assert!(refused > 0 && accepted > 0, "{refused} refused, {accepted} accepted");
}

/// Rows of the queue that nobody sent mean some request, its text what lies in its slot.
#[test]
fn rows_that_nobody_sent_are_some_request() {
    let mut random = Random(2);
    let mut buffer = [0; 255];
    for kind in (0..30).chain([u64::MAX, 1 << 40]) {
        let mut converter = with_device();
        for _ in 0..20 {
            accept(&mut converter, Request::Connection(connection::Request::Disconnect));
        }
        let memory = converter.handle_mut().memory();
        for (place, word) in memory.words.iter_mut().enumerate() {
            *word = if place % 5 == 0 { kind } else { random.next() };
        }
        memory.texts.fill(0xff);
        for _ in 0..20 {
            let request = converter.next_request(&mut buffer).expect("a row means some request");
            match (kind, request) {
                (0 | 22.., request) => assert_eq!(request, Some(EisRequest::Disconnect)),
                (21, Some(EisRequest::TextUtf8(text))) => {
                    assert!(text.text.iter().all(|byte| *byte == 0xff));
                    assert_eq!(text.to_str().is_ok(), text.text.is_empty());
                }
                (21, other) => panic!("{other:?} is no text"),
                (_, request) => assert!(request.is_some_and(|request| request != EisRequest::Disconnect)),
            }
        }
        assert_eq!(converter.next_request(&mut buffer), Ok(None));
    }
}

/// A handshake whose name is longer than its memory is none.
#[test]
fn a_handshake_that_was_scribbled_over_is_refused() {
    let context_type = ContextType::Sender;
    let requests = [
        Request::Handshake(handshake::Request::HandshakeVersion { version: 1 }),
        Request::Handshake(handshake::Request::Finish),
        Request::Handshake(handshake::Request::ContextType { context_type }),
        Request::Handshake(handshake::Request::Name { name: b"a" }),
        Request::Handshake(handshake::Request::InterfaceVersion {
            name: b"ei_seat",
            version: 1,
        }),
        Request::Connection(connection::Request::Disconnect),
    ];
    for request in requests {
        let mut out = [0; 256];
        let (mut handshaker, _) = EisHandshaker::new(7, &mut out).expect("it fits");
        // The first word is the name's length.
        handshaker.memory().0[0] = 255;
        assert_eq!(
            handshaker.handle_request(request, &mut out).err(),
            Some(Refusal::BadState),
            "{request:?}"
        );
        // Any other words mean some handshake.
        let (words, name) = handshaker.memory();
        words.fill(u64::MAX);
        words[0] = 254;
        name.fill(0xff);
        let _ = handshaker.handle_request(request, &mut out);
    }
    for bytes in [vec![], message(0, 0, &[1]), message(0, 1, &[]), message(9, 1, &[])] {
        let mut out = [0; 256];
        let (mut handshaker, _) = EisHandshaker::new(7, &mut out).expect("it fits");
        handshaker.memory().0[0] = 255;
        let refused = handshaker.pending_request(&bytes, &mut out).map(drop);
        assert_eq!(refused.err(), Some(Refusal::BadState));
        let (words, name) = handshaker.memory();
        words.fill(u64::MAX);
        words[0] = 254;
        name.fill(0xff);
        let _ = handshaker.pending_request(&bytes, &mut out);
    }
}

#[test]
fn handshakes_that_break_a_rule_are_refused_and_go_on() {
    let mut out = [0xa5; 256];
    assert_eq!(EisHandshaker::new(7, &mut out[..13]).err(), Some(Refusal::ShortOut));
    assert_eq!(out, [0xa5; 256]);
    let (mut handshaker, _) = EisHandshaker::new(7, &mut out).expect("14 bytes are enough");
    let mut shake = |request, refusal: Option<Refusal>| {
        let before = handshaker.memory();
        let before = (before.0.to_vec(), before.1.to_vec());
        let answer = handshaker
            .handle_request(request, &mut [])
            .map(|answer| answer.0.is_some());
        assert_eq!(answer.err(), refusal, "{request:?}");
        let after = handshaker.memory();
        assert_eq!(
            before == (after.0.to_vec(), after.1.to_vec()),
            refusal.is_some(),
            "{request:?}"
        );
    };
    let name = |name| Request::Handshake(handshake::Request::Name { name });
    let context = |context_type| Request::Handshake(handshake::Request::ContextType { context_type });
    let known = |name| Request::Handshake(handshake::Request::InterfaceVersion { name, version: 1 });
    shake(name(b"\xff"), Some(Refusal::BadUtf8));
    shake(name(&[b'a'; 255]), Some(Refusal::NameLong));
    shake(name("Zähler".as_bytes()), None);
    shake(name(b"a"), Some(Refusal::DuplicateEvent));
    shake(context(ContextType::Sender), None);
    shake(context(ContextType::Sender), Some(Refusal::DuplicateEvent));
    shake(known(b"\x80"), Some(Refusal::BadUtf8));
    shake(
        Request::Connection(connection::Request::Disconnect),
        Some(Refusal::NonHandshakeEvent),
    );
    shake(utf8(b"\x80"), Some(Refusal::BadUtf8));
    shake(known(b"ei_connection"), None);
    shake(known(b"ei_text"), None);
    let finish = Request::Handshake(handshake::Request::Finish);
    shake(finish, Some(Refusal::ShortOut));

    // Refusal 9 alone writes: a record of 15 bytes for each interface.
    let refused = handshaker.handle_request(finish, &mut out).err();
    assert_eq!(refused, Some(Refusal::MissingInterface { count: 30 }));
    let kinds: Vec<_> = bozterrun::Events::new(&out[..30]).collect();
    let version = |interface| Event {
        object: 0,
        kind: EventKind::InterfaceVersion { interface, version: 1 },
    };
    assert_eq!(kinds, [version(Interface::Connection), version(Interface::Text)]);

    for interface in [b"ei_callback".as_slice(), b"ei_pingpong"] {
        handshaker
            .handle_request(known(interface), &mut [])
            .expect("the handshake goes on");
    }
    let (response, events) = handshaker.handle_request(finish, &mut out).expect("nothing is missing");
    let connection = Object::new(0xff00000000000000, 1);
    let last = events.last().map(|event| event.kind);
    assert_eq!(last, Some(EventKind::Connection { connection, serial: 7 }));
    let response = response.expect("the handshake is finished");
    assert_eq!(response.name.as_deref(), Some("Zähler"));
    assert_eq!(response.context_type, ContextType::Sender);
    let mut interfaces: Vec<_> = response.negotiated_interfaces.clone().into_iter().collect();
    interfaces.sort_unstable();
    let wanted = [
        ("ei_callback", 1),
        ("ei_connection", 1),
        ("ei_pingpong", 1),
        ("ei_text", 1),
    ];
    assert_eq!(interfaces, wanted);
    let converter = EisRequestConverter::new(response);
    assert_eq!(converter.handle().name(), Some("Zähler"));
    assert_eq!(converter.handle().context_type(), ContextType::Sender);
}
