//! Whole reads. What each is to answer was worked out by hand from the scope.

mod begin;

use begin::begin;
use bozterrun::eis::{
    button, connection, device, handshake, keyboard, pingpong, pointer, pointer_absolute, scroll, seat, text,
    touchscreen, Object, Request,
};
use bozterrun::request::{EisRequest, Frame, KeyboardKey};
use bozterrun::{
    ButtonState, ContextType, Device, DeviceCapabilities, DeviceType, EisRequestConverter, Interface, KeyState, Read,
    Refusal, Seat,
};

/// Ids as `begin` leaves them: the first seat and the first device, with every interface.
const SEAT: Seat = Seat(0xff00000000000001);
const DEVICE: Device = Device(0xff00000000000002);

/// The interfaces of that device.
const POINTER: Object = Object::new(0xff00000000000003, 1);
const POINTER_ABSOLUTE: Object = Object::new(0xff00000000000004, 1);
const KEYBOARD: Object = Object::new(0xff00000000000005, 1);
const TOUCHSCREEN: Object = Object::new(0xff00000000000006, 2);
const SCROLL: Object = Object::new(0xff00000000000007, 1);
const BUTTON: Object = Object::new(0xff00000000000008, 1);
const TEXT: Object = Object::new(0xff00000000000009, 1);

/// A session with a seat and a device that have every capability. The last serial is 7.
fn with_device() -> EisRequestConverter {
    let mut converter = begin(7);
    let (mut out, all) = ([0; bozterrun::OUT_LENGTH], DeviceCapabilities::ALL);
    let connection = converter.handle_mut();
    let (seat, _) = connection.add_seat(None, all, &mut out).expect("a seat fits");
    let (device, _) = connection
        .add_device(seat, None, DeviceType::Virtual, all, &mut out)
        .expect("a device fits");
    assert_eq!((seat, device), (SEAT, DEVICE));
    converter
}

fn key(key: u32, state: KeyState) -> Request<'static> {
    Request::Keyboard(KEYBOARD, keyboard::Request::Key { key, state })
}

fn press(code: u32) -> Request<'static> {
    key(code, KeyState::Press)
}

fn frame(timestamp: u64) -> Request<'static> {
    let last_serial = 7;
    Request::Device(DEVICE, device::Request::Frame { last_serial, timestamp })
}

fn bind(capabilities: u64) -> Request<'static> {
    Request::Seat(SEAT, seat::Request::Bind { capabilities })
}

fn sync(id: u64) -> Request<'static> {
    let callback = Object::new(id, 1);
    Request::Connection(connection::Request::Sync { callback })
}

fn utf8(text: &[u8]) -> Request<'_> {
    Request::Text(TEXT, text::Request::Utf8 { text })
}

fn down(touchid: u32) -> Request<'static> {
    let (x, y) = (1.0, 2.0);
    Request::Touchscreen(TOUCHSCREEN, touchscreen::Request::Down { touchid, x, y })
}

/// Hands a read over; how many were accepted, with what the next was refused.
fn handed(converter: &mut EisRequestConverter, read: &Read) -> (usize, Option<Refusal>) {
    let mut out = [0; 4096];
    let handled = converter.handle_requests(read, 3, &mut out);
    assert!(handled.events.is_empty());
    (handled.accepted, handled.refusal)
}

/// Hands requests over in one read.
fn gathered(converter: &mut EisRequestConverter, requests: &[Request]) -> (usize, Option<Refusal>) {
    handed(converter, &requests.iter().copied().collect())
}

/// A read of one request with a part of these texts.
fn part(texts: &[u8], request: Request, start: usize, length: usize) -> Read {
    let mut read = Read::with_texts(texts.to_vec());
    read.push_part(request, start, length);
    read
}

/// The texts that are delivered once the device's frame is over.
fn texts(converter: &mut EisRequestConverter) -> Vec<Vec<u8>> {
    converter
        .handle_request(frame(500), 0, &mut [])
        .expect("the queue has room");
    let mut buffer = [0; bozterrun::TEXTS_LENGTH];
    let given = converter.requests(&mut buffer).map(|given| given.expect("all fit"));
    given
        .filter_map(|given| match given {
            EisRequest::TextUtf8(text) => Some(text.text.to_vec()),
            _ => None,
        })
        .collect()
}

/// What is queued.
fn delivered(converter: &mut EisRequestConverter) -> Vec<EisRequest<'static>> {
    let mut buffer = [0; bozterrun::TEXTS_LENGTH];
    converter
        .requests(&mut buffer)
        .map(|given| match given.expect("all fit") {
            EisRequest::KeyboardKey(key) => EisRequest::KeyboardKey(key),
            EisRequest::Frame(frame) => EisRequest::Frame(frame),
            other => panic!("{other:?} is neither a key nor a frame"),
        })
        .collect()
}

fn given_key(code: u32, state: KeyState, time: u64) -> EisRequest<'static> {
    let (device, key) = (DEVICE, code);
    EisRequest::KeyboardKey(KeyboardKey {
        device,
        time,
        key,
        state,
    })
}

fn given_frame(time: u64) -> EisRequest<'static> {
    let (device, last_serial) = (DEVICE, 7);
    EisRequest::Frame(Frame {
        device,
        last_serial,
        time,
    })
}

/// All bytes of a session's memory.
fn memory_of(converter: &mut EisRequestConverter) -> Vec<u8> {
    let memory = converter.handle_mut().memory();
    let words = memory.control.iter().chain(&memory.words);
    let reals = memory.reals.iter().flat_map(|real| real.to_bits().to_ne_bytes());
    words
        .flat_map(|word| word.to_ne_bytes())
        .chain(reals)
        .chain(memory.texts)
        .collect()
}

#[test]
fn an_empty_read_meets_bad_state_alone() {
    let mut converter = with_device();
    assert_eq!(handed(&mut converter, &Read::new()), (0, None));
    assert_eq!(handed(&mut converter, &Read::with_texts(vec![0x80])), (0, None));
    // Five seats are one too many: no call leaves the session so.
    converter.handle_mut().memory().control[3] = 5;
    assert_eq!(handed(&mut converter, &Read::new()), (0, Some(Refusal::BadState)));
    // It comes before a bad part.
    let past = part(b"", utf8(b""), 0, 1);
    assert_eq!(handed(&mut converter, &past), (0, Some(Refusal::BadState)));
}

#[test]
fn keys_and_their_frame_are_delivered() {
    let (press, release) = (KeyState::Press, KeyState::Released);
    let mut converter = with_device();
    let answer = gathered(&mut converter, &[key(30, press), key(30, release), frame(500)]);
    assert_eq!(answer, (3, None));
    let wanted = [given_key(30, press, 500), given_key(30, release, 500), given_frame(500)];
    assert_eq!(delivered(&mut converter), wanted);
}

#[test]
fn a_refusal_undoes_nothing_and_nothing_behind_it_is_tried() {
    let mut converter = with_device();
    let answer = gathered(&mut converter, &[press(30), bind(128), press(31)]);
    assert_eq!(answer, (1, Some(Refusal::InvalidCapabilities)));
    assert_eq!(gathered(&mut converter, &[frame(9)]), (1, None));
    let wanted = [given_key(30, KeyState::Press, 9), given_frame(9)];
    assert_eq!(delivered(&mut converter), wanted);
    // Not even the part of the second is looked at.
    let mut read = Read::with_texts(vec![0x80]);
    read.push_part(bind(128), 0, 0);
    read.push_part(utf8(b""), 0, 9);
    let mut converter = with_device();
    assert_eq!(handed(&mut converter, &read), (0, Some(Refusal::InvalidCapabilities)));
}

#[test]
fn each_request_has_what_is_left_of_out() {
    const FIRST: [u8; 18] = [0x78, 0x12, 0, 0, 0, 0, 0, 0, 0, 5, 0, 0, 0, 0, 0, 0, 0, 0];
    const SECOND: [u8; 18] = [0x78, 0x12, 0, 0, 0, 0, 0, 0, 0, 6, 0, 0, 0, 0, 0, 0, 0, 0];
    let read: Read = [sync(5), sync(6)].into_iter().collect();
    for length in [18, 35] {
        let mut out = [0xaa; 36];
        let handled = with_device().handle_requests(&read, 0, &mut out[..length]);
        assert_eq!((handled.accepted, handled.refusal), (1, Some(Refusal::ShortOut)));
        assert_eq!(handled.events.as_bytes(), FIRST);
        assert_eq!(out[18..], [0xaa; 18]);
    }
    let mut out = [0xaa; 40];
    let handled = with_device().handle_requests(&read, 0, &mut out);
    assert_eq!((handled.accepted, handled.refusal), (2, None));
    assert_eq!(handled.events.as_bytes(), [FIRST, SECOND].concat());
    assert_eq!(out[36..], [0xaa; 4]);
}

#[test]
fn parts_may_overlap() {
    let mut read = Read::with_texts(b"abcd".to_vec());
    for (start, length) in [(0, 2), (1, 3), (0, 4)] {
        read.push_part(utf8(b""), start, length);
    }
    let mut converter = with_device();
    assert_eq!(handed(&mut converter, &read), (3, None));
    assert_eq!(texts(&mut converter), [&b"ab"[..], b"bcd", b"abcd"]);
}

#[test]
fn a_part_past_the_texts_is_refused() {
    let last = usize::MAX;
    for (start, length, refusal) in [
        (3, 2, Refusal::BadPart),
        (4, 0, Refusal::InvalidTextLength),
        (5, 0, Refusal::BadPart),
        (last, 2, Refusal::BadPart),
        (2, last, Refusal::BadPart),
        (last, last, Refusal::BadPart),
    ] {
        let mut converter = with_device();
        let before = memory_of(&mut converter);
        let read = part(b"abcd", utf8(b""), start, length);
        assert_eq!(handed(&mut converter, &read), (0, Some(refusal)), "{start} {length}");
        assert_eq!(memory_of(&mut converter), before);
    }
    // The three requests with text, whatever the object.
    let elsewhere = Request::Text(KEYBOARD, text::Request::Utf8 { text: b"" });
    let name = Request::Handshake(handshake::Request::Name { name: b"" });
    let interface = Request::Handshake(handshake::Request::InterfaceVersion { name: b"", version: 1 });
    for request in [elsewhere, name, interface] {
        let read = part(b"", request, 0, 1);
        assert_eq!(handed(&mut with_device(), &read), (0, Some(Refusal::BadPart)));
    }
    assert_eq!(
        handed(&mut with_device(), &part(&[0x80], elsewhere, 0, 1)),
        (0, Some(Refusal::BadUtf8))
    );
    assert_eq!(handed(&mut with_device(), &part(b"a", elsewhere, 0, 1)), (1, None));
    // Of any other the part does not count.
    assert_eq!(handed(&mut with_device(), &part(b"", press(30), 9, 9)), (1, None));
}

#[test]
fn limits_are_met_where_they_are() {
    let keys: Vec<_> = (0..65).map(press).collect();
    let mut converter = with_device();
    assert_eq!(gathered(&mut converter, &keys), (64, Some(Refusal::FullPending)));
    assert_eq!(gathered(&mut converter, &[press(30)]), (0, Some(Refusal::FullPending)));
    assert_eq!(gathered(&mut converter, &[frame(5)]), (1, None));
    assert_eq!(delivered(&mut converter).len(), 65);

    let mut converter = with_device();
    assert_eq!(gathered(&mut converter, &[utf8(b"a"); 31]), (31, None));
    assert_eq!(
        gathered(&mut converter, &[utf8(b"b"), utf8(b"c")]),
        (1, Some(Refusal::FullTexts))
    );
}

#[test]
fn a_refused_version_is_told() {
    let old = Object::new(TOUCHSCREEN.id, 1);
    let cancel = Request::Touchscreen(old, touchscreen::Request::Cancel { touchid: 1 });
    let (interface, version) = (Interface::Touchscreen, 1);
    let refusal = Refusal::InvalidInterfaceVersion { interface, version };
    assert_eq!(gathered(&mut with_device(), &[down(1), cancel]), (1, Some(refusal)));
}

#[test]
fn ignored_requests_count_and_handshakes_are_refused() {
    let name = Request::Handshake(handshake::Request::Name { name: b"a" });
    let answer = gathered(&mut with_device(), &[name]);
    assert_eq!(answer, (0, Some(Refusal::UnexpectedHandshakeEvent)));

    let release = Request::Keyboard(KEYBOARD, keyboard::Request::Release);
    let read: Read = [press(30), release, press(31)].into_iter().collect();
    let (mut converter, mut out) = (with_device(), [0; 64]);
    let handled = converter.handle_requests(&read, 0, &mut out);
    assert_eq!((handled.accepted, handled.refusal), (3, None));
    let destroyed = [0x28, 0x0e, 0xff, 0, 0, 0, 0, 0, 0, 5, 0, 0, 0, 8];
    assert_eq!(handled.events.as_bytes(), destroyed);
}

/// Each of the 36 requests, with payloads of their own.
fn every_request() -> [Request<'static>; 36] {
    let (x, y) = (f32::from_bits(0x40490fdb), f32::from_bits(0xc2280000));
    let (name, text): (&[u8], &[u8]) = (b"ei_text", "zwölf".as_bytes());
    let context_type = ContextType::Sender;
    [
        Request::Handshake(handshake::Request::HandshakeVersion { version: 1 }),
        Request::Handshake(handshake::Request::Finish),
        Request::Handshake(handshake::Request::ContextType { context_type }),
        Request::Handshake(handshake::Request::Name { name }),
        Request::Handshake(handshake::Request::InterfaceVersion { name, version: 1 }),
        sync(0x1122334455667788),
        Request::Connection(connection::Request::Disconnect),
        Request::Pingpong(pingpong::Request::Done { callback_data: 3 }),
        Request::Seat(SEAT, seat::Request::Release),
        bind(0x55),
        Request::Seat(SEAT, seat::Request::RequestDevice { capabilities: 0x2a }),
        Request::Device(DEVICE, device::Request::Release),
        Request::Device(
            DEVICE,
            device::Request::StartEmulating {
                last_serial: 0xfffffffe,
                sequence: 0xfffffffd,
            },
        ),
        Request::Device(
            DEVICE,
            device::Request::StopEmulating {
                last_serial: 0xfffffffc,
            },
        ),
        frame(0xfedcba9876543210),
        Request::Device(DEVICE, device::Request::Ready),
        Request::Pointer(POINTER, pointer::Request::Release),
        Request::Pointer(POINTER, pointer::Request::MotionRelative { x, y }),
        Request::PointerAbsolute(POINTER_ABSOLUTE, pointer_absolute::Request::Release),
        Request::PointerAbsolute(POINTER_ABSOLUTE, pointer_absolute::Request::MotionAbsolute { x, y }),
        Request::Scroll(SCROLL, scroll::Request::Release),
        Request::Scroll(SCROLL, scroll::Request::Scroll { x, y }),
        Request::Scroll(SCROLL, scroll::Request::ScrollDiscrete { x: -120, y: i32::MIN }),
        Request::Scroll(
            SCROLL,
            scroll::Request::ScrollStop {
                x: 1,
                y: 0,
                is_cancel: 1,
            },
        ),
        Request::Button(BUTTON, button::Request::Release),
        Request::Button(
            BUTTON,
            button::Request::Button {
                button: 272,
                state: ButtonState::Press,
            },
        ),
        Request::Keyboard(KEYBOARD, keyboard::Request::Release),
        press(0xffffffff),
        Request::Touchscreen(TOUCHSCREEN, touchscreen::Request::Release),
        down(3),
        Request::Touchscreen(TOUCHSCREEN, touchscreen::Request::Motion { touchid: 2, x, y }),
        Request::Touchscreen(TOUCHSCREEN, touchscreen::Request::Up { touchid: 2 }),
        Request::Touchscreen(TOUCHSCREEN, touchscreen::Request::Cancel { touchid: 2 }),
        Request::Text(TEXT, text::Request::Release),
        Request::Text(
            TEXT,
            text::Request::Keysym {
                keysym: 0xff0d,
                state: KeyState::Released,
            },
        ),
        utf8(text),
    ]
}

/// A session in which every request of `every_request` that is not a handshake's does something.
fn busy() -> EisRequestConverter {
    let mut converter = with_device();
    for request in [down(2), press(30)] {
        converter
            .handle_request(request, 0, &mut [])
            .expect("the device takes it");
    }
    converter
}

#[test]
fn each_request_does_in_a_read_what_it_does_alone() {
    let mut written = 0;
    for request in every_request() {
        let (mut alone, mut gathered) = (busy(), busy());
        let (mut out, mut out_of_read) = ([0xaa; 256], [0xaa; 256]);
        let answer = alone.handle_request(request, 77, &mut out);
        let read: Read = [request].into_iter().collect();
        let handled = gathered.handle_requests(&read, 77, &mut out_of_read);
        match &answer {
            Ok(events) => {
                assert_eq!((handled.accepted, handled.refusal), (1, None), "{request:?}");
                assert_eq!(handled.events, *events, "{request:?}");
                written += usize::from(!events.is_empty());
            }
            Err(refusal) => assert_eq!((handled.accepted, handled.refusal), (0, Some(*refusal)), "{request:?}"),
        }
        assert_eq!(out, out_of_read, "{request:?}");
        assert_eq!(memory_of(&mut alone), memory_of(&mut gathered), "{request:?}");
    }
    // Sync, the Release of a seat and those of seven interfaces write.
    assert_eq!(written, 9);
}

#[test]
fn a_read_does_what_its_requests_do_one_after_another() {
    // Those that go on; a seat's Release comes last.
    let mut requests: Vec<_> = every_request().into_iter().skip(5).collect();
    let release = requests.remove(3);
    assert_eq!(release, Request::Seat(SEAT, seat::Request::Release));
    requests.push(release);
    let (mut alone, mut gathered) = (busy(), busy());
    let mut bytes = Vec::new();
    for request in &requests {
        let mut out = [0; bozterrun::OUT_LENGTH];
        let events = alone.handle_request(*request, 77, &mut out).expect("it is accepted");
        bytes.extend_from_slice(events.as_bytes());
    }
    let read: Read = requests.iter().copied().collect();
    let mut out = [0; 2 * bozterrun::OUT_LENGTH];
    let handled = gathered.handle_requests(&read, 77, &mut out);
    assert_eq!((handled.accepted, handled.refusal), (31, None));
    assert_eq!(handled.events.as_bytes(), bytes);
    assert_eq!(memory_of(&mut alone), memory_of(&mut gathered));
}

#[test]
fn a_read_is_emptied_and_gone_on_with() {
    let mut read = Read::with_capacity(4, 16);
    assert!(read.is_empty());
    read.extend([utf8(b"one"), bind(128), utf8(b"two")]);
    assert_eq!(read.len(), 3);
    let mut converter = with_device();
    assert_eq!(handed(&mut converter, &read), (1, Some(Refusal::InvalidCapabilities)));
    // What is behind the refused one has its own text still.
    read.discard(2);
    assert_eq!(handed(&mut converter, &read), (1, None));
    assert_eq!(texts(&mut converter), [b"one", b"two"]);
    read.discard(9);
    assert!(read.is_empty());
    read.clear();
    assert_eq!(read, Read::new());
    read.push(utf8(b"three"));
    assert_eq!(handed(&mut converter, &read), (1, None));
    assert_eq!(texts(&mut converter), [b"three"]);
}
