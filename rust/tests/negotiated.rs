//! A client that has not named every interface: a seat and its devices have the negotiated capabilities alone. What is
//! answered was worked out by hand from the scope; tests/negotiated of the repository has more.

use bozterrun::eis::{handshake, seat, Object, Request};
use bozterrun::DeviceCapability::{Keyboard, Touch};
use bozterrun::{
    Device, DeviceCapabilities, DeviceType, EisHandshaker, EisRequest, EisRequestConverter, EventKind, Interface,
    Refusal, Seat, OUT_LENGTH,
};

/// A session in which these are negotiated, and what each session needs.
fn begin(named: &[(Interface, u32)]) -> EisRequestConverter {
    let mut out = [0; OUT_LENGTH];
    let (mut handshaker, _) = EisHandshaker::new(7, &mut out).expect("it is long enough");
    let needed = [Interface::Connection, Interface::Callback, Interface::Pingpong].map(|interface| (interface, 1));
    for (interface, version) in needed.iter().chain(named) {
        let (name, version) = (interface.name().as_bytes(), *version);
        let known = Request::Handshake(handshake::Request::InterfaceVersion { name, version });
        handshaker.handle_request(known, &mut out).expect("it is accepted");
    }
    let finish = Request::Handshake(handshake::Request::Finish);
    let (response, _) = handshaker.handle_request(finish, &mut out).expect("it is accepted");
    EisRequestConverter::new(response.expect("a Finish ends the handshake"))
}

#[test]
fn what_was_not_negotiated_is_not_there() -> Result<(), Refusal> {
    let mut converter = begin(&[(Interface::Keyboard, 1)]);
    let (mut out, mut buffer) = ([0; OUT_LENGTH], [0; 254]);
    let (seat, events) = converter.handle_mut().add_seat(None, Keyboard | Touch, &mut out)?;
    assert_eq!(seat, Seat(0xff00000000000001));
    let kinds: Vec<EventKind> = events.map(|event| event.kind).collect();
    let announced = EventKind::Capability {
        mask: Keyboard,
        interface: Interface::Keyboard,
    };
    assert_eq!(
        kinds,
        [EventKind::Seat { seat, version: 1 }, announced, EventKind::Done]
    );
    assert_eq!(converter.handle().interface_version(b"ei_seat")?, None);

    let bind = |capabilities| Request::Seat(seat, seat::Request::Bind { capabilities });
    let wants = |capabilities| Request::Seat(seat, seat::Request::RequestDevice { capabilities });
    for request in [bind(8), bind(12), wants(12), wants(8)] {
        let answer = converter.handle_request(request, 0, &mut out).map(drop);
        assert_eq!(answer, Err(Refusal::InvalidCapabilities), "{request:?}");
    }
    converter.handle_request(bind(4), 0, &mut out)?;
    let given = converter.next_request(&mut buffer)?;
    assert!(matches!(given, Some(EisRequest::Bind(bind)) if bind.capabilities == Keyboard.into()));
    assert!(converter.next_request(&mut buffer)?.is_none());

    let all = DeviceCapabilities::ALL;
    let connection = converter.handle_mut();
    let short = connection
        .add_device(seat, None, DeviceType::Virtual, all, &mut out[..68])
        .map(drop);
    assert_eq!(short, Err(Refusal::ShortOut));
    let (device, events) = connection.add_device(seat, None, DeviceType::Virtual, all, &mut out[..69])?;
    assert_eq!((device, events.as_bytes().len()), (Device(0xff00000000000002), 69));
    assert_eq!(
        connection.interface(device, Keyboard)?,
        Some(Object::new(0xff00000000000003, 1))
    );
    assert_eq!(connection.interface(device, Touch)?, None);
    assert!(!connection.has_capability(device, Touch)?);
    let (next, _) = connection.add_device(seat, None, DeviceType::Virtual, Touch, &mut out)?;
    assert_eq!(next, Device(0xff00000000000004));
    Ok(())
}

#[test]
fn version_0_is_negotiated() -> Result<(), Refusal> {
    let named = [Interface::Seat, Interface::Device, Interface::Keyboard];
    let mut converter = begin(&named.map(|interface| (interface, 0)));
    let mut out = [0; OUT_LENGTH];
    let connection = converter.handle_mut();
    let (seat, mut events) = connection.add_seat(None, Keyboard | Touch, &mut out)?;
    let first = events.next().map(|event| event.kind);
    assert_eq!(first, Some(EventKind::Seat { seat, version: 0 }));
    let (device, mut events) = connection.add_device(seat, None, DeviceType::Virtual, Keyboard | Touch, &mut out)?;
    let first = events.next().map(|event| event.kind);
    assert_eq!(first, Some(EventKind::Device { device, version: 0 }));
    assert_eq!(
        connection.interface(device, Keyboard)?,
        Some(Object::new(0xff00000000000003, 0))
    );
    assert_eq!(connection.interface(device, Touch)?, None);
    Ok(())
}
