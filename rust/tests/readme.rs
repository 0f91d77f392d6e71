//! The station of the README does what it says.

include!("serve/mod.rs");

use bozterrun::eis::{device, handshake, seat};
use bozterrun::{Device, Seat};

/// The README has the very lines that are run here.
#[test]
fn the_readme_has_these_lines() {
    let lines = include_str!("serve/mod.rs");
    assert!(include_str!("../README.md").contains(&format!("```rust\n{lines}```\n")));
}

/// A client that shakes hands, binds and is ready; what it is sent is counted by docs/REFERENCE.md, Event records.
#[test]
fn the_station_of_the_readme_serves_a_client() {
    let names: [&[u8]; 5] = [
        b"ei_connection",
        b"ei_callback",
        b"ei_pingpong",
        b"ei_keyboard",
        b"ei_text",
    ];
    let known = |name| Request::Handshake(handshake::Request::InterfaceVersion { name, version: 1 });
    let mut requests = names.map(known).to_vec();
    requests.push(Request::Handshake(handshake::Request::Finish));
    let (seat, device) = (Seat(0xff00000000000001), Device(0xff00000000000002));
    requests.push(Request::Seat(seat, seat::Request::Bind { capabilities: 68 }));
    requests.push(Request::Device(device, device::Request::Ready));
    let mut requests = requests.into_iter();
    let mut sent = Vec::new();
    let send = |events: Events| sent.push(events.as_bytes().len());
    serve(|| requests.next(), send, || 5).expect("nothing is refused");
    sent.retain(|length| *length > 0);
    // The versions of the interfaces and the connection; the seat, its name, two capabilities, done; the device, its
    // type, two interfaces, done; resumed.
    assert_eq!(
        sent,
        [14, 5 * 15 + 26, 22 + 19 + 2 * 19 + 10, 22 + 14 + 2 * 23 + 10, 14]
    );
}
