//! The turns of the benchmark, through the crate: `bench WORKLOAD N` repeats a turn N times and writes how many
//! requests were delivered.
//!
//! - `keys`: one device; key press, key release, frame, next_request until none (7 calls).
//! - `touches`: one device; down, motion, up, frame, next_request until none (9 calls).
//! - `texts`: one device; a text of 20 digits, frame, next_request until none (5 calls).
//! - `eight`: as keys, on each of eight devices in turn, every device with all seven interfaces.
//! - `deep`: as keys, but 198 requests stay queued: 3 next_request a turn, none of them none (6 calls).
//! - `single32`: one device; 31 keys and their frame, each a call, next_request until none (33 calls).
//! - `read32`: the same 32 requests gathered in a read and handed over in one call.
//! - `messages`: 31 keys and their frame as a client's 772 bytes, the same in each turn: 32 calls, each with what is left
//!   of them, next_request until none.
//!
//! A program that times it takes the difference of two Ns, which leaves its start out. Each request is made where it is
//! sent, and each delivered one taken apart by a `match`, as a station does.

use bozterrun::eis::{device, handshake, keyboard, text, touchscreen, Object, Request};
use bozterrun::{
    Device, DeviceCapabilities, DeviceCapability, DeviceType, EisHandshaker, EisRequest, EisRequestConverter,
    Interface, KeyState, Read, Refusal,
};
use std::hint::black_box;
use std::{env, process::ExitCode};

/// The clock, which none of the turns reads.
const NOW: u64 = 5;

struct Bench {
    converter: EisRequestConverter,
    /// Each with the interface that its turns use.
    devices: Vec<(Device, Object)>,
    buffer: [u8; bozterrun::TEXT_LENGTH],
    /// What read32 gathers.
    read: Read,
    /// What a client sends in a turn of messages.
    bytes: Vec<u8>,
}

/// 31 keys and their frame as messages.
fn bytes(device: Device, keyboard: Object) -> Vec<u8> {
    let message = |id: u64, opcode: u32, arguments: &[u8]| {
        let length = 16 + arguments.len() as u32;
        [
            &id.to_le_bytes(),
            &length.to_le_bytes()[..],
            &opcode.to_le_bytes(),
            arguments,
        ]
        .concat()
    };
    let mut bytes = Vec::new();
    for k in 0..31 {
        bytes.extend(message(keyboard.id, 1, &[k, 0, 0, 0, 1 - k % 2, 0, 0, 0]));
    }
    bytes.extend(message(device.id(), 3, &[7, 0, 0, 0, 244, 1, 0, 0, 0, 0, 0, 0]));
    bytes
}

impl Bench {
    /// A session with so many devices of these capabilities, of which the turns use one.
    fn new(devices: usize, capabilities: DeviceCapabilities, used: DeviceCapability) -> Result<Self, Refusal> {
        let mut out = [0; bozterrun::OUT_LENGTH];
        let (mut handshaker, _) = EisHandshaker::new(7, &mut out)?;
        for interface in Interface::ALL {
            let name = interface.name().as_bytes();
            let known = handshake::Request::InterfaceVersion { name, version: 9 };
            handshaker.handle_request(Request::Handshake(known), &mut out)?;
        }
        let finish = Request::Handshake(handshake::Request::Finish);
        let (response, _) = handshaker.handle_request(finish, &mut out)?;
        let mut converter = EisRequestConverter::new(response.ok_or(Refusal::BadState)?);
        let connection = converter.handle_mut();
        let (seat, _) = connection.add_seat(None, capabilities, &mut out)?;
        let mut added = Vec::new();
        for _ in 0..devices {
            let (device, _) = connection.add_device(seat, None, DeviceType::Virtual, capabilities, &mut out)?;
            let object = connection.interface(device, used)?.ok_or(Refusal::UnknownHandle)?;
            added.push((device, object));
        }
        Ok(Self {
            converter,
            bytes: bytes(added[0].0, added[0].1),
            devices: added,
            buffer: [0; bozterrun::TEXT_LENGTH],
            read: Read::new(),
        })
    }

    #[inline(always)]
    fn send(&mut self, request: Request) -> Result<(), Refusal> {
        self.converter.handle_request(request, NOW, &mut [])?;
        Ok(())
    }

    #[inline(always)]
    fn frame(&mut self, place: usize, timestamp: u64) -> Result<(), Refusal> {
        let frame = device::Request::Frame {
            last_serial: 7,
            timestamp,
        };
        self.send(Request::Device(self.devices[place].0, frame))
    }

    /// A press and a release of a key, and their frame.
    #[inline(always)]
    fn keys(&mut self, place: usize, i: u64) -> Result<(), Refusal> {
        let keyboard = self.devices[place].1;
        let key = i as u32 & 0xff;
        let sent = |state| Request::Keyboard(keyboard, keyboard::Request::Key { key, state });
        self.send(sent(KeyState::Press))?;
        self.send(sent(KeyState::Released))?;
        self.frame(place, i)
    }

    /// 31 keys, the k-th of a turn.
    #[inline(always)]
    fn key(&self, i: u64, k: u64) -> Request<'static> {
        let key = (i + k) as u32 & 0xff;
        let state = [KeyState::Press, KeyState::Released][k as usize % 2];
        Request::Keyboard(self.devices[0].1, keyboard::Request::Key { key, state })
    }

    /// 31 keys and their frame, each by itself.
    #[inline(always)]
    fn single32(&mut self, i: u64) -> Result<(), Refusal> {
        for k in 0..31 {
            self.send(self.key(i, k))?;
        }
        self.frame(0, i)
    }

    /// The same in a read.
    #[inline(always)]
    fn read32(&mut self, i: u64) -> Result<(), Refusal> {
        self.read.clear();
        for k in 0..31 {
            let key = self.key(i, k);
            self.read.push(key);
        }
        let frame = device::Request::Frame {
            last_serial: 7,
            timestamp: i,
        };
        self.read.push(Request::Device(self.devices[0].0, frame));
        let handled = self.converter.handle_requests(&self.read, NOW, &mut []);
        handled.refusal.map_or(Ok(()), Err)
    }

    /// 31 keys and their frame, from bytes.
    #[inline(always)]
    fn messages(&mut self) -> Result<(), Refusal> {
        let mut left = &self.bytes[..];
        while !left.is_empty() {
            let received = self.converter.pending_request(left, NOW, &mut [])?;
            left = &left[received.map_or(left.len(), |received| received.taken)..];
        }
        Ok(())
    }

    /// A touch that moves, and its frame.
    #[inline(always)]
    fn stroke(&mut self, i: u64) -> Result<(), Refusal> {
        let touchscreen = self.devices[0].1;
        let (touchid, x, y) = (i as u32, i as f32, 2.0);
        self.send(Request::Touchscreen(
            touchscreen,
            touchscreen::Request::Down { touchid, x, y },
        ))?;
        self.send(Request::Touchscreen(
            touchscreen,
            touchscreen::Request::Motion { touchid, x, y },
        ))?;
        self.send(Request::Touchscreen(touchscreen, touchscreen::Request::Up { touchid }))?;
        self.frame(0, i)
    }

    /// A text, and its frame.
    #[inline(always)]
    fn text(&mut self, i: u64) -> Result<(), Refusal> {
        let text = b"01234567890123456789";
        self.send(Request::Text(self.devices[0].1, text::Request::Utf8 { text }))?;
        self.frame(0, i)
    }

    /// Asks so often for a request; how many were given.
    #[inline(always)]
    fn next(&mut self, most: usize) -> Result<u64, Refusal> {
        let mut given = 0;
        for _ in 0..most {
            if let Some(request) = self.converter.next_request(&mut self.buffer)? {
                take(request);
                given += 1;
            }
        }
        Ok(given)
    }
}

/// Takes a delivered request apart. What is made of it is not to be known.
#[inline(always)]
fn take(request: EisRequest) {
    match request {
        EisRequest::KeyboardKey(key) => _ = black_box((key.device, key.time, key.key, key.state)),
        EisRequest::TouchDown(down) => _ = black_box((down.device, down.time, down.touch_id, down.x, down.y)),
        EisRequest::TouchMotion(moved) => _ = black_box((moved.device, moved.time, moved.touch_id, moved.x, moved.y)),
        EisRequest::TouchUp(up) => _ = black_box((up.device, up.time, up.touch_id)),
        EisRequest::TextUtf8(text) => _ = black_box((text.device, text.time, text.text)),
        EisRequest::Frame(frame) => _ = black_box((frame.device, frame.time)),
        _ => {}
    }
}

#[derive(Clone, Copy, PartialEq)]
enum Workload {
    Keys,
    Touches,
    Texts,
    Eight,
    Deep,
    Single32,
    Read32,
    Messages,
}

/// Repeats the turn of a workload and takes what is left; how many requests were given, which is how many were sent.
fn run(workload: Workload, times: u64) -> Result<u64, Refusal> {
    use DeviceCapability::{Keyboard, Text, Touch};
    let mut bench = match workload {
        Workload::Touches => Bench::new(1, Touch.into(), Touch)?,
        Workload::Texts => Bench::new(1, Text.into(), Text)?,
        Workload::Eight => Bench::new(8, DeviceCapabilities::ALL, Keyboard)?,
        Workload::Keys | Workload::Deep | Workload::Single32 | Workload::Read32 | Workload::Messages => {
            Bench::new(1, Keyboard.into(), Keyboard)?
        }
    };
    if workload == Workload::Deep {
        for i in 0..66 {
            bench.keys(0, i)?;
        }
    }
    let mut given = 0;
    for i in 0..times {
        given += match workload {
            Workload::Touches => {
                bench.stroke(i)?;
                bench.next(5)?
            }
            Workload::Texts => {
                bench.text(i)?;
                bench.next(3)?
            }
            Workload::Eight => {
                bench.keys((i % 8) as usize, i)?;
                bench.next(4)?
            }
            Workload::Deep => {
                bench.keys(0, i)?;
                bench.next(3)?
            }
            Workload::Keys => {
                bench.keys(0, i)?;
                bench.next(4)?
            }
            Workload::Single32 => {
                bench.single32(i)?;
                bench.next(33)?
            }
            Workload::Read32 => {
                bench.read32(i)?;
                bench.next(33)?
            }
            Workload::Messages => {
                bench.messages()?;
                bench.next(33)?
            }
        };
    }
    Ok(given + bench.next(256)?)
}

fn main() -> ExitCode {
    let workload = env::args().nth(1).unwrap_or_default();
    let times = env::args().nth(2).and_then(|word| word.parse().ok());
    let workload = match workload.as_str() {
        "keys" => Some(Workload::Keys),
        "touches" => Some(Workload::Touches),
        "texts" => Some(Workload::Texts),
        "eight" => Some(Workload::Eight),
        "deep" => Some(Workload::Deep),
        "single32" => Some(Workload::Single32),
        "read32" => Some(Workload::Read32),
        "messages" => Some(Workload::Messages),
        _ => None,
    };
    let (Some(workload), Some(times)) = (workload, times) else {
        eprintln!("usage: bench keys|touches|texts|eight|deep|single32|read32|messages N");
        return ExitCode::from(2);
    };
    match run(workload, times) {
        Ok(given) => {
            println!("{given}");
            ExitCode::SUCCESS
        }
        Err(refusal) => {
            eprintln!("bench: {refusal}");
            ExitCode::FAILURE
        }
    }
}
