//! Sessions alike in all but payload, through the crate: `twins SEED` sends every kind of timed request but texts forty
//! times, in frames, one by one, then in a read, then as bytes, takes apart what is delivered, and writes how much that
//! was.
//!
//! The seed decides keys, states, buttons, amounts and coordinates and nothing else, so a program that counts
//! instructions finds the same number at every seed if no path of the crate hangs on them.

use bozterrun::eis::{
    button, device, handshake, keyboard, pointer, pointer_absolute, scroll, text, touchscreen, Object, Request,
};
use bozterrun::{
    ButtonState, Device, DeviceCapabilities, DeviceCapability, DeviceType, EisHandshaker, EisRequest,
    EisRequestConverter, Interface, KeyState, Read, Refusal,
};
use std::hint::black_box;
use std::{env, process::ExitCode};

/// A linear congruential generator, which takes the same steps whatever it gives.
struct Payload(u64);

impl Payload {
    fn number(&mut self) -> u32 {
        self.0 = self
            .0
            .wrapping_mul(6364136223846793005)
            .wrapping_add(1442695040888963407);
        (self.0 >> 32) as u32
    }

    /// Any bits: infinities and NaNs too.
    fn real(&mut self) -> f32 {
        f32::from_bits(self.number())
    }

    fn key_state(&mut self) -> KeyState {
        [KeyState::Released, KeyState::Press][self.number() as usize >> 31]
    }

    fn button_state(&mut self) -> ButtonState {
        [ButtonState::Released, ButtonState::Press][self.number() as usize >> 31]
    }
}

/// The requests of a round, the i-th of nine.
fn request(payload: &mut Payload, interfaces: &[Object; 7], i: usize) -> Request<'static> {
    let [pointer, absolute, keyboard, touch, scroll, buttons, texts] = *interfaces;
    match i {
        0 => {
            let (x, y) = (payload.real(), payload.real());
            Request::Pointer(pointer, pointer::Request::MotionRelative { x, y })
        }
        1 => {
            let (x, y) = (payload.real(), payload.real());
            Request::PointerAbsolute(absolute, pointer_absolute::Request::MotionAbsolute { x, y })
        }
        2 => {
            let (key, state) = (payload.number(), payload.key_state());
            Request::Keyboard(keyboard, keyboard::Request::Key { key, state })
        }
        3 => {
            let (x, y) = (payload.real(), payload.real());
            Request::Scroll(scroll, scroll::Request::Scroll { x, y })
        }
        4 => {
            let (x, y) = (payload.number() as i32, payload.number() as i32);
            Request::Scroll(scroll, scroll::Request::ScrollDiscrete { x, y })
        }
        5 => {
            let (button, state) = (payload.number(), payload.button_state());
            Request::Button(buttons, button::Request::Button { button, state })
        }
        6 => {
            let (keysym, state) = (payload.number(), payload.key_state());
            Request::Text(texts, text::Request::Keysym { keysym, state })
        }
        7 => {
            let (touchid, x, y) = (1, payload.real(), payload.real());
            Request::Touchscreen(touch, touchscreen::Request::Down { touchid, x, y })
        }
        _ => Request::Touchscreen(touch, touchscreen::Request::Up { touchid: 1 }),
    }
}

/// Adds the message of a request to the bytes.
fn put_message(bytes: &mut Vec<u8>, object: u64, opcode: u32, arguments: &[u32]) {
    bytes.extend(object.to_le_bytes());
    bytes.extend((16 + 4 * arguments.len() as u32).to_le_bytes());
    bytes.extend(opcode.to_le_bytes());
    for argument in arguments {
        bytes.extend(argument.to_le_bytes());
    }
}

/// The same round as bytes, its frame behind it.
fn put_round(bytes: &mut Vec<u8>, payload: &mut Payload, device: Device, interfaces: &[Object; 7], timestamp: u32) {
    let [pointer, absolute, keyboard, touch, scroll, buttons, texts] = interfaces.map(|interface| interface.id);
    for (object, opcode) in [(pointer, 1), (absolute, 1), (scroll, 1), (scroll, 2)] {
        put_message(bytes, object, opcode, &[payload.number(), payload.number()]);
    }
    for object in [keyboard, buttons, texts] {
        put_message(bytes, object, 1, &[payload.number(), payload.number() >> 31]);
    }
    put_message(bytes, touch, 1, &[1, payload.number(), payload.number()]);
    put_message(bytes, touch, 3, &[1]);
    put_message(bytes, device.id(), 3, &[7, timestamp, 0]);
}

/// Takes a delivered request apart.
fn take(request: EisRequest) {
    match request {
        EisRequest::KeyboardKey(key) => _ = black_box((key.key, key.state)),
        EisRequest::Button(button) => _ = black_box((button.button, button.state)),
        EisRequest::TextKeysym(keysym) => _ = black_box((keysym.keysym, keysym.state)),
        EisRequest::PointerMotion(motion) => _ = black_box((motion.dx, motion.dy)),
        other => _ = black_box(other),
    }
}

/// A session with a device of all seven interfaces.
fn begin() -> Result<(EisRequestConverter, Device, [Object; 7]), Refusal> {
    let mut out = [0; bozterrun::OUT_LENGTH];
    let (mut handshaker, _) = EisHandshaker::new(7, &mut out)?;
    for interface in Interface::ALL {
        let name = interface.name().as_bytes();
        let known = handshake::Request::InterfaceVersion { name, version: 9 };
        handshaker.handle_request(Request::Handshake(known), &mut out)?;
    }
    let (response, _) = handshaker.handle_request(Request::Handshake(handshake::Request::Finish), &mut out)?;
    let mut converter = EisRequestConverter::new(response.ok_or(Refusal::BadState)?);
    let all = DeviceCapabilities::ALL;
    let (seat, _) = converter.handle_mut().add_seat(None, all, &mut out)?;
    let (device, _) = converter
        .handle_mut()
        .add_device(seat, None, DeviceType::Virtual, all, &mut out)?;
    let mut interfaces = [Object::new(0, 0); 7];
    for (place, capability) in interfaces.iter_mut().zip(DeviceCapability::ALL) {
        let interface = converter.handle().interface(device, capability)?;
        *place = interface.ok_or(Refusal::UnknownHandle)?;
    }
    Ok((converter, device, interfaces))
}

/// The rounds, a function of their own, so that what they take can be counted by itself.
#[inline(never)]
fn rounds(
    converter: &mut EisRequestConverter,
    device: Device,
    interfaces: &[Object; 7],
    seed: u64,
) -> Result<u64, Refusal> {
    let (mut payload, mut read) = (Payload(seed), Read::with_capacity(10, 0));
    let (mut bytes, mut given) = (Vec::with_capacity(512), 0);
    for timestamp in 0..40 {
        for i in 0..9 {
            converter.handle_request(request(&mut payload, interfaces, i), 5, &mut [])?;
        }
        let last_serial = 7;
        let frame = device::Request::Frame { last_serial, timestamp };
        converter.handle_request(Request::Device(device, frame), 5, &mut [])?;
        given += take_all(converter)?;
        read.clear();
        read.extend((0..9).map(|i| request(&mut payload, interfaces, i)));
        read.push(Request::Device(device, frame));
        if let Some(refusal) = converter.handle_requests(&read, 5, &mut []).refusal {
            return Err(refusal);
        }
        given += take_all(converter)?;
        bytes.clear();
        put_round(&mut bytes, &mut payload, device, interfaces, timestamp as u32);
        let mut at = 0;
        while let Some(received) = converter.pending_request(&bytes[at..], 5, &mut [])? {
            at += received.taken;
        }
        given += take_all(converter)?;
    }
    Ok(given)
}

/// Takes all that is queued; how much that was.
fn take_all(converter: &mut EisRequestConverter) -> Result<u64, Refusal> {
    let mut given = 0;
    while let Some(request) = converter.next_request(&mut [])? {
        take(request);
        given += 1;
    }
    Ok(given)
}

fn run(seed: u64) -> Result<u64, Refusal> {
    let (mut converter, device, interfaces) = begin()?;
    rounds(&mut converter, device, &interfaces, seed)
}

fn main() -> ExitCode {
    let Some(seed) = env::args().nth(1).and_then(|word| word.parse().ok()) else {
        eprintln!("usage: twins SEED");
        return ExitCode::from(2);
    };
    match run(seed) {
        Ok(given) => {
            println!("{given}");
            ExitCode::SUCCESS
        }
        Err(refusal) => {
            eprintln!("twins: {refusal}");
            ExitCode::FAILURE
        }
    }
}
