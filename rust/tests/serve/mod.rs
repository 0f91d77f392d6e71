use bozterrun::eis::Request;
use bozterrun::{DeviceCapability, DeviceType, EisHandshaker, EisRequest, EisRequestConverter, Events, Refusal};

fn serve(
    mut receive: impl FnMut() -> Option<Request<'static>>, // the next request of the client, decoded
    mut send: impl FnMut(Events),                          // what the client is to be sent
    clock: impl Fn() -> u64,
) -> Result<(), Refusal> {
    let mut out = [0; bozterrun::OUT_LENGTH];
    let mut text = [0; bozterrun::TEXT_LENGTH];
    let (mut handshaker, events) = EisHandshaker::new(1, &mut out)?;
    send(events);
    let response = loop {
        let Some(request) = receive() else { return Ok(()) };
        let (response, events) = handshaker.handle_request(request, &mut out)?;
        send(events);
        if let Some(response) = response {
            break response;
        }
    };
    let mut converter = EisRequestConverter::new(response);
    let both = DeviceCapability::Keyboard | DeviceCapability::Text;
    let (_seat, events) = converter.handle_mut().add_seat(Some(b"counter 3"), both, &mut out)?;
    send(events);
    while let Some(request) = receive() {
        send(converter.handle_request(request, clock(), &mut out)?);
        while let Some(request) = converter.next_request(&mut text)? {
            let station = converter.handle_mut();
            match request {
                EisRequest::Bind(bind) => {
                    let (seat, kind, capabilities) = (bind.seat, DeviceType::Virtual, bind.capabilities);
                    let (_device, events) = station.add_device(seat, None, kind, capabilities, &mut out)?;
                    send(events);
                }
                EisRequest::Ready(ready) => send(station.resumed(ready.device, &mut out)?),
                EisRequest::KeyboardKey(key) => println!("key {} {:?} at {}", key.key, key.state, key.time),
                EisRequest::TextUtf8(text) => println!("text {:?} at {}", text.to_str(), text.time),
                EisRequest::DeviceClosed(closed) => send(station.remove_device(closed.device, &mut out)?),
                EisRequest::Disconnect => return Ok(()),
                _ => {}
            }
        }
    }
    Ok(())
}
