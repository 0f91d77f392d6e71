// A session whose handshake is done, all interfaces being negotiated. Its first serial is `serial`, the seat that is
// added first is 0xff00000000000001.
pub fn begin(serial: u32) -> bozterrun::EisRequestConverter {
    use bozterrun::eis::{handshake, Request};
    let mut out = [0; bozterrun::OUT_LENGTH];
    let (mut handshaker, _) = bozterrun::EisHandshaker::new(serial, &mut out).expect("the buffer is long enough");
    for interface in bozterrun::Interface::ALL {
        let (name, version) = (interface.name().as_bytes(), interface.version());
        let known = Request::Handshake(handshake::Request::InterfaceVersion { name, version });
        handshaker
            .handle_request(known, &mut out)
            .expect("an interface is accepted");
    }
    let finish = Request::Handshake(handshake::Request::Finish);
    let (response, _) = handshaker
        .handle_request(finish, &mut out)
        .expect("all interfaces are known");
    bozterrun::EisRequestConverter::new(response.expect("a Finish ends the handshake"))
}
