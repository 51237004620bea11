
// What README's Rust sample must do. tests/readme_test.sh puts this after the sample, whose `take` it
// uses. Every fault is told; the status is 1 where there is one.

/// The sample's answer to a packet.
fn give(
    kind: ribsaddle::PacketType,
    number: u16,
    payload: &[u8],
    received: &mut ribsaddle::ReceiveBuffer<65_536>,
    out: &mut Vec<u8>,
) -> Option<u16> {
    let mut room = [0; 1_500];
    let packet = ribsaddle::PacketBuilder::new(kind, 7, 0, 0, number).payload(payload).build();
    let len = packet.encode(&mut room).expect("a packet is written");
    take(&room[..len], received, out).ok()
}

fn main() {
    use ribsaddle::PacketType::{Data, Fin, Reset, State, Syn};
    let mut faults = 0;
    let mut expect = |holds: bool, what: &str| {
        if !holds {
            println!("take.rs: it does not hold that {what}");
            faults += 1;
        }
    };
    let fresh = || ribsaddle::ReceiveBuffer::<65_536>::new(0).expect("a receiver is made");

    let (mut received, mut out) = (fresh(), Vec::new());
    for kind in [State, Reset, Syn] {
        let answer = give(kind, 1, b"", &mut received, &mut out);
        expect(answer == Some(0), "a State, Reset or Syn is taken and uses up no number");
    }
    let answer = give(Data, 1, b"chart", &mut received, &mut out);
    expect(answer == Some(1), "Data 1 is taken and acknowledged");
    expect(out == b"chart", "after State 1 and Data 1 \"chart\" five bytes are read");
    let answer = give(Fin, 2, b"", &mut received, &mut out);
    expect(answer == Some(2), "Fin 2 is taken and uses up its number");
    expect(take(&[0; 19], &mut received, &mut out).is_err(), "19 bytes are refused");

    let (mut received, mut out) = (fresh(), Vec::new());
    for number in (1..=6).rev() {
        let answer = give(Data, number, &[b'c'; 1_400], &mut received, &mut out);
        expect(answer == Some(if number == 1 { 6 } else { 0 }), "Data 6 to 1 are taken");
    }
    expect(out == [b'c'; 8_400], "8,400 bytes that become ready at once are read");
    std::process::exit((faults > 0).into());
}
