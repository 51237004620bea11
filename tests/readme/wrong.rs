// A wrong sample, as README once had it: it writes every packet, and reads 4,096 bytes at most.
// tests/readme_test.sh has to find both.
use ribsaddle::{Error, Packet, ReceiveBuffer};

fn take(datagram: &[u8], received: &mut ReceiveBuffer<65_536>, out: &mut Vec<u8>) -> Result<u16, Error> {
    let packet = Packet::decode(datagram)?;
    received.write(packet.payload(), packet.seq_num())?;
    let mut room = [0; 4_096];
    let count = received.read(&mut room);
    out.extend_from_slice(&room[..count]);
    Ok(received.ack_num())
}
