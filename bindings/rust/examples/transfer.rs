//! A whole transfer between two ends in one process, over a channel that loses, repeats and reorders datagrams.
//!
//!     cargo run --offline --example transfer

use ribsaddle::{Config, Error, Packet, PacketBuilder, PacketType, ReceiveBuffer, SentPackets};
use std::collections::VecDeque;
use std::time::Duration;

const PIECE: usize = 1_000;
const CONNECTION: u16 = 0x1234;

/// A datagram under way: of ten one is lost, one comes twice, and one is overtaken by all that are there.
fn send(channel: &mut VecDeque<Vec<u8>>, packet: &Packet<'_>, chance: &mut u32) -> Result<(), Error> {
    let mut room = [0; 1_500];
    let len = packet.encode(&mut room)?;
    let datagram = room[..len].to_vec();
    *chance = chance.wrapping_mul(1_103_515_245).wrapping_add(12_345);
    match *chance >> 16 & 0x7FFF {
        draw if draw % 10 == 0 => {}
        draw if draw % 10 == 1 => channel.extend([datagram.clone(), datagram]),
        draw if draw % 10 == 2 => channel.push_front(datagram),
        _ => channel.push_back(datagram),
    }
    Ok(())
}

fn main() -> Result<(), Error> {
    let file: Vec<u8> = (0..300_000u32).map(|place| ((place * 31) >> 3) as u8).collect();
    let pieces: Vec<&[u8]> = file.chunks(PIECE).collect();
    let config = Config {
        target_delay_micros: 100_000,
        initial_timeout: Duration::from_secs(1),
        min_timeout: Duration::from_millis(500),
        max_packet_size_bytes: PIECE as u32,
        max_window_size_inc_bytes: PIECE as u32,
        gain: 1.0,
        delay_window: Duration::from_secs(120),
    };
    let first = 65_400u16;
    let (mut sent, mut received) = (SentPackets::new(first, &config)?, ReceiveBuffer::<65_536>::new(first)?);
    let (mut there, mut back) = (VecDeque::new(), VecDeque::new());
    let (mut arrived, mut next, mut acked, mut chance, mut again) = (Vec::new(), 0, first, 1, 0);
    let mut now = Duration::ZERO;

    while arrived.len() < file.len() || sent.has_unacked_packets() {
        now += Duration::from_millis(10);
        assert!(now < Duration::from_secs(600), "the transfer does not end");
        let data = |number: u16, piece: usize| {
            PacketBuilder::new(PacketType::Data, CONNECTION, 0, 65_536, number).payload(pieces[piece]).build()
        };
        // What the window holds goes out; the tag of a packet is the place of its piece.
        while next < pieces.len() && sent.window() >= PIECE as u32 {
            let number = sent.next_seq_num();
            sent.on_transmit(number, PacketType::Data, next as u32, pieces[next].len() as u32, now)?;
            send(&mut there, &data(number, next), &mut chance)?;
            next += 1;
        }
        // What is lost goes out again, and where nothing is under way any more, after a timeout, the oldest.
        let mut resend: Vec<(u16, u32)> = sent.lost_packets().map(|(number, _, tag)| (number, tag)).collect();
        if there.is_empty() && back.is_empty() && resend.is_empty() && sent.has_unacked_packets() {
            sent.on_timeout();
            resend.push((acked.wrapping_add(1), u32::from(acked.wrapping_sub(first))));
        }
        for (number, tag) in resend {
            sent.on_transmit(number, PacketType::Data, tag, 0, now)?;
            send(&mut there, &data(number, tag as usize), &mut chance)?;
            again += 1;
        }
        // The far end stores what arrives, reads, and acknowledges.
        for datagram in there.drain(..) {
            let packet = Packet::decode(&datagram)?;
            if matches!(packet.packet_type(), PacketType::Data | PacketType::Fin) {
                received.write(packet.payload(), packet.seq_num())?; // no other packet is in the stream
            }
            let (mut out, mut room) = ([0; 700], [0; 32]);
            while received.ready() > 0 {
                let count = received.read(&mut out);
                arrived.extend_from_slice(&out[..count]);
            }
            let ack = PacketBuilder::new(PacketType::State, CONNECTION, 0, received.available() as u32, first)
                .ack_num(received.ack_num())
                .selective_ack(received.selective_ack(&mut room)?)
                .build();
            send(&mut back, &ack, &mut chance)?;
        }
        for datagram in back.drain(..) {
            let packet = Packet::decode(&datagram)?;
            // An ack of nothing (the initial number) would be refused. After one that is accepted, `ack_num` is the
            // number of a packet; before, its 0 means that there is none.
            if packet.ack_num() != first {
                sent.on_ack(packet.ack_num(), packet.selective_ack(), Duration::from_millis(20), now)?;
                acked = sent.ack_num();
            }
        }
    }
    assert!(arrived == file, "what arrived is what was sent");
    println!("{} bytes in {} packets, {again} sent again, {:?}", arrived.len(), pieces.len(), now);
    Ok(())
}
