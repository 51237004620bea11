//! Document 01, "Packets on the wire".

#[derive(Clone, Debug, PartialEq, Eq)]
pub struct Parts {
    pub kind: u8,
    pub connection: u16,
    pub timestamp: u32,
    pub difference: u32,
    pub window: u32,
    pub sequence: u16,
    pub ack: u16,
}

#[derive(Clone, Debug, PartialEq, Eq)]
pub struct Read {
    pub parts: Parts,
    /// Place and length of the first SACK's bytes, 0 and 0 where there is none.
    pub sack: (usize, usize),
    /// Place and length of the payload.
    pub payload: (usize, usize),
}

fn number(bytes: &[u8]) -> u32 {
    bytes.iter().fold(0, |value, byte| value * 256 + u32::from(*byte))
}

/// 5: a SACK of 1 to 3 bytes (the caller says whether 0 bytes are one). 6: 4 or more, not a multiple of 4.
fn sack_length_refused(length: usize) -> Option<u8> {
    if length < 4 {
        Some(5)
    } else if length % 4 != 0 {
        Some(6)
    } else {
        None
    }
}

/// Order: 1, 2, 3, whole chain (4), first SACK (5, 6), then 7.
pub fn decode(datagram: &[u8]) -> Result<Read, u8> {
    if datagram.len() < 20 {
        return Err(1);
    }
    if datagram[0] / 16 > 4 {
        return Err(2);
    }
    if datagram[0] % 16 != 1 {
        return Err(3);
    }
    let mut extension = datagram[1];
    let mut at = 20;
    let mut first_sack = None;
    while extension != 0 {
        if at + 2 > datagram.len() {
            return Err(4);
        }
        let (next, length) = (datagram[at], usize::from(datagram[at + 1]));
        if at + 2 + length > datagram.len() {
            return Err(4);
        }
        if extension == 1 && first_sack.is_none() {
            first_sack = Some((at + 2, length));
        }
        extension = next;
        at += 2 + length;
    }
    if let Some((_, length)) = first_sack {
        if let Some(refusal) = sack_length_refused(length) {
            return Err(refusal);
        }
    }
    if datagram[0] / 16 == 0 && at == datagram.len() {
        return Err(7);
    }
    Ok(Read {
        parts: Parts {
            kind: datagram[0] / 16,
            connection: number(&datagram[2..4]) as u16,
            timestamp: number(&datagram[4..8]),
            difference: number(&datagram[8..12]),
            window: number(&datagram[12..16]),
            sequence: number(&datagram[16..18]) as u16,
            ack: number(&datagram[18..20]) as u16,
        },
        sack: first_sack.unwrap_or((0, 0)),
        payload: (at, datagram.len() - at),
    })
}

/// Writing and hearing a SACK: an empty one means none; order 5, 6, 8.
pub fn sack_refused(sack: &[u8]) -> Option<u8> {
    if sack.is_empty() {
        None
    } else if let Some(refusal) = sack_length_refused(sack.len()) {
        Some(refusal)
    } else if sack.len() > 252 {
        Some(8)
    } else {
        None
    }
}

/// Order 5, 6, 8, 7, 9.
pub fn encode(parts: &Parts, sack: &[u8], payload: &[u8], room: usize) -> Result<Vec<u8>, u8> {
    if let Some(refusal) = sack_refused(sack) {
        return Err(refusal);
    }
    if parts.kind == 0 && payload.is_empty() {
        return Err(7);
    }
    let mut bytes = vec![parts.kind * 16 + 1, u8::from(!sack.is_empty())];
    bytes.extend(parts.connection.to_be_bytes());
    bytes.extend(parts.timestamp.to_be_bytes());
    bytes.extend(parts.difference.to_be_bytes());
    bytes.extend(parts.window.to_be_bytes());
    bytes.extend(parts.sequence.to_be_bytes());
    bytes.extend(parts.ack.to_be_bytes());
    if !sack.is_empty() {
        bytes.extend([0, u8::try_from(sack.len()).expect("at most 252")]);
        bytes.extend(sack);
    }
    bytes.extend(payload);
    if bytes.len() > room {
        return Err(9);
    }
    Ok(bytes)
}
