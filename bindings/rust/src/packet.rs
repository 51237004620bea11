use crate::error::{answered, Error};
use crate::raw;

/// Size of an encoded uTP header in bytes.
const PACKET_HEADER_LEN: usize = 20;

/// Size of an extension's identifier and length in bytes.
const EXTENSION_HEAD_LEN: usize = 2;

#[derive(Copy, Clone, Debug, Eq, PartialEq, Hash)]
#[repr(u8)]
pub enum PacketType {
    Data = 0,
    Fin = 1,
    State = 2,
    Reset = 3,
    Syn = 4,
}

impl TryFrom<u8> for PacketType {
    type Error = Error;

    fn try_from(value: u8) -> Result<Self, Error> {
        match value {
            0 => Ok(Self::Data),
            1 => Ok(Self::Fin),
            2 => Ok(Self::State),
            3 => Ok(Self::Reset),
            4 => Ok(Self::Syn),
            _ => Err(Error::UnknownType),
        }
    }
}

impl From<PacketType> for u8 {
    fn from(value: PacketType) -> u8 {
        value as u8
    }
}

/// A selective ACK: the bytes of its mask, never none. Bit 0 is the lowest bit of the first byte and means `ack_num + 2`.
#[derive(Copy, Clone, Debug, Eq, PartialEq)]
pub struct SelectiveAck<'a> {
    bytes: &'a [u8],
}

impl<'a> SelectiveAck<'a> {
    /// Takes bytes as a selective ACK, or as none where there are no bytes. Whether their number is right is asked where it
    /// is used.
    pub fn new(bytes: &'a [u8]) -> Option<Self> {
        (!bytes.is_empty()).then_some(Self { bytes })
    }

    /// Returns the bytes, as they stand on the wire.
    pub fn as_bytes(&self) -> &'a [u8] {
        self.bytes
    }

    /// Returns the length in bytes of the encoded selective ACK.
    pub fn encoded_len(&self) -> usize {
        self.bytes.len()
    }

    /// Returns the bits in their order, the first of which means `ack_num + 2`.
    pub fn acked(&self) -> impl Iterator<Item = bool> + 'a {
        self.bytes.iter().flat_map(|byte| (0..8).map(move |bit| byte >> bit & 1 == 1))
    }
}

/// The bytes of a selective ACK, or no bytes.
pub(crate) fn bytes_of(selective_ack: Option<SelectiveAck<'_>>) -> &[u8] {
    selective_ack.map_or(&[], |sack| sack.bytes)
}

/// A packet whose selective ACK and payload are borrowed: from the datagram that it was decoded from, or from what it was
/// built with. Nothing is copied or allocated.
#[derive(Copy, Clone, Debug, Eq, PartialEq)]
pub struct Packet<'a> {
    packet_type: PacketType,
    header: raw::Header,
    selective_ack: Option<SelectiveAck<'a>>,
    payload: &'a [u8],
}

impl<'a> Packet<'a> {
    pub fn packet_type(&self) -> PacketType {
        self.packet_type
    }

    pub fn conn_id(&self) -> u16 {
        self.header.conn_id
    }

    pub fn ts_micros(&self) -> u32 {
        self.header.ts_micros
    }

    pub fn ts_diff_micros(&self) -> u32 {
        self.header.ts_diff_micros
    }

    pub fn window_size(&self) -> u32 {
        self.header.window_size
    }

    pub fn seq_num(&self) -> u16 {
        self.header.seq_num
    }

    pub fn ack_num(&self) -> u16 {
        self.header.ack_num
    }

    pub fn selective_ack(&self) -> Option<SelectiveAck<'a>> {
        self.selective_ack
    }

    pub fn payload(&self) -> &'a [u8] {
        self.payload
    }

    /// Returns the length in bytes of the encoded packet.
    pub fn encoded_len(&self) -> usize {
        let sack = self.selective_ack.map_or(0, |sack| EXTENSION_HEAD_LEN + sack.encoded_len());
        PACKET_HEADER_LEN + sack + self.payload.len()
    }

    /// Reads a datagram. Refuses with 1, 2, 3, 4, 5, 6, 7.
    ///
    /// ```
    /// use ribsaddle::{Error, Packet, PacketType};
    ///
    /// let datagram = [
    ///     0x01, 0x00, 0x12, 0x34, 0, 0, 0, 1, 0, 0, 0, 2, 0, 0, 0x10, 0, 0, 5, 0, 4, 0x41,
    /// ];
    /// let packet = Packet::decode(&datagram)?;
    /// assert_eq!(packet.packet_type(), PacketType::Data);
    /// assert_eq!((packet.conn_id(), packet.seq_num(), packet.ack_num()), (0x1234, 5, 4));
    /// assert_eq!(packet.payload(), b"A");
    /// assert_eq!(packet.selective_ack(), None);
    ///
    /// let refused = Packet::decode(&datagram[..20]).unwrap_err();
    /// assert_eq!(refused, Error::EmptyData);
    /// assert_eq!(refused.number(), 7);
    /// # Ok::<(), Error>(())
    /// ```
    pub fn decode(datagram: &'a [u8]) -> Result<Self, Error> {
        let mut packet = raw::Packet::default();
        // A slice's pointer is not null, and it is read only.
        answered(unsafe { raw::ribsaddle_decode(&mut packet, datagram.as_ptr(), datagram.len()) })?;
        let part = |at: usize, len: usize| &datagram[at..at + len];
        Ok(Self {
            packet_type: PacketType::try_from(packet.header.packet_type)?,
            header: packet.header,
            selective_ack: SelectiveAck::new(part(packet.sack_at, packet.sack_len)),
            payload: part(packet.payload_at, packet.payload_len),
        })
    }

    /// Writes the packet to the front of `room` and returns its length; `room` past it is untouched. Refuses with 5, 6, 8, 7, 9.
    ///
    /// ```
    /// use ribsaddle::{Error, Packet, PacketBuilder, PacketType, SelectiveAck};
    ///
    /// let packet = PacketBuilder::new(PacketType::State, 7, 1_000, 65_536, 1)
    ///     .ack_num(9)
    ///     .selective_ack(SelectiveAck::new(&[0x05, 0, 0, 0x80]))
    ///     .build();
    /// let mut room = [0xEE; 30];
    /// let len = packet.encode(&mut room)?;
    /// assert_eq!(len, packet.encoded_len());
    /// assert_eq!(room[20..], [0, 4, 0x05, 0, 0, 0x80, 0xEE, 0xEE, 0xEE, 0xEE]);
    /// assert_eq!(Packet::decode(&room[..len])?, packet);
    /// assert_eq!(packet.encode(&mut room[..25]), Err(Error::NoRoom));
    /// # Ok::<(), Error>(())
    /// ```
    pub fn encode(&self, room: &mut [u8]) -> Result<usize, Error> {
        let (sack, mut size) = (bytes_of(self.selective_ack), 0);
        // `room` is borrowed alone, so that nothing else reaches it.
        answered(unsafe {
            raw::ribsaddle_encode(
                &self.header,
                sack.as_ptr(),
                sack.len(),
                self.payload.as_ptr(),
                self.payload.len(),
                room.as_mut_ptr(),
                room.len(),
                &mut size,
            )
        })?;
        Ok(size as usize)
    }
}

#[derive(Copy, Clone, Debug)]
pub struct PacketBuilder<'a> {
    packet: Packet<'a>,
}

impl<'a> PacketBuilder<'a> {
    pub fn new(packet_type: PacketType, conn_id: u16, ts_micros: u32, window_size: u32, seq_num: u16) -> Self {
        let header = raw::Header {
            packet_type: packet_type.into(),
            conn_id,
            ts_micros,
            ts_diff_micros: 0,
            window_size,
            seq_num,
            ack_num: 0,
        };
        Self { packet: Packet { packet_type, header, selective_ack: None, payload: &[] } }
    }

    pub fn ts_micros(mut self, ts_micros: u32) -> Self {
        self.packet.header.ts_micros = ts_micros;
        self
    }

    pub fn ts_diff_micros(mut self, ts_diff_micros: u32) -> Self {
        self.packet.header.ts_diff_micros = ts_diff_micros;
        self
    }

    pub fn window_size(mut self, window_size: u32) -> Self {
        self.packet.header.window_size = window_size;
        self
    }

    pub fn ack_num(mut self, ack_num: u16) -> Self {
        self.packet.header.ack_num = ack_num;
        self
    }

    pub fn selective_ack(mut self, selective_ack: Option<SelectiveAck<'a>>) -> Self {
        self.packet.selective_ack = selective_ack;
        self
    }

    pub fn payload(mut self, payload: &'a [u8]) -> Self {
        self.packet.payload = payload;
        self
    }

    pub fn build(self) -> Packet<'a> {
        self.packet
    }
}

impl<'a> From<Packet<'a>> for PacketBuilder<'a> {
    fn from(packet: Packet<'a>) -> Self {
        Self { packet }
    }
}
