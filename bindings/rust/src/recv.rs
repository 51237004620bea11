use crate::error::{answered, sound, Error};
use crate::packet::SelectiveAck;
use crate::raw;

/// The receiver: puts payloads in order, in a buffer of `N` bytes on the heap, allocated once.
///
/// ```
/// use ribsaddle::{Error, ReceiveBuffer};
///
/// let mut received = ReceiveBuffer::<1_024>::new(65_533)?;
/// received.write(b"two", 65_535)?;
/// received.write(b"three", 0)?;
/// let mut room = [0; 32];
/// let sack = received.selective_ack(&mut room)?.expect("two payloads wait");
/// assert_eq!(sack.as_bytes(), [0x03, 0, 0, 0]);
/// received.write(b"one", 65_534)?;
/// assert_eq!(received.ack_num(), 0);
/// let mut out = [0; 100];
/// let count = received.read(&mut out);
/// assert_eq!(&out[..count], b"onetwothree");
/// assert_eq!(received.write(b"", 300), Err(Error::TooFarAhead));
/// # Ok::<(), Error>(())
/// ```
#[derive(Clone)]
pub struct ReceiveBuffer<const N: usize> {
    state: raw::Recv,
    buf: Box<[u8]>,
}

impl<const N: usize> ReceiveBuffer<N> {
    /// Returns a new buffer. Refuses with 10 where `N` is 0 or above 65,536.
    pub fn new(init_seq_num: u16) -> Result<Self, Error> {
        let mut state = raw::Recv { initial: 0, length: 0, count: 0, ready: 0, span: 0, waiting: [0; 256] };
        answered(unsafe { raw::ribsaddle_recv_new(&mut state, init_seq_num, N) })?;
        Ok(Self { state, buf: vec![0; N].into_boxed_slice() })
    }

    /// What a reader of the state tells.
    fn told(&self, reader: unsafe extern "C" fn(*const raw::Recv, *mut u64) -> u32) -> u64 {
        let mut value = 0;
        sound(unsafe { reader(&self.state, &mut value) });
        value
    }

    /// Returns the number of available bytes remaining in the buffer.
    pub fn available(&self) -> usize {
        self.told(raw::ribsaddle_recv_available) as usize
    }

    /// Returns `true` if the buffer is empty: no byte is ready and nothing waits.
    pub fn is_empty(&self) -> bool {
        self.told(raw::ribsaddle_recv_is_empty) == 1
    }

    /// Returns the number of bytes that are ready to be read.
    pub fn ready(&self) -> usize {
        self.told(raw::ribsaddle_recv_ready) as usize
    }

    /// Returns the number of payloads that wait for an earlier one.
    pub fn waiting(&self) -> usize {
        self.told(raw::ribsaddle_recv_waiting) as usize
    }

    /// Returns the initial sequence number of the buffer.
    pub fn init_seq_num(&self) -> u16 {
        self.told(raw::ribsaddle_recv_init_seq_num) as u16
    }

    /// Returns `true` if data was already written into the buffer for `seq_num`.
    pub fn was_written(&self, seq_num: u16) -> bool {
        let mut value = 0;
        sound(unsafe { raw::ribsaddle_recv_was_written(&self.state, seq_num, &mut value) });
        value == 1
    }

    /// Reads data from the buffer into `out`, the oldest first, returning the number of bytes read. `out` past them is
    /// untouched.
    pub fn read(&mut self, out: &mut [u8]) -> usize {
        let mut count = 0;
        sound(unsafe {
            raw::ribsaddle_recv_read(
                &mut self.state,
                self.buf.as_mut_ptr(),
                self.buf.len(),
                out.as_mut_ptr(),
                out.len(),
                &mut count,
            )
        });
        count as usize
    }

    /// Writes `data` into the buffer at `seq_num`; where it was already written, nothing changes. Refuses with 15, 16, 17.
    ///
    /// Write the payloads of Data and Fin packets only. A State uses up no number: it carries the one that the
    /// next Data will have. Once it is written, so is that number, and the Data changes nothing and is never
    /// read. The same goes for Reset and Syn.
    ///
    /// ```
    /// # use ribsaddle::{Error, PacketBuilder, PacketType, ReceiveBuffer};
    /// let mut received = ReceiveBuffer::<1_024>::new(0)?;
    /// let state = PacketBuilder::new(PacketType::State, 7, 0, 0, 1).build();
    /// let data = PacketBuilder::new(PacketType::Data, 7, 0, 0, 1).payload(b"chart").build();
    /// for packet in [state, data] {
    ///     if matches!(packet.packet_type(), PacketType::Data | PacketType::Fin) {
    ///         received.write(packet.payload(), packet.seq_num())?;
    ///     }
    /// }
    /// assert_eq!(received.ready(), 5);
    /// # Ok::<(), Error>(())
    /// ```
    pub fn write(&mut self, data: &[u8], seq_num: u16) -> Result<(), Error> {
        answered(unsafe {
            raw::ribsaddle_recv_write(
                &mut self.state,
                self.buf.as_mut_ptr(),
                self.buf.len(),
                seq_num,
                data.as_ptr(),
                data.len(),
            )
        })
    }

    /// Returns the last sequence number in a contiguous sequence from the initial sequence number.
    pub fn ack_num(&self) -> u16 {
        self.told(raw::ribsaddle_recv_ack_num) as u16
    }

    /// Writes a selective ACK to the front of `room` and returns it, or `None` where nothing waits. 32 bytes always suffice;
    /// refuses with 9 where there are too few.
    pub fn selective_ack<'r>(&self, room: &'r mut [u8]) -> Result<Option<SelectiveAck<'r>>, Error> {
        let mut size = 0;
        answered(unsafe { raw::ribsaddle_recv_selective_ack(&self.state, room.as_mut_ptr(), room.len(), &mut size) })?;
        Ok(SelectiveAck::new(&room[..size as usize]))
    }
}

impl<const N: usize> std::fmt::Debug for ReceiveBuffer<N> {
    fn fmt(&self, f: &mut std::fmt::Formatter<'_>) -> std::fmt::Result {
        f.debug_struct("ReceiveBuffer")
            .field("init_seq_num", &self.init_seq_num())
            .field("ack_num", &self.ack_num())
            .field("ready", &self.ready())
            .field("waiting", &self.waiting())
            .field("available", &self.available())
            .finish()
    }
}
