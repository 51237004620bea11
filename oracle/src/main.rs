//! The Rust side of the comparison tests: asks utp-rs for its answers and writes them down as lists that the port's
//! programs replay. Usage: oracle LIST FILE; see README.md for the lists.

mod clock;
mod codec;
mod controller;
mod departures;
mod model;
mod receiver;
mod tools;
mod tracker;

/// The source, unchanged. Each file sits in a module of its name; what the driver adds to a module only looks at what is private.
#[allow(dead_code)]
mod packet {
    include!(concat!(env!("UTP_RS_SRC"), "/src/packet.rs"));
}

#[allow(dead_code)]
mod seq {
    include!(concat!(env!("UTP_RS_SRC"), "/src/seq.rs"));
}

mod recv {
    include!(concat!(env!("UTP_RS_SRC"), "/src/recv.rs"));

    impl<const N: usize> ReceiveBuffer<N> {
        /// Ready bytes, waiting bytes, payloads in order.
        pub fn inside(&self) -> (usize, usize, u16) {
            (self.offset, self.pending.values().map(Vec::len).sum(), self.consumed)
        }
    }
}

/// With the one edit: see edit.sh.
#[allow(dead_code)]
mod congestion {
    include!(concat!(env!("ORACLE_BUILD"), "/congestion.rs"));

    impl Controller {
        /// Maximum, in flight, timeout, round trip, variance.
        pub fn inside(&self) -> crate::controller::Numbers {
            (
                self.max_window_size_bytes.into(),
                self.window_size_bytes.into(),
                self.timeout.as_micros(),
                self.rtt.as_micros() as i128,
                self.rtt_variance_micros.into(),
            )
        }
    }
}

#[allow(dead_code)]
mod sent {
    include!(concat!(env!("UTP_RS_SRC"), "/src/sent.rs"));

    impl SentPackets {
        pub fn controller(&self) -> &congestion::Controller {
            &self.congestion_ctrl
        }
    }
}

fn main() {
    std::panic::set_hook(Box::new(|_| {}));
    let arguments: Vec<String> = std::env::args().skip(1).collect();
    let words: Vec<&str> = arguments.iter().map(String::as_str).collect();
    let done = std::panic::catch_unwind(|| match words[..] {
        ["decode", file] => tools::store(file, codec::decode_list()),
        ["encode", file] => tools::store(file, codec::encode_list()),
        ["recv", file] => tools::store(file, receiver::list()),
        ["congestion", file] => tools::store(file, controller::list()),
        ["congestion-clock", file] => tools::store(file, controller::clock_list()),
        ["sent", file] => tools::store(file, tracker::list()),
        ["sent-long", file] => tools::store(file, tracker::long_list()),
        ["departures", file] => tools::store(file, departures::list()),
        _ => panic!("usage: oracle decode|encode|recv|congestion|congestion-clock|sent|sent-long|departures FILE"),
    });
    if let Err(reason) = done {
        let text = reason
            .downcast_ref::<String>()
            .map(String::as_str)
            .or(reason.downcast_ref::<&str>().copied())
            .unwrap_or("unknown reason");
        eprintln!("oracle: {text}");
        std::process::exit(1);
    }
}
