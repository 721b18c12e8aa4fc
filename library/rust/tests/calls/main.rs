//! Tests of every method, and of every refusal that a safe program can meet, except for a lack of memory. The expected
//! values come from the protocol and from `mold.h`.

mod checker;
mod listener;
mod packets;
mod repairer;
mod sessions;

use mold::{Error, Session};

const SESSION: Session = Session(*b"SESSION001");
const OTHER: Session = Session(*b"SESSION002");

/// A packet of a session: its header with a count, and the bytes that follow.
fn datagram_of(session: Session, sequence: u64, count: u16, blocks: &[u8]) -> Vec<u8> {
    [&session.0[..], &sequence.to_be_bytes(), &count.to_be_bytes(), blocks].concat()
}

/// A data packet with these messages, or a heartbeat if there are none.
fn packet(sequence: u64, messages: &[&[u8]]) -> Vec<u8> {
    let block = |message: &&[u8]| [&(message.len() as u16).to_be_bytes(), *message].concat();
    let blocks = messages.iter().flat_map(block).collect::<Vec<_>>();
    datagram_of(SESSION, sequence, messages.len() as u16, &blocks)
}

fn end_packet(sequence: u64) -> Vec<u8> {
    datagram_of(SESSION, sequence, 0xffff, b"")
}

/// Datagrams that a receiver refuses after it took message 5, `five`, and an end packet with number 7.
fn refused_datagrams() -> Vec<(Vec<u8>, Error)> {
    vec![
        (b"SESSION001".to_vec(), Error::Short { length: 10 }),
        (datagram_of(SESSION, 1, 2, b"\0\x01X\0"), Error::BlockCut { whole: 1 }),
        (datagram_of(SESSION, 1, 1, b"\0\x01XY"), Error::Trailing { offset: 23 }),
        (datagram_of(OTHER, 1, 1, b"\0\x01X"), Error::WrongSession),
        (packet(0, &[b"X"]), Error::SequenceZero),
        (packet(u64::MAX, &[b"X"]), Error::PastLast),
        (end_packet(8), Error::EndConflict { end: 7 }),
        (packet(7, &[b"X"]), Error::PastEnd { end: 7 }),
        (packet(5, &[b"FIVE"]), Error::Conflict { sequence: 5 }),
    ]
}

#[test]
fn the_library_has_the_version_of_the_crate() {
    let parts: Vec<u32> = env!("CARGO_PKG_VERSION").split('.').map(|part| part.parse().unwrap()).collect();
    assert_eq!(mold::library_version(), parts[0] * 1_000_000 + parts[1] * 1000 + parts[2]);
}

#[test]
fn errors_have_codes_texts_and_numbers() {
    let short = mold::Packet::decode(b"abc").unwrap_err();
    assert_eq!((short.code(), short.number()), (1, Some(3)));
    assert_eq!((Error::Memory.code(), Error::Memory.number()), (7, None));
    let shown: Box<dyn std::error::Error + Send + Sync> = Box::new(short);
    assert_eq!(shown.to_string(), "a packet has at least 20 bytes");
    assert_eq!(Error::Unknown { code: 1000 }.text(), "unknown code");
}

#[test]
fn handles_are_sent_to_other_threads() {
    fn sent<T: Send>() {}
    sent::<mold::Repairer>();
    sent::<mold::Publisher>();
    sent::<mold::Server>();
    sent::<mold::Checker>();
    let mut listener = mold::Listener::new(SESSION, 1, 16).unwrap();
    let thread = std::thread::spawn(move || {
        listener.take(mold::Origin::LineA, &packet(1, &[b"one"])).unwrap();
        listener
    });
    assert_eq!(thread.join().unwrap().message(0), Some(&b"one"[..]));
}
