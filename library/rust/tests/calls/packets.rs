use crate::{datagram_of, end_packet, packet, SESSION};
use mold::{Error, Kind, Packer, Packet, Request, Session};

#[test]
fn packets_are_decoded() {
    let datagram = packet(7, &[b"AB", b"", b"Z"]);
    let decoded = Packet::decode(&datagram).unwrap();
    assert_eq!((decoded.session(), decoded.sequence(), decoded.kind()), (SESSION, 7, Kind::Data));
    assert_eq!(decoded.messages().len(), 3);
    assert!(decoded.messages().eq([&b"AB"[..], b"", b"Z"]));

    let heartbeat = packet(8, &[]);
    let decoded = Packet::decode(&heartbeat).unwrap();
    assert_eq!((decoded.sequence(), decoded.kind(), decoded.messages().next()), (8, Kind::Heartbeat, None));
    let end = end_packet(9);
    let decoded = Packet::decode(&end).unwrap();
    assert_eq!((decoded.sequence(), decoded.kind(), decoded.messages().next()), (9, Kind::End, None));
}

/// A packet with the greatest number of messages, and one with a message of the greatest length.
#[test]
fn the_greatest_packets_are_decoded() {
    let many = datagram_of(SESSION, u64::MAX, 65534, &[0; 2 * 65534]);
    assert_eq!(Packet::decode(&many).unwrap().messages().filter(|message| message.is_empty()).count(), 65534);
    let longest = packet(1, &[&[7; 65535], b"A"]);
    assert!(Packet::decode(&longest).unwrap().messages().eq([&[7; 65535][..], b"A"]));
}

#[test]
fn other_bytes_are_refused() {
    let refused = |datagram: &[u8]| Packet::decode(datagram).unwrap_err();
    assert_eq!(refused(b""), Error::Short { length: 0 });
    assert_eq!(refused(&datagram_of(SESSION, 1, 2, b"\0\x01X\0")), Error::BlockCut { whole: 1 });
    assert_eq!(refused(&datagram_of(SESSION, 1, 1, b"\0\x01XY")), Error::Trailing { offset: 23 });
}

#[test]
fn requests_are_encoded_and_decoded() {
    let request = Request { session: SESSION, sequence: 2, count: 3 };
    assert_eq!(&request.encode(), b"SESSION001\0\0\0\0\0\0\0\x02\0\x03");
    assert_eq!(Request::decode(&request.encode()), Ok(request));
    assert_eq!(Request::decode(&[0; 21]), Err(Error::RequestLength { length: 21 }));
}

#[test]
fn packets_are_packed() {
    let mut buffer = [0; 64];
    let mut packer = Packer::new(&mut buffer);
    assert_eq!(packer.packet(), b"");
    assert_eq!(packer.add(b"AB"), Err(Error::Full));
    packer.start(SESSION, 7).unwrap();
    assert_eq!(packer.packet(), packet(7, &[]));
    assert!(packer.fits(42) && !packer.fits(43) && !packer.fits(usize::MAX));
    packer.add(&[1; 20]).unwrap();
    packer.add(b"").unwrap();
    assert_eq!(packer.add(&[1; 19]), Err(Error::Full));
    assert_eq!(packer.packet(), packet(7, &[&[1; 20], b""]));
    assert_eq!(packer.count(), 2);
    packer.end(SESSION, 9).unwrap();
    assert_eq!(packer.packet(), end_packet(9));
    assert_eq!(packer.add(b""), Err(Error::Full));
}

#[test]
fn a_packer_needs_a_buffer_of_64_bytes_to_65507() {
    for length in [0, 63, 65508] {
        let mut buffer = vec![0; length];
        let mut packer = Packer::new(&mut buffer);
        assert_eq!(packer.start(SESSION, 1), Err(Error::Limit));
        assert_eq!(packer.end(SESSION, 1), Err(Error::Limit));
        assert!(packer.packet().is_empty() && !packer.fits(0));
    }
}

#[test]
fn sessions_are_named() {
    const PADDED: Option<Session> = Session::padded("DEMO");
    assert_eq!(PADDED, Some(Session(*b"DEMO      ")));
    assert_eq!(Session::padded("0123456789"), Some(Session(*b"0123456789")));
    assert_eq!(Session::padded("0123456789A"), None);
    assert_eq!(format!("{:?}", Session(*b"DEMO\xff     ")), "Session(\"DEMO\\xff     \")");
}
