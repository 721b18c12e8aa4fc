use crate::{end_packet, packet, refused_datagrams};
use mold::{Checker, Error, Verdict};

#[test]
fn a_session_is_checked() {
    let mut checker = Checker::new().unwrap();
    assert_eq!(checker.verdict(), Ok(Verdict::Incomplete { end: None, ranges: 0 }));
    for datagram in [packet(2, &[b"two"]), end_packet(6), packet(4, &[b"four"])] {
        checker.take(&datagram).unwrap();
    }
    assert_eq!(checker.verdict(), Ok(Verdict::Incomplete { end: Some(6), ranges: 3 }));
    assert_eq!(checker.ranges(), Ok(vec![1..=1, 3..=3, 5..=5]));
    for datagram in [packet(5, &[b"five"]), packet(1, &[b"one", b"two", b"three"])] {
        checker.take(&datagram).unwrap();
    }
    assert_eq!((checker.verdict(), checker.ranges()), (Ok(Verdict::Whole { messages: 5 }), Ok(vec![])));
}

#[test]
fn datagrams_are_refused() {
    let mut checker = Checker::new().unwrap();
    checker.take(&packet(5, &[b"five"])).unwrap();
    assert_eq!(checker.take(&end_packet(5)), Err(Error::EndBelow { top: 6 }));
    checker.take(&end_packet(7)).unwrap();
    for (datagram, error) in refused_datagrams() {
        assert_eq!(checker.take(&datagram), Err(error));
    }
}
