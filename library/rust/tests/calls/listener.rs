use crate::{end_packet, packet, refused_datagrams, SESSION};
use mold::{Error, Listener, Origin, Report, Taken};

fn listener() -> Listener {
    Listener::new(SESSION, 1, 64).unwrap()
}

#[test]
fn messages_are_delivered_in_order() {
    let mut listener = listener();
    let taken = listener.take(Origin::LineA, &packet(3, &[b"three", b""])).unwrap();
    assert_eq!(taken, Taken { delivered: 0, kept: 2, dropped: 0 });
    assert_eq!((listener.batch().len(), listener.message(0)), (0, None));
    let taken = listener.take(Origin::LineB, &packet(1, &[b"one", b"two"])).unwrap();
    assert_eq!(taken, Taken { delivered: 4, kept: 0, dropped: 0 });
    assert_eq!(listener.batch().len(), 4);
    assert!(listener.batch().eq([(1, &b"one"[..]), (2, b"two"), (3, b"three"), (4, b"")]));
    assert_eq!((listener.message(2), listener.message(3)), (Some(&b"three"[..]), Some(&b""[..])));
    assert_eq!(listener.message(4), None);
    listener.clear();
    assert_eq!((listener.batch().next(), listener.next(), listener.finished()), (None, 5, false));
    assert_eq!(listener.take(Origin::Server(0), &end_packet(5)).unwrap(), Taken::default());
    assert!(listener.finished());
}

#[test]
fn messages_are_delivered_without_a_copy() {
    let mut listener = listener();
    let delivered = listener.hear(Origin::LineA, &packet(3, &[b"three", b""])).map(|it| (it.len(), it.kept())).unwrap();
    assert_eq!(delivered, (0, 2));
    let datagram = packet(1, &[b"one", b"two"]);
    let delivered = listener.hear(Origin::LineB, &datagram).unwrap();
    assert_eq!((delivered.len(), delivered.kept(), delivered.dropped()), (4, 0, 0));
    assert!(delivered.eq([(1, &b"one"[..]), (2, b"two"), (3, b"three"), (4, b"")]));
    assert!(listener.batch().eq([(3, &b"three"[..]), (4, b"")]));
    // The first message of this datagram was delivered before.
    let datagram = packet(4, &[b"", b"five"]);
    assert!(listener.hear(Origin::Server(0), &datagram).unwrap().eq([(5, &b"five"[..])]));
    assert_eq!(listener.hear(Origin::LineA, &packet(70, &[b"far"])).unwrap().dropped(), 1);
    assert_eq!(listener.batch().len(), 0);
}

/// Messages that `take` or `skip` delivered are not lost: `hear` is refused until they are cleared.
#[test]
fn the_batch_is_cleared_before_hear() {
    let mut listener = listener();
    listener.take(Origin::LineA, &packet(1, &[b"one"])).unwrap();
    assert_eq!(listener.hear(Origin::LineA, &packet(2, &[b"two"])).map(|_| ()), Err(Error::Batch));
    assert_eq!(listener.hear(Origin::LineA, b"").map(|_| ()), Err(Error::Batch));
    assert_eq!(listener.hear(Origin::Server(1), b"").map(|_| ()), Err(Error::Line));
    assert!(listener.batch().eq([(1, &b"one"[..])]));
    assert_eq!((listener.next(), listener.report(Origin::LineA).unwrap().refused), (2, 0));
    listener.clear();
    assert_eq!(listener.hear(Origin::LineA, &packet(4, &[b"four"])).unwrap().kept(), 1);
    listener.skip(4).unwrap();
    assert_eq!(listener.hear(Origin::LineA, &packet(5, &[b"five"])).map(|_| ()), Err(Error::Batch));
    assert!(listener.batch().eq([(4, &b"four"[..])]));
    listener.clear();
    assert!(listener.hear(Origin::LineA, &packet(5, &[b"five"])).unwrap().eq([(5, &b"five"[..])]));
}

#[test]
fn datagrams_are_refused() {
    let mut listener = listener();
    listener.take(Origin::LineA, &packet(5, &[b"five"])).unwrap();
    assert_eq!(listener.take(Origin::LineA, &end_packet(5)), Err(Error::EndBelow { top: 6 }));
    listener.take(Origin::LineA, &end_packet(7)).unwrap();
    let refused = refused_datagrams();
    for (datagram, error) in &refused {
        assert_eq!(listener.take(Origin::LineB, datagram), Err(*error));
        assert_eq!(listener.hear(Origin::LineB, datagram).map(|_| ()), Err(*error));
    }
    assert_eq!(listener.take(Origin::Server(1), b""), Err(Error::Line));
    assert_eq!(listener.take(Origin::Server(usize::MAX), b""), Err(Error::Line));
    assert_eq!((listener.next(), listener.known(), listener.batch().len()), (1, 7, 0));
    let counted = Report { datagrams: 0, refused: 2 * refused.len() as u64, front: 1 };
    assert_eq!(listener.report(Origin::LineB), Ok(counted));
    assert_eq!(listener.report(Origin::LineA), Ok(Report { datagrams: 2, refused: 1, front: 7 }));
    assert_eq!(listener.report(Origin::Server(0)), Err(Error::Line));
}

/// Every second message is missing. There are more ranges than one call of the library writes.
#[test]
fn missing_messages_are_listed() {
    let mut listener = listener();
    assert_eq!((listener.wanted(), listener.ranges(0).next()), (None, None));
    for sequence in (2..=40).step_by(2) {
        listener.take(Origin::LineA, &packet(sequence, &[b"even"])).unwrap();
    }
    listener.take(Origin::LineA, &packet(50, &[])).unwrap();
    let missing = (1..40).step_by(2).map(|sequence| sequence..=sequence).chain([41..=49]);
    assert!(listener.ranges(0).eq(missing));
    assert!(listener.ranges(45).eq([45..=49]));
    assert_eq!(listener.wanted().as_ref(), Some(b"SESSION001\0\0\0\0\0\0\0\x01\0\x01"));
}

#[test]
fn missing_messages_are_given_up() {
    let mut listener = listener();
    listener.take(Origin::LineA, &packet(3, &[b"three"])).unwrap();
    assert_eq!(listener.skip(1), Err(Error::NotMissing));
    assert_eq!(listener.skip(4), Err(Error::NotMissing));
    listener.skip(3).unwrap();
    assert!(listener.batch().eq([(3, &b"three"[..])]));
    assert_eq!((listener.skip(5), listener.next()), (Err(Error::Batch), 4));
}

#[test]
fn a_listener_has_a_first_number_and_a_window() {
    assert_eq!(Listener::new(SESSION, 0, 1).unwrap_err(), Error::NextZero);
    assert_eq!(Listener::new(SESSION, 1, 0).unwrap_err(), Error::Window);
    assert_eq!(Listener::new(SESSION, 1, 1_048_577).unwrap_err(), Error::Window);
    assert_eq!(Listener::bounded(SESSION, 1, 1, 65_506).unwrap_err(), Error::Options);
    assert_eq!(Listener::bounded(SESSION, 7, 1, 65_507).unwrap().next(), 7);
    let listener = Listener::new(SESSION, 7, 1).unwrap();
    assert_eq!((listener.next(), listener.known()), (7, 7));
}
