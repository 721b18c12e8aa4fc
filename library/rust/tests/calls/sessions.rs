use crate::{end_packet, packet, OTHER, SESSION};
use mold::{Error, Publisher, Request, Server};

/// A publisher with limit 64 that has sent all these messages.
fn publisher_of(messages: &[&[u8]]) -> Publisher {
    let mut publisher = Publisher::new(SESSION, 64).unwrap();
    for message in messages {
        publisher.publish(message).unwrap();
    }
    while publisher.datagram(&mut [0; 64]).unwrap().is_some() {}
    publisher
}

fn request(sequence: u64, count: u16) -> [u8; 20] {
    Request { session: SESSION, sequence, count }.encode()
}

#[test]
fn a_session_is_published() {
    let mut publisher = Publisher::new(SESSION, 64).unwrap();
    let mut buffer = [0; 64];
    assert_eq!(publisher.datagram(&mut buffer), Ok(None));
    assert_eq!(publisher.heartbeat(&mut buffer), Ok(Some(&packet(1, &[])[..])));
    assert_eq!((publisher.publish(&[1; 20]), publisher.publish(&[2; 20])), (Ok(1), Ok(2)));
    assert!(!publisher.is_full());
    assert_eq!(publisher.publish(b""), Ok(3));
    assert!(publisher.is_full());
    assert_eq!(publisher.publish(&[4; 43]), Err(Error::TooLong { length: 43 }));
    assert_eq!(publisher.close(), Err(Error::Unsent { count: 3 }));
    assert_eq!(publisher.datagram(&mut buffer[..63]), Err(Error::Room { needed: 64 }));
    assert_eq!(publisher.datagram(&mut buffer), Ok(Some(&packet(1, &[&[1; 20], &[2; 20]])[..])));
    assert_eq!(publisher.datagram(&mut buffer), Ok(Some(&packet(3, &[b""])[..])));
    assert_eq!(publisher.end(&mut buffer), Ok(None));
    assert_eq!((publisher.close(), publisher.close()), (Ok(()), Ok(())));
    assert_eq!(publisher.end(&mut buffer), Ok(Some(&end_packet(4)[..])));
    assert_eq!((publisher.publish(b"five"), publisher.heartbeat(&mut buffer)), (Err(Error::Closed), Ok(None)));
    assert_eq!(Publisher::new(SESSION, 63).unwrap_err(), Error::Limit);
}

#[test]
fn a_journal_is_saved() {
    let publisher = publisher_of(&[b"AB", b""]);
    let wanted = b"MOLDJNL2SESSION001\0\0\0\0\0\0\0\0\x02\0\x02AB\0\0";
    let mut buffer = [0; 40];
    assert_eq!(publisher.save(&mut buffer[..32]), Err(Error::Room { needed: 33 }));
    assert_eq!(publisher.save(&mut buffer), Ok(&wanted[..]));
    assert_eq!(publisher.journal().unwrap(), wanted);
}

#[test]
fn a_session_is_continued() {
    let mut publisher = publisher_of(&[b"AB", b""]);
    let mut buffer = [0; 40];
    let head = b"MOLDJNL3SESSION001\0";
    assert_eq!(publisher.journal_head(&mut buffer[..18]), Err(Error::Room { needed: 19 }));
    assert_eq!(publisher.journal_head(&mut buffer), Ok(&head[..]));
    let records = b"\x01\0\0\x02AB\x01\0\0\0\0";
    assert_eq!(publisher.journal_records(1, &mut buffer[..10]), Err(Error::Room { needed: 11 }));
    assert_eq!(publisher.journal_records(1, &mut buffer), Ok(Some(&records[..])));
    assert_eq!(publisher.journal_records(2, &mut buffer), Ok(Some(&records[6..])));
    assert_eq!(publisher.journal_records(0, &mut buffer), Ok(None));
    assert_eq!(publisher.journal_records(4, &mut buffer), Ok(None));
    publisher.close().unwrap();
    assert_eq!(publisher.journal_records(3, &mut buffer), Ok(Some(&b"\x01\x01\0"[..])));

    let file = [&head[..18], &records[..]].concat();
    let (mut resumed, gate) = Publisher::resume(64, &file).unwrap();
    assert_eq!((gate, resumed.publish(b"CD")), (28, Ok(3)));
    assert_eq!(resumed.datagram(&mut [0; 64]), Ok(Some(&packet(3, &[b"CD"])[..])));
    assert_eq!(Publisher::resume(64, &head[..17]).unwrap_err(), Error::FileShort { length: 17 });
    assert_eq!(Publisher::resume(64, &resumed.journal().unwrap()).unwrap_err(), Error::BadMagic);
}

#[test]
fn requests_are_answered() {
    let server =
        Server::new(64, 2, &publisher_of(&[&[1; 20], &[2; 20], &[3; 20], &[4; 20]]).journal().unwrap()).unwrap();
    let mut buffer = [0; 64];
    assert_eq!(server.answer(&request(2, 2), &mut buffer), Ok(&packet(2, &[&[2; 20], &[3; 20]])[..]));
    assert_eq!(server.answer(&request(2, 2), &mut buffer[..63]), Err(Error::Room { needed: 64 }));
    let mut plan = server.plan(&request(2, 9)).unwrap();
    assert_eq!((plan.from(), plan.to(), plan.left()), (2, 5, 2));
    assert_eq!(server.datagram(&mut plan, &mut buffer[..63]), Err(Error::Room { needed: 64 }));
    assert_eq!(server.datagram(&mut plan, &mut buffer), Ok(Some(&packet(2, &[&[2; 20], &[3; 20]])[..])));
    assert_eq!(server.datagram(&mut plan, &mut buffer), Ok(Some(&packet(4, &[&[4; 20]])[..])));
    assert_eq!(server.datagram(&mut plan, &mut buffer), Ok(None));
}

#[test]
fn requests_are_refused() {
    let server = Server::new(64, 1, &publisher_of(&[b"one"]).journal().unwrap()).unwrap();
    let of_another = Request { session: OTHER, sequence: 1, count: 1 }.encode();
    for (request, error) in [
        (&b"short"[..], Error::RequestLength { length: 5 }),
        (&of_another, Error::WrongSession),
        (&request(0, 1), Error::SequenceZero),
        (&request(1, 0), Error::EmptyRequest),
        (&request(2, 1), Error::Ahead { next: 2 }),
    ] {
        assert_eq!(server.answer(request, &mut [0; 64]), Err(error));
        assert_eq!(server.plan(request).unwrap_err(), error);
    }
}

#[test]
fn a_live_publisher_responds() {
    let mut publisher = publisher_of(&[b"one"]);
    let mut buffer = [0; 64];
    assert_eq!(publisher.server().answer(&request(1, 1), &mut buffer), Err(Error::Broken));
    assert_eq!((publisher.serve(0), publisher.serve(65)), (Err(Error::Burst), Err(Error::Burst)));
    publisher.serve(4).unwrap();
    assert_eq!(publisher.serve(4), Err(Error::Broken));
    let mut plan = publisher.server().plan(&request(1, 9)).unwrap();
    publisher.publish(b"two").unwrap();
    assert_eq!(publisher.server().datagram(&mut plan, &mut buffer), Ok(Some(&packet(1, &[b"one"])[..])));
    // A plan of another session does not fit.
    let other = Publisher::new(OTHER, 64).map(|it| Server::new(64, 4, &it.journal().unwrap()).unwrap()).unwrap();
    let mut plan = publisher.server().plan(&request(1, 9)).unwrap();
    assert_eq!(other.datagram(&mut plan, &mut buffer), Err(Error::Broken));
}

/// A journal of version 2 with a flag, a count of messages and blocks.
fn journal(flag: u8, count: u64, blocks: &[u8]) -> Vec<u8> {
    [b"MOLDJNL2SESSION001", &[flag][..], &count.to_be_bytes(), blocks].concat()
}

#[test]
fn journals_are_refused() {
    for (bytes, error) in [
        (b"MOLDJNL2".to_vec(), Error::FileShort { length: 8 }),
        (vec![0; 30], Error::BadMagic),
        (journal(2, 0, b""), Error::BadFlag { flag: 2 }),
        (journal(0, 2, b"\0\0\0\x02A"), Error::FileCut { sequence: 2 }),
        (journal(0, 3, b"\0\0\0\x01A"), Error::CountDiffers { count: 2 }),
        (journal(0, 1, &[&[0, 43][..], &[7; 43]].concat()), Error::TooLong { length: 43 }),
        (b"MOLDJNL3SESSION001".to_vec(), Error::Damaged { sequence: 1 }),
    ] {
        assert_eq!(Server::new(64, 1, &bytes).unwrap_err(), error);
    }
    assert_eq!(Server::new(63, 1, &journal(0, 0, b"")).unwrap_err(), Error::Limit);
    assert_eq!(Server::new(64, 0, &journal(0, 0, b"")).unwrap_err(), Error::Burst);
}
