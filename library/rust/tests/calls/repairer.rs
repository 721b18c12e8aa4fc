use crate::{end_packet, packet, SESSION};
use mold::{Error, Origin, RepairOptions, Repairer, Request, Taken};
use std::time::Duration;

const MS: Duration = Duration::from_millis(1);
/// One nanosecond above the greatest time.
const TOO_LATE: Duration = Duration::from_nanos(1 << 62);

fn options() -> RepairOptions {
    RepairOptions { patience: MS, servers: 2, ..Default::default() }
}

fn request(sequence: u64, count: u16) -> [u8; 20] {
    Request { session: SESSION, sequence, count }.encode()
}

/// Calls `poll` at each deadline, until it returns a request or nothing is missing.
fn next_request(repairer: &mut Repairer, mut now: Duration) -> Option<(Duration, usize, [u8; 20])> {
    loop {
        if let Some((server, request)) = repairer.poll(now).unwrap() {
            return Some((now, server, request));
        }
        now = repairer.deadline(now).unwrap()?;
    }
}

/// Messages 2 and 3 are lost on both lines. Server 0 does not respond, so they are requested from server 1.
#[test]
fn a_gap_is_repaired() {
    let mut repairer = Repairer::new(SESSION, &options()).unwrap();
    assert_eq!(repairer.deadline(Duration::ZERO), Ok(None));
    repairer.take(Duration::ZERO, Origin::LineA, &packet(1, &[b"one"])).unwrap();
    let taken = repairer.take(Duration::ZERO, Origin::LineB, &packet(4, &[b"four"])).unwrap();
    assert_eq!(taken, Taken { delivered: 0, kept: 1, dropped: 0 });
    assert!(repairer.listener().batch().eq([(1, &b"one"[..])]));
    assert!(repairer.listener().ranges(0).eq([2..=3]));
    repairer.clear();
    let (first, server, asked) = next_request(&mut repairer, Duration::ZERO).unwrap();
    assert_eq!((server, asked), (0, request(2, 2)));
    let (second, server, asked) = next_request(&mut repairer, first).unwrap();
    assert_eq!((second, server, asked), (first + options().timeout, 1, request(2, 2)));
    let taken = repairer.take(second, Origin::Server(1), &packet(2, &[b"two", b"three"])).unwrap();
    assert_eq!(taken, Taken { delivered: 3, kept: 0, dropped: 0 });
    assert!(repairer.listener().batch().eq([(2, &b"two"[..]), (3, b"three"), (4, b"four")]));
    assert_eq!((repairer.poll(second), repairer.deadline(second)), (Ok(None), Ok(None)));
    repairer.take(second, Origin::LineA, &end_packet(5)).unwrap();
    assert!(repairer.listener().finished());
}

/// No server has message 1. After two requests it is given up.
#[test]
fn a_gap_is_given_up() {
    let mut repairer = Repairer::new(SESSION, &RepairOptions { give_up: 2, ..options() }).unwrap();
    repairer.take(Duration::ZERO, Origin::LineA, &packet(2, &[b"two"])).unwrap();
    let (mut now, mut requests) = (Duration::ZERO, 0);
    let lost = loop {
        if let Some(lost) = repairer.lost(now).unwrap() {
            break lost;
        }
        requests += usize::from(repairer.poll(now).unwrap().is_some());
        now = repairer.deadline(now).unwrap().unwrap();
    };
    assert_eq!((lost, requests), (1..=1, 2));
    assert!(repairer.listener().batch().eq([(2, &b"two"[..])]));
    assert_eq!(repairer.lost(now), Err(Error::Batch));
    assert_eq!((repairer.stats().lost, repairer.stats().requests), (1, 2));
}

#[test]
fn statistics_are_counted() {
    let options = RepairOptions { patience: Duration::ZERO, audit: 8, ..options() };
    let mut repairer = Repairer::new(SESSION, &options).unwrap();
    let empty = repairer.stats();
    assert_eq!((empty.next, empty.known, empty.gap, empty.contradiction), (1, 1, None, None));
    repairer.take(Duration::ZERO, Origin::LineA, &packet(1, &[b"one"])).unwrap();
    repairer.take(3 * MS, Origin::LineB, &packet(1, &[b"one"])).unwrap();
    repairer.take(3 * MS, Origin::LineB, &packet(4, &[b"four"])).unwrap();
    repairer.take(3 * MS, Origin::LineA, b"").unwrap_err();
    repairer.take(3 * MS, Origin::Server(0), &packet(1, &[b"ONE"])).unwrap();
    let stats = repairer.stats();
    assert_eq!((stats.next, stats.known, stats.gap), (2, 5, Some(2..=3)));
    assert_eq!((stats.missing, stats.stored, stats.answers, stats.useless), (2, 1, 1, 1));
    assert_eq!((stats.contradictions, stats.contradiction), (1, Some(1)));
    assert_eq!((stats.a.datagrams, stats.a.first, stats.a.again, stats.a.refused), (1, 1, 0, 1));
    assert_eq!((stats.b.datagrams, stats.b.first, stats.b.again, stats.b.late), (2, 1, 1, 3 * MS));
}

#[test]
fn options_have_defaults_and_ranges() {
    let default = RepairOptions::default();
    assert_eq!((default.next, default.window, default.servers, default.give_up, default.audit), (1, 65_536, 1, 0, 0));
    assert_eq!((default.patience, default.timeout, default.ceiling), (Duration::ZERO, 50 * MS, 1000 * MS));
    assert_eq!((default.settle, default.interval, default.bucket, default.places), (2 * MS, MS, 32, 256));
    for (options, error) in [
        (RepairOptions { servers: 9, ..options() }, Error::Options),
        (RepairOptions { settle: Duration::MAX, ..options() }, Error::Options),
        (RepairOptions { next: 0, ..options() }, Error::NextZero),
        (RepairOptions { window: 0, ..options() }, Error::Window),
    ] {
        assert_eq!(Repairer::new(SESSION, &options).unwrap_err(), error);
    }
}

#[test]
fn times_and_origins_have_ranges() {
    let mut repairer = Repairer::new(SESSION, &options()).unwrap();
    for time in [TOO_LATE, Duration::MAX] {
        assert_eq!(repairer.take(time, Origin::Server(1), &packet(1, &[b"one"])), Err(Error::Time));
        assert_eq!(repairer.poll(time), Err(Error::Time));
        assert_eq!(repairer.deadline(time), Err(Error::Time));
        assert_eq!(repairer.lost(time), Err(Error::Time));
    }
    let latest = TOO_LATE - Duration::from_nanos(1);
    assert_eq!(repairer.take(latest, Origin::Server(2), b""), Err(Error::Line));
    assert_eq!(repairer.take(latest, Origin::LineA, b"abc"), Err(Error::Short { length: 3 }));
}
