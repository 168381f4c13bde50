//! Unix sockets as associations, and a peer's queue over one.
use m2ua_gateway::beats::Beats;
use m2ua_gateway::os;
use m2ua_gateway::peer::{Fate, Peer};
use m2ua_gateway::queue::Mark;
use m2ua_gateway::transport::{Association, Batch, Received, BURST, READ};
use m2ua_trace::capture::stream;
use std::os::fd::OwnedFd;
use std::path::PathBuf;
use std::time::Instant;

fn mark(origin: usize) -> Mark {
    Mark { origin, unit: None }
}

/// Both ends of an association, over a socket of its own.
fn pair(name: &str) -> (Association, OwnedFd) {
    let path: PathBuf = std::env::temp_dir().join(format!("m2ua-{}-{name}", std::process::id()));
    let _ = std::fs::remove_file(&path);
    let listener = os::seqpacket_listen(&path, false).unwrap();
    let there = os::seqpacket_connect(&path).unwrap();
    let here = os::accept(&listener).unwrap();
    std::fs::remove_file(&path).unwrap();
    (Association::Packets(here), there)
}

fn received(association: &mut Association, batch: &mut Batch) -> Vec<(Received, Vec<u8>)> {
    association.receive(batch, BURST);
    (0..batch.len())
        .map(|k| (batch.get(k).0, batch.get(k).1.to_vec()))
        .collect()
}

/// Whether the other end has closed is known before all is read.
#[test]
fn an_end_is_known_behind_what_is_unread() {
    let ((mut here, there), mut batch) = (pair("over"), Batch::new());
    os::transmit(&there, b"unread").unwrap();
    assert!(!here.is_over());
    here.send(b"unread there too");
    drop(there);
    assert!(here.is_over());
    let kinds: Vec<Received> = received(&mut here, &mut batch)
        .iter()
        .map(|(r, _)| *r)
        .collect();
    assert!(!kinds.is_empty() && here.is_over(), "{kinds:?}");
}

#[test]
fn boundaries_are_kept_and_the_end_is_told() {
    let ((mut here, there), mut batch) = (pair("bounds"), Batch::new());
    assert!(received(&mut here, &mut batch).is_empty());
    for message in [&b"one"[..], b"", &[7; 100_000], b"four"] {
        os::transmit(&there, message).unwrap();
    }
    let got = received(&mut here, &mut batch);
    let lengths: Vec<Received> = got.iter().map(|(r, _)| *r).collect();
    assert_eq!(lengths, [3, 0, 100_000, 4].map(Received::Message));
    assert_eq!(
        (&got[0].1[..], &got[1].1[..], &got[3].1[..]),
        (&b"one"[..], &b""[..], &b"four"[..])
    );
    assert_eq!(got[2].1, [7; READ]);
    // an empty packet, a message, and then the end
    os::transmit(&there, b"").unwrap();
    os::transmit(&there, b"last").unwrap();
    drop(there);
    let got = received(&mut here, &mut batch);
    let kinds: Vec<Received> = got.iter().map(|(r, _)| *r).collect();
    assert_eq!(
        kinds,
        [Received::Message(0), Received::Message(4), Received::Ended]
    );
}

#[test]
fn an_empty_packet_alone_is_no_end() {
    let ((mut here, there), mut batch) = (pair("empty"), Batch::new());
    os::transmit(&there, b"").unwrap();
    assert_eq!(
        received(&mut here, &mut batch),
        [(Received::Message(0), vec![])]
    );
    drop(there);
    assert_eq!(received(&mut here, &mut batch), [(Received::Ended, vec![])]);
}

#[test]
fn so_much_at_a_time() {
    let ((mut here, there), mut batch) = (pair("burst"), Batch::new());
    for k in 0..40u8 {
        os::transmit(&there, &[k]).unwrap();
    }
    let first = received(&mut here, &mut batch);
    let second = received(&mut here, &mut batch);
    assert_eq!((first.len(), second.len()), (BURST, 40 - BURST));
    let all: Vec<u8> = first.iter().chain(&second).map(|(_, m)| m[0]).collect();
    assert_eq!(all, (0..40).collect::<Vec<u8>>());
}

#[test]
fn a_queue_is_bounded_and_nothing_is_lost() {
    let (association, there) = pair("queue");
    let mut peer = Peer::new("p", "asp-p".into(), 65536, 3, Beats::new(None));
    assert_eq!(peer.send(b"early", mark(0), Instant::now()), Fate::Absent);
    peer.begin(association, Instant::now());
    let mut taken = 0u32;
    let fate = loop {
        let mut message = [0; 200];
        message[..4].copy_from_slice(&taken.to_be_bytes());
        match peer.send(&message, mark(taken as usize % 3), Instant::now()) {
            Fate::Taken => taken += 1,
            other => break other,
        }
        // at the end of a turn
        if taken.is_multiple_of(10) {
            assert!(peer.flush(Instant::now()));
        }
    };
    assert_eq!(fate, Fate::Overflow);
    let (bytes, waiting) = peer.waiting();
    assert!(bytes <= 65536 && bytes + 264 > 65536 && waiting == 65536 / 264);
    assert_eq!(
        (0..3).map(|origin| peer.share(origin)).sum::<usize>(),
        bytes
    );
    // the other end reads all of it, in its sequence
    let (mut there, mut batch, mut next) = (Association::Packets(there), Batch::new(), 0u32);
    while next < taken {
        for (what, message) in received(&mut there, &mut batch) {
            assert_eq!(
                (what, &message[..4]),
                (Received::Message(200), &next.to_be_bytes()[..])
            );
            next += 1;
        }
        peer.unblock();
        assert!(peer.flush(Instant::now()));
    }
    let counts = peer.counts;
    assert_eq!(
        (counts.ordered, counts.sent, counts.dropped),
        (u64::from(taken) + 2, u64::from(taken), 2)
    );
    assert_eq!((peer.waiting(), peer.share(0)), ((0, 0), 0));
    // what waits when the association ends is dropped, and counted
    while peer.waiting().1 < 5 {
        peer.send(&[1; 200], mark(0), Instant::now());
    }
    let dropped = peer.end().1;
    let counts = peer.counts;
    assert_eq!((dropped, counts.ordered), (5, counts.sent + counts.dropped));
}

#[test]
fn traffic_has_a_stream_of_its_own() {
    let of = |class| stream(&[1, 0, class, 1, 0, 0, 0, 8]);
    assert_eq!([0, 3, 4, 6].map(of), [0, 0, 1, 1]);
    assert_eq!(stream(&[]), 0);
}
