//! Forwarding of frames. What becomes of each kind of frame is tested from C; here that the crate passes it on.
use hokhtura::MAX_FRAMES;
use hokhtura::{Addressed, Error, Fib, FirstLevel, Forwarder, Frame, NextHop, Port, Reason, Route, Verdict};
use std::net::Ipv4Addr;
use std::thread;

const MAC: [u8; 6] = [2, 0, 0, 0, 0, 1];
const TO: [u8; 6] = [2, 0, 0, 0, 0, 9];
const SENT: Verdict = Verdict::Send { port: 1, tagged: false };

/// A frame from 10.0.0.1 to 10.1.2.3, whose checksum is right with time to live 64.
fn frame(time: u8) -> Vec<u8> {
    let header = [0x45, 0, 0, 20, 0, 0, 0, 0, time, 0x11, 0x64, 0xd5, 10, 0, 0, 1, 10, 1, 2, 3];
    [&MAC[..], &[7; 6], &[8, 0], &header].concat()
}

/// It with a time to live one less: the checksum is 0x64d5 + 0x0100.
fn sent() -> Vec<u8> {
    let mut left = frame(63);
    left[..6].copy_from_slice(&TO);
    left[6..12].copy_from_slice(&[2, 0, 0, 0, 0, 2]);
    left[24] = 0x65;
    left
}

fn forwarder() -> Result<(Fib, Forwarder), Error> {
    let port = Port { mac: MAC, address: Some((Ipv4Addr::new(10, 1, 2, 1), 30)) };
    let ports = [port, Port { mac: [2, 0, 0, 0, 0, 2], address: None }];
    let hops = [NextHop { port: 9, to: TO }, NextHop { port: 1, to: TO }];
    let mut fib = Fib::new(FirstLevel::Bits16, 1, &ports, &hops)?;
    fib.add(Ipv4Addr::new(10, 1, 0, 0), 16, 1)?;
    fib.publish()?;
    let forwarder = fib.reader()?;
    Ok((fib, forwarder))
}

#[test]
fn a_frame_is_judged_and_forwarded() -> Result<(), Error> {
    let (_fib, forwarder) = forwarder()?;
    let mut first = frame(64);
    assert_eq!(forwarder.verdict(&first, 34), Ok(SENT));
    assert_eq!(first, frame(64));
    assert_eq!(forwarder.forward(&mut first, 33), Err(Error::Count));
    assert_eq!(forwarder.forward(&mut first, 34), Ok(SENT));
    assert_eq!(first, sent());
    assert_eq!(forwarder.forward(&mut frame(1), 34), Ok(Verdict::Drop(Reason::BadChecksum)));
    assert_eq!(forwarder.forward(&mut [], 0), Ok(Verdict::Drop(Reason::Short)));
    Ok(())
}

#[test]
fn a_burst_is_forwarded_by_threads() -> Result<(), Error> {
    let (mut fib, _) = forwarder()?;
    let share = fib.reader()?;
    drop(fib);
    let burst = move || {
        let (mut first, mut second) = (frame(64), frame(65));
        let mut frames = [Frame::new(&mut first, 34), Frame::new(&mut second, 60)];
        let mut verdicts = [SENT; 2];
        assert_eq!(share.forward_burst(&mut frames, &mut verdicts[..1]), Err(Error::Count));
        assert_eq!(share.forward_burst(&mut [], &mut []), Err(Error::Count));
        assert_eq!(share.forward_burst(&mut frames, &mut verdicts), Ok(1));
        assert_eq!(verdicts, [SENT, Verdict::Drop(Reason::BadChecksum)]);
        assert_eq!((first, second), (sent(), frame(65)));
    };
    thread::spawn(burst).join().expect("a burst");
    assert_eq!(MAX_FRAMES, 64);
    Ok(())
}

#[test]
fn a_frame_is_addressed_to_a_port_or_to_many() -> Result<(), Error> {
    let (_fib, forwarder) = forwarder()?;
    let told = Addressed { port: true, group: false, own: false, multicast: false, broadcast: true };
    assert_eq!(forwarder.addressed(0, &frame(64)), Ok(told));
    assert_eq!(forwarder.addressed(1, &frame(64)), Ok(Addressed { port: false, ..told }));
    assert_eq!(forwarder.addressed(2, &frame(64)), Err(Error::Count));
    Ok(())
}

#[test]
fn changes_are_seen_once_they_are_published() -> Result<(), Error> {
    let (mut fib, forwarder) = forwarder()?;
    let (inside, outside) = (Ipv4Addr::new(10, 1, 2, 3), Ipv4Addr::new(10, 2, 0, 1));
    assert_eq!((fib.len(), fib.pending(), fib.is_empty()), (1, 0, false));
    fib.add(Ipv4Addr::new(10, 0, 0, 0), 8, 0)?;
    fib.set_hop(1, &NextHop { port: 0, to: TO })?;
    fib.set_port(0, &Port { mac: TO, address: None })?;
    assert_eq!((fib.len(), fib.pending()), (2, 3));
    assert_eq!(forwarder.verdict(&frame(64), 34), Ok(SENT));
    assert_eq!((forwarder.lookup(inside), forwarder.lookup(outside)), (Some(1), None));
    fib.publish()?;
    fib.settle()?;
    assert_eq!(forwarder.verdict(&frame(64), 34), Ok(Verdict::Send { port: 0, tagged: false }));
    let mut hops = [0; 2];
    assert_eq!(forwarder.lookup_bulk(&[inside.into(), outside.into()], &mut hops), Ok(()));
    assert_eq!(hops, [1, 0]);
    let routes: Vec<_> = fib.iter().collect();
    let first = Route { address: Ipv4Addr::new(10, 0, 0, 0), depth: 8, hop: 0 };
    assert_eq!(routes, [first, Route { address: Ipv4Addr::new(10, 1, 0, 0), depth: 16, hop: 1 }]);
    assert_eq!((fib.get(first.address, 8), fib.get(first.address, 9)), (Ok(0), Err(Error::NoRoute)));
    fib.remove(first.address, 8)?;
    fib.clear()?;
    fib.publish()?;
    assert_eq!((forwarder.lookup(inside), fib.pending(), fib.is_empty()), (None, 0, true));
    Ok(())
}

#[test]
fn what_can_t_be_is_refused() -> Result<(), Error> {
    let (mut fib, _) = forwarder()?;
    let address = Ipv4Addr::new(10, 0, 0, 0);
    let port = Port { mac: MAC, address: Some((address, 33)) };
    assert_eq!(Fib::new(FirstLevel::Bits16, 1, &[port], &[]).err(), Some(Error::Plan));
    assert_eq!((fib.add(address, 33, 0), fib.add(address, 8, 1 << 24)), (Err(Error::Depth), Err(Error::Hop)));
    assert_eq!((fib.add(address, 17, 0), fib.remove(address, 9)), (Ok(()), Err(Error::NoRoute)));
    assert_eq!(fib.add(Ipv4Addr::new(11, 0, 0, 0), 17, 0), Err(Error::Groups));
    assert_eq!(fib.set_hop(2, &NextHop { port: 0, to: TO }), Err(Error::Hop));
    assert_eq!(fib.set_port(2, &Port { address: None, ..port }), Err(Error::Count));
    assert_eq!(fib.set_port(0, &port), Err(Error::Plan));
    Ok(())
}
