//! Routes and reorder windows.
use hokhtura::{Error, FirstLevel, Reorder, Routes};
use std::net::Ipv4Addr;
use std::thread;

fn ip(text: &str) -> Ipv4Addr {
    text.parse().expect("an address")
}

#[test]
fn the_longest_route_is_found() -> Result<(), Error> {
    for first in [FirstLevel::Bits16, FirstLevel::Bits24] {
        let mut routes = Routes::new(first, 4)?;
        assert_eq!(routes.add(ip("10.0.0.0"), 0, 1), Err(Error::Depth));
        assert_eq!(routes.add(ip("10.0.0.0"), 33, 1), Err(Error::Depth));
        assert_eq!(routes.add(ip("10.0.0.0"), 8, 1 << 24), Err(Error::Hop));
        routes.add(ip("10.0.0.0"), 8, 7)?;
        routes.add(ip("10.1.2.0"), 30, 9)?;
        assert_eq!(routes.lookup(ip("10.1.2.3")), Some(9));
        assert_eq!(routes.lookup(ip("10.1.2.4")), Some(7));
        assert_eq!(routes.lookup(ip("11.0.0.0")), None);
        let mut hops = [0; 3];
        routes.lookup_bulk(&[0x0a01_0203, 0x0b00_0000, 0x0a01_0204], &mut hops)?;
        assert_eq!(hops, [9, u32::MAX, 7]);
        assert_eq!(routes.lookup_bulk(&[1], &mut hops), Err(Error::Count));
        routes.remove(ip("10.1.2.0"), 30)?;
        assert_eq!(routes.remove(ip("10.1.2.0"), 30), Err(Error::NoRoute));
        assert_eq!(routes.lookup(ip("10.1.2.3")), Some(7));
    }
    Ok(())
}

#[test]
fn a_shared_table_is_read_by_threads_and_stays() -> Result<(), Error> {
    let mut routes = Routes::new(FirstLevel::Bits16, 1)?;
    routes.add(ip("10.0.0.0"), 8, 7)?;
    let lookups = routes.share()?;
    assert_eq!(routes.add(ip("11.0.0.0"), 8, 8), Err(Error::Shared));
    let found = thread::spawn(move || lookups.lookup(ip("10.9.9.9"))).join().expect("a lookup");
    assert_eq!(found, Some(7));
    routes.add(ip("11.0.0.0"), 8, 8)
}

#[test]
fn words_leave_a_window_in_their_turn() -> Result<(), Error> {
    assert_eq!(Reorder::<u64>::new(0).err(), Some(Error::Plan));
    let mut window = Reorder::new(4)?;
    window.insert(1, 11u64)?;
    assert_eq!(window.insert(1, 12), Err(Error::Double));
    assert_eq!(window.insert(4, 14), Err(Error::Early));
    assert_eq!(window.pop(), None);
    window.insert(0, 10)?;
    assert_eq!(window.pop(), Some(10));
    assert_eq!(window.insert(0, 10), Err(Error::Late));
    window.insert(2, 12)?;
    window.insert(4, 14)?;
    let mut words = [0; 4];
    assert_eq!(window.drain(&mut words), Ok(2));
    assert_eq!(window.drain(&mut words), Ok(0));
    assert_eq!(words, [11, 12, 0, 0]);
    assert_eq!(window.next_number(), 3);
    window.skip_to(9);
    assert_eq!(window.next_number(), 4);
    assert_eq!(window.in_turn().collect::<Vec<_>>(), [14]);
    Ok(())
}
