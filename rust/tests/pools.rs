//! Pools of numbers.
use hokhtura::{Error, Pool, MAX_NUMBERS};
use std::thread;

#[test]
fn pools_that_cannot_be() {
    assert_eq!(Pool::new(0, 8, 0).err(), Some(Error::Plan));
    assert_eq!(Pool::new(1 << 20, 8, 0).err(), Some(Error::Plan));
    assert_eq!(Pool::new(usize::MAX, 8, 0).err(), Some(Error::Plan));
    assert_eq!(Pool::new(8, 513, 0).err(), Some(Error::Plan));
    assert_eq!(Pool::new(8, 8, 64).err(), Some(Error::Plan));
}

#[test]
fn each_number_is_got_once_and_put_once() -> Result<(), Error> {
    let mut pool = Pool::new(100, 16, 0)?;
    let mut numbers = [u32::MAX; 100];
    assert_eq!(pool.try_get_bulk(&mut [0; 101]), Err(Error::NoRoom));
    assert_eq!(pool.try_get_bulk(&mut []), Err(Error::Count));
    assert_eq!(pool.try_get_bulk(&mut vec![0; MAX_NUMBERS + 1]), Err(Error::Count));
    for part in numbers.chunks_mut(9) {
        pool.try_get_bulk(part)?;
    }
    assert_eq!(pool.try_get_bulk(&mut [0]), Err(Error::NoRoom));
    assert_eq!(pool.cached(), 0);
    assert_eq!(pool.try_put_bulk(&[numbers[0], numbers[0]]), Err(Error::NotYours));
    assert_eq!(pool.try_put_bulk(&[100]), Err(Error::NotYours));
    pool.try_put_bulk(&numbers[..10])?;
    assert_eq!(pool.try_put_bulk(&numbers[9..11]), Err(Error::NotYours));
    assert!(pool.owns(numbers[9]) && !pool.owns(100));
    assert_eq!(pool.cached(), 10);
    pool.try_put_bulk(&numbers[10..])?;
    assert_eq!(pool.cached(), 10);
    assert!(!pool.owns(numbers[10]));
    assert_eq!(pool.try_flush(), Ok(10));
    numbers.sort_unstable();
    assert!(numbers.iter().copied().eq(0..100));
    Ok(())
}

#[test]
fn long_calls_take_from_the_cache_and_then_from_the_free_ring() -> Result<(), Error> {
    let mut pool = Pool::new(20_000, 300, 0)?;
    let mut numbers = vec![0; MAX_NUMBERS];
    pool.try_get_bulk(&mut numbers[..1])?;
    assert_eq!((pool.cached(), pool.free_count()), (300, 20_000 - 301));
    pool.try_get_bulk(&mut numbers)?;
    assert!(numbers.iter().copied().eq((1..=300).rev().chain(301..=4096)));
    assert_eq!((pool.cached(), pool.free_count()), (0, 20_000 - 4097));
    pool.try_put_bulk(&numbers)?;
    assert_eq!((pool.cached(), pool.free_count()), (0, 19_999));
    Ok(())
}

#[test]
fn bursts_move_what_there_is() -> Result<(), Error> {
    let mut pool = Pool::new(8, 0, 2)?;
    let mut other = pool.split()?;
    let mut numbers = [u32::MAX; 8];
    pool.try_get_bulk(&mut numbers[..5])?;
    assert_eq!(other.try_receive_burst(1, &mut [0]), Err(Error::NoRoom));
    assert_eq!(pool.try_send_burst(1, &numbers[..5]), Ok(5));
    assert_eq!(pool.try_send_burst(1, &numbers[..1]), Err(Error::NotYours));
    assert_eq!((other.ring_count(1), other.ring_room(1), other.ring_count(0)), (Ok(5), Ok(3), Ok(0)));
    assert_eq!((other.ring_count(2), other.ring_room(2)), (Err(Error::Ring), Err(Error::Ring)));
    let mut taken = [u32::MAX; 8];
    assert_eq!(other.try_receive_burst(1, &mut taken[..2]), Ok(2));
    assert_eq!(other.try_receive_burst(1, &mut taken[2..]), Ok(3));
    assert_eq!(taken, numbers);
    Ok(())
}

#[test]
fn what_is_cached_goes_back_with_a_dropped_handle() -> Result<(), Error> {
    let mut pool = Pool::new(8, 4, 0)?;
    let mut other = pool.split()?;
    let mut numbers = [0; 8];
    other.try_get_bulk(&mut numbers[..6])?;
    other.try_put_bulk(&numbers[..5])?;
    assert_eq!((other.cached(), pool.free_count()), (5, 2));
    drop(other);
    assert_eq!(pool.free_count(), 7);
    assert_eq!(pool.try_get_bulk(&mut numbers), Err(Error::NoRoom));
    pool.try_get_bulk(&mut numbers[..7])
}

#[test]
fn numbers_are_passed_to_another_thread() -> Result<(), Error> {
    let mut pool = Pool::new(64, 8, 1)?;
    let mut other = pool.split()?;
    let mut numbers = [0; 64];
    pool.try_get_bulk(&mut numbers)?;
    pool.try_send_bulk(0, &numbers)?;
    assert_eq!(pool.try_send_bulk(1, &numbers), Err(Error::Ring));
    assert_eq!(pool.try_put_bulk(&numbers), Err(Error::NotYours));
    let taker = thread::spawn(move || {
        let mut taken = [0; 64];
        other.try_receive_bulk(0, &mut taken)?;
        assert_eq!(other.try_receive_bulk(0, &mut taken[..1]), Err(Error::NoRoom));
        assert_eq!(taken, numbers);
        other.try_put_bulk(&taken)?;
        other.try_flush()
    });
    assert_eq!(taker.join().expect("a taker"), Ok(0));
    pool.try_get_bulk(&mut numbers)?;
    assert!(!format!("{pool:?}").is_empty());
    Ok(())
}
