//! Rings by their two ends, in one thread and in several.
use hokhtura::{Error, Mode, Producer, Ring, MAX_WORDS, MAX_WORDS_MULTI};
use std::thread;

const MODES: [Mode; 2] = [Mode::Multi, Mode::Hts];

#[test]
fn bulk_moves_all_or_none_and_burst_what_there_is() -> Result<(), Error> {
    for put in MODES {
        for take in MODES {
            let mut ring = Ring::<u64>::with_modes(6, put, take)?;
            let mut words = [0; 8];
            assert_eq!(ring.try_take_bulk(&mut words[..1]), Err(Error::NoRoom));
            assert_eq!(ring.try_put_bulk(&[1; 7]), Err(Error::NoRoom));
            assert_eq!(ring.left(), 6);
            assert_eq!(ring.try_put_bulk(&[1, 2, 3, 4]), Ok(4));
            assert_eq!(ring.try_put_burst(&[5, 6, 7]), Ok(2));
            assert_eq!((ring.len(), ring.room()), (6, 0));
            assert_eq!(ring.try_take_bulk(&mut words[..7]), Err(Error::NoRoom));
            assert_eq!(ring.try_take_burst(&mut words), Ok(6));
            assert_eq!(words, [1, 2, 3, 4, 5, 6, 0, 0]);
        }
    }
    Ok(())
}

#[test]
fn counts_and_plans_are_refused() -> Result<(), Error> {
    assert_eq!(Ring::<u64>::new(0).err(), Some(Error::Plan));
    assert_eq!(Ring::<u64>::new(1 << 20).err(), Some(Error::Plan));
    assert_eq!(Ring::<u64>::new(usize::MAX).err(), Some(Error::Plan));
    let mut ring = Ring::<u64>::new(6000)?;
    assert_eq!(ring.try_put_bulk(&[]), Err(Error::Count));
    assert_eq!(ring.try_put_bulk(&vec![0; MAX_WORDS_MULTI + 1]), Err(Error::Count));
    assert_eq!(ring.try_put_bulk(&vec![0; 6001]), Err(Error::NoRoom));
    assert_eq!(ring.try_put_bulk(&vec![0; 6000]), Ok(6000));
    assert_eq!(ring.try_take_burst(&mut vec![0; MAX_WORDS_MULTI]), Ok(6000));
    ring.try_put_bulk(&[1])?;
    assert_eq!(ring.finish_put(&[0]), Err(Error::NotOpen));
    assert_eq!(ring.finish_take(1), Err(Error::NotOpen));
    Ok(())
}

#[test]
fn words_keep_their_bits() -> Result<(), Error> {
    let mut numbers = Ring::<f64>::new(4)?;
    numbers.try_put_bulk(&[-0.0, f64::INFINITY])?;
    assert_eq!(numbers.taken().map(f64::to_bits).collect::<Vec<_>>(), [(-0.0f64).to_bits(), f64::INFINITY.to_bits()]);
    let places = [10u8, 20, 30];
    let mut pointers = Ring::<*const u8>::new(4)?;
    pointers.try_put_bulk(&[&raw const places[2], &raw const places[0]])?;
    let read: Vec<u8> = pointers.taken().map(|at| unsafe { *at }).collect();
    assert_eq!(read, [30, 10]);
    Ok(())
}

#[test]
fn what_is_left_comes_out_of_a_closed_ring() -> Result<(), Error> {
    let mut ring = Ring::<i64>::new(7)?;
    ring.try_put_bulk(&[-1, -2, -3])?;
    let other = ring.try_clone()?;
    let (ring, error) = ring.close().expect_err("another hand is there");
    assert_eq!(error, Error::Shared);
    drop(other);
    let left = ring.close().map_err(|refused| refused.1)?;
    assert_eq!(left.collect::<Vec<_>>(), [-1, -2, -3]);
    Ok(())
}

/// Sends the words from `from` on, so many, each as soon as there is room.
fn send(producer: &mut hokhtura::Producer<u64>, from: u64, many: u64) {
    let words: Vec<u64> = (from..from + many).collect();
    let mut sent = 0;
    while sent < words.len() {
        let next = &words[sent..words.len().min(sent + 32)];
        let mut count = producer.try_put_burst(next);
        while count == Err(Error::Pending) {
            thread::yield_now();
            count = producer.finish_put(next);
        }
        match count {
            Ok(count) => sent += count,
            Err(Error::NoRoom | Error::Again) => thread::yield_now(),
            Err(error) => panic!("{error}"),
        }
    }
}

#[test]
fn each_word_crosses_once_and_in_order() -> Result<(), Error> {
    const EACH: u64 = 100_000;
    for mode in MODES {
        let (mut one, mut consumer) = Ring::with_modes(100, mode, mode)?.split()?;
        let mut two = one.try_clone()?;
        thread::scope(|scope| {
            scope.spawn(move || send(&mut one, 0, EACH));
            scope.spawn(move || send(&mut two, EACH, EACH));
            let mut next = [0, EACH];
            while next != [EACH, 2 * EACH] {
                for word in consumer.taken() {
                    let sender = usize::from(word >= EACH);
                    assert_eq!(word, next[sender]);
                    next[sender] += 1;
                }
                thread::yield_now();
            }
        });
    }
    Ok(())
}

#[test]
fn both_ends_say_what_the_ring_holds_and_either_closes_it() -> Result<(), Error> {
    let (mut producer, mut consumer) = Ring::<u64>::new(5)?.split()?;
    assert_eq!((producer.capacity(), consumer.capacity()), (5, 5));
    assert_eq!((producer.is_empty(), consumer.len()), (true, 0));
    producer.try_put_bulk(&[1, 2, 3])?;
    assert_eq!((producer.len(), consumer.is_empty(), producer.left()), (3, false, 2));
    let mut taken = consumer.taken();
    assert_eq!((taken.next(), taken.by_ref().count(), taken.next()), (Some(1), 2, None));
    producer.try_put_bulk(&[4])?;
    let (consumer, error) = consumer.close().expect_err("the producer is there");
    assert_eq!(error, Error::Shared);
    drop(consumer);
    let mut left = producer.close().map_err(|refused| refused.1)?;
    assert_eq!((left.next(), left.next(), left.next()), (Some(4), None, None));
    Ok(())
}

/// Once `taken` returned `None` it takes no more, whatever is put meanwhile.
#[test]
fn what_was_taken_ends_once() -> Result<(), Error> {
    let (mut producer, mut consumer) = Ring::<u64>::new(5)?.split()?;
    let mut taken = consumer.taken();
    assert_eq!(taken.next(), None);
    producer.try_put_bulk(&[1])?;
    assert_eq!(taken.next(), None);
    assert_eq!(consumer.taken().next(), Some(1));
    Ok(())
}

#[test]
fn words_pass_one_by_one() -> Result<(), Error> {
    for (put, take) in [(Mode::Multi, Mode::Multi), (Mode::Hts, Mode::Hts), (Mode::Multi, Mode::Hts)] {
        let (mut producer, mut consumer) = Ring::with_modes(2, put, take)?.split()?;
        let mut word = 9.5;
        assert_eq!((consumer.try_take_one(&mut word), word), (Err(Error::NoRoom), 9.5));
        assert_eq!((producer.try_put_one(1.5), producer.left()), (Ok(()), 1));
        assert_eq!((producer.try_put_one(2.5), producer.try_put_one(3.5)), (Ok(()), Err(Error::NoRoom)));
        assert_eq!((consumer.try_take_one(&mut word), word, consumer.left()), (Ok(()), 1.5, 1));
        assert_eq!((consumer.try_take_one(&mut word), word), (Ok(()), 2.5));
    }
    Ok(())
}

#[test]
fn ends_pass_words_one_by_one() -> Result<(), Error> {
    for (put, take) in [(Mode::Multi, Mode::Multi), (Mode::Hts, Mode::Hts), (Mode::Multi, Mode::Hts)] {
        let (mut producer, mut consumer) = Ring::with_modes(2, put, take)?.split()?;
        assert_eq!(
            (consumer.take(), consumer.finish(), producer.finish()),
            (Err(Error::NoRoom), Err(Error::NotOpen), Err(Error::NotOpen))
        );
        assert_eq!((producer.put(1.5), producer.put(2.5), producer.put(3.5)), (Ok(()), Ok(()), Err(Error::NoRoom)));
        assert_eq!((consumer.take(), producer.try_put_one(3.5), consumer.take()), (Ok(1.5), Ok(()), Ok(2.5)));
        assert_eq!((consumer.len(), consumer.take(), consumer.take()), (1, Ok(3.5), Err(Error::NoRoom)));
    }
    Ok(())
}

#[test]
fn threads_put_and_take_by_ends() -> Result<(), Error> {
    const WORDS: u64 = 50_000;
    for mode in [Mode::Multi, Mode::Hts] {
        let (mut producer, mut consumer) = Ring::with_modes(20, mode, mode)?.split()?;
        let mut second = producer.try_clone()?;
        let puts = move |end: &mut hokhtura::Producer<u64>, first: u64| {
            for word in first..first + WORDS {
                let mut outcome = end.put(word);
                while let Err(error) = outcome {
                    thread::yield_now();
                    outcome = if error == Error::Pending { end.finish() } else { end.put(word) };
                }
            }
        };
        let senders = [thread::spawn(move || puts(&mut producer, 0)), thread::spawn(move || puts(&mut second, WORDS))];
        let (mut next, mut count) = ([0, WORDS], 0);
        while count < 2 * WORDS {
            let mut found = consumer.take();
            while found == Err(Error::Pending) {
                found = consumer.finish();
            }
            if let Ok(word) = found {
                let from = usize::from(word >= WORDS);
                assert_eq!(word, next[from]);
                next[from] += 1;
                count += 1;
            } else {
                thread::yield_now();
            }
        }
        for sender in senders {
            sender.join().unwrap();
        }
    }
    Ok(())
}

#[test]
fn a_held_side_is_given_back_when_it_is_dropped() -> Result<(), Error> {
    for most in [1, 2, 7, MAX_WORDS] {
        let (mut producer, mut consumer) = Ring::with_modes(6, Mode::Hts, Mode::Hts)?.split()?;
        let mut puts = producer.hold(most)?;
        for word in 0..6u64 {
            puts.put(word)?;
        }
        assert_eq!(puts.put(6), Err(Error::NoRoom));
        let mut takes = consumer.hold(most)?;
        assert_eq!((takes.take(), takes.take()), (Ok(0), Ok(1)));
        assert_eq!(puts.put(6), Ok(()));
        drop((puts, takes));
        assert_eq!((producer.room(), consumer.len()), (1, 5));
        assert_eq!(consumer.taken().collect::<Vec<_>>(), [2, 3, 4, 5, 6]);
        assert_eq!(consumer.hold(most)?.take(), Err(Error::NoRoom));
    }
    let (mut producer, mut consumer) = Ring::<u64>::new(6)?.split()?;
    assert_eq!(producer.hold(1).err(), Some(Error::Mode));
    assert_eq!(consumer.hold(1).err(), Some(Error::Mode));
    Ok(())
}

#[test]
fn a_ring_is_counted_while_its_sides_are_held() -> Result<(), Error> {
    let (mut producer, mut consumer) = Ring::with_modes(6, Mode::Hts, Mode::Hts)?.split()?;
    let other = producer.try_clone()?;
    let mut puts = producer.hold(4)?;
    puts.put(1u64)?;
    puts.put(2)?;
    assert_eq!((other.len(), other.room(), other.is_empty()), (2, 4, false));
    let mut takes = consumer.hold(2)?;
    assert_eq!((other.len(), takes.take(), other.len(), other.room()), (2, Ok(1), 1, 5));
    Ok(())
}

#[test]
fn two_threads_hold_both_sides() -> Result<(), Error> {
    const WORDS: u64 = 50_000;
    let (mut producer, mut consumer) = Ring::with_modes(20, Mode::Hts, Mode::Hts)?.split()?;
    let sender = thread::spawn(move || {
        let mut puts = producer.hold(7).unwrap();
        for word in 0..WORDS {
            while puts.put(word).is_err() {
                thread::yield_now();
            }
        }
    });
    let mut takes = consumer.hold(5)?;
    for word in 0..WORDS {
        let mut found = takes.take();
        while found.is_err() {
            thread::yield_now();
            found = takes.take();
        }
        assert_eq!(found, Ok(word));
    }
    sender.join().unwrap();
    Ok(())
}

/// It compiles, and the doctest of `Ring::split` that differs only in the type of the assignment doesn't.
#[test]
fn an_end_has_the_type_of_its_ring() -> Result<(), Error> {
    let (producer, _consumer) = Ring::<&'static for<'a> fn(&'a str)>::new(7)?.split()?;
    let _same: Producer<&'static for<'a> fn(&'a str)> = producer;
    Ok(())
}

/// It compiles, and the doctest of `Left`, which passes on what is left instead of the ring, doesn't.
#[test]
fn a_ring_may_be_passed_on() -> Result<(), Error> {
    fn passed_on<T: Send>(_: T) {}
    let ring = Ring::<u64>::new(7)?;
    passed_on(ring);
    if let Ok(left) = Ring::<u64>::new(7)?.close() {
        assert_eq!(left.count(), 0);
    }
    Ok(())
}
