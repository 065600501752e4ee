//! Rings of values: each is dropped once, wherever it ends.
use hokhtura::{Error, Queue};
use std::sync::atomic::{AtomicUsize, Ordering};
use std::sync::Arc;
use std::thread;

/// A value that counts how many of its kind there are.
#[derive(Debug)]
struct Counted(u64, Arc<AtomicUsize>);

impl Counted {
    fn new(number: u64, live: &Arc<AtomicUsize>) -> Self {
        live.fetch_add(1, Ordering::Relaxed);
        Counted(number, Arc::clone(live))
    }
}

impl Drop for Counted {
    fn drop(&mut self) {
        self.1.fetch_sub(1, Ordering::Relaxed);
    }
}

#[test]
fn values_move_through_and_come_back_with_an_error() -> Result<(), Error> {
    let mut queue = Queue::new(2)?;
    assert_eq!((queue.capacity(), queue.len(), queue.is_empty()), (2, 0, true));
    assert_eq!(queue.try_take(), Err(Error::NoRoom));
    assert_eq!(queue.try_put("one".to_string()), Ok(()));
    assert_eq!(queue.try_put_box(Box::new("two".to_string())), Ok(()));
    assert_eq!(queue.try_put("three".to_string()), Err(("three".to_string(), Error::NoRoom)));
    assert_eq!((queue.len(), queue.is_empty()), (2, false));
    assert_eq!(queue.try_take(), Ok("one".to_string()));
    assert_eq!(queue.try_take_box(), Ok(Box::new("two".to_string())));
    assert_eq!(Queue::<u8>::new(0).err(), Some(Error::Plan));
    assert_eq!(Queue::<u8>::new(1 << 20).err(), Some(Error::Plan));
    Ok(())
}

#[test]
fn what_is_left_is_dropped_with_the_last_handle() -> Result<(), Error> {
    let live = Arc::new(AtomicUsize::new(0));
    let mut queue = Queue::new(8)?;
    let mut other = queue.try_clone()?;
    for number in 0..5 {
        queue.try_put(Counted::new(number, &live)).map_err(|refused| refused.1)?;
    }
    drop(queue);
    assert_eq!(live.load(Ordering::Relaxed), 5);
    let taken = other.try_take()?;
    assert_eq!((taken.0, live.load(Ordering::Relaxed)), (0, 5));
    drop(other);
    assert_eq!(live.load(Ordering::Relaxed), 1);
    drop(taken);
    assert_eq!(live.load(Ordering::Relaxed), 0);
    Ok(())
}

#[test]
fn values_without_a_size_are_counted_too() -> Result<(), Error> {
    let mut queue = Queue::new(2)?;
    assert_eq!(queue.try_put(()), Ok(()));
    assert_eq!(queue.try_put(()), Ok(()));
    assert_eq!(queue.try_put(()), Err(((), Error::NoRoom)));
    assert_eq!((queue.try_take(), queue.try_take(), queue.try_take()), (Ok(()), Ok(()), Err(Error::NoRoom)));
    Ok(())
}

/// Puts all numbers from `from` on, so many.
fn put(queue: &mut Queue<Counted>, from: u64, many: u64, live: &Arc<AtomicUsize>) {
    for number in from..from + many {
        let mut next = Box::new(Counted::new(number, live));
        while let Err((again, error)) = queue.try_put_box(next) {
            assert!(matches!(error, Error::NoRoom | Error::Again), "{error}");
            thread::yield_now();
            next = again;
        }
    }
}

/// Takes so many values, and adds their numbers up.
fn take(queue: &mut Queue<Counted>, many: u64) -> u64 {
    let mut sum = 0;
    for _ in 0..many {
        let mut taken = queue.try_take();
        while let Err(error) = taken {
            assert!(matches!(error, Error::NoRoom | Error::Again), "{error}");
            thread::yield_now();
            taken = queue.try_take();
        }
        sum += taken.map_or(0, |value| value.0);
    }
    sum
}

/// All handles end in their threads, at any time, with values on the ring.
#[test]
fn four_threads_pass_values_and_end() -> Result<(), Error> {
    const EACH: u64 = 20_000;
    const LEFT: u64 = 10;
    let live = Arc::new(AtomicUsize::new(0));
    let mut queue = Queue::new(100)?;
    let mut handles = [queue.try_clone()?, queue.try_clone()?, queue.try_clone()?];
    let sum = thread::scope(|scope| {
        let [one, two, three] = &mut handles;
        scope.spawn(|| put(one, 0, EACH, &live));
        scope.spawn(|| put(&mut queue, EACH, EACH, &live));
        let first = scope.spawn(|| take(two, EACH));
        let second = scope.spawn(|| take(three, EACH - LEFT));
        first.join().expect("the thread ends") + second.join().expect("the thread ends")
    });
    assert!(sum < EACH * (2 * EACH - 1));
    assert_eq!(queue.len(), usize::try_from(LEFT).expect("it is small"));
    thread::scope(|scope| {
        scope.spawn(|| drop(queue));
        for handle in handles {
            scope.spawn(|| drop(handle));
        }
    });
    assert_eq!(live.load(Ordering::Relaxed), 0);
    Ok(())
}
