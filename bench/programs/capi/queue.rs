//! A ring of words through the Rust crate, against crossbeam-queue's ArrayQueue: one thread, one word a call, in a slice
//! and by ends, and bursts of 32; and word by word by ends that hold their sides, 64 puts and 64 takes in turn, as then
//! the queue, too; a queue of values in boxes; and one producer and one consumer. Prints lines `name value unit`, and
//! the rounds are the caller's.
use crossbeam_queue::ArrayQueue;
use hokhtura::{Mode, Queue, Ring};
use std::hint::{black_box, spin_loop};
use std::thread;
use std::time::{Duration, Instant};

const CAPACITY: usize = 1023;
const CHUNK: usize = 20_000;
/// As `HELD` of capi.c.
const LAP: usize = 64;
/// The words that go from one thread to the other.
const ACROSS: usize = 2_000_000;
const BURST: usize = 32;

/// Prints the nanoseconds a word, of turns that move `words` words each.
fn timed(name: &str, words: usize, mut turn: impl FnMut()) {
    let millis = std::env::var("BENCH_MS").ok().and_then(|text| text.parse().ok()).unwrap_or(100);
    let limit = Duration::from_millis(millis);
    for _ in 0..CHUNK {
        turn();
    }
    let start = Instant::now();
    let mut turns = 0;
    while start.elapsed() < limit {
        for _ in 0..CHUNK {
            turn();
        }
        turns += CHUNK;
    }
    println!("{name} {:.4} ns/item", start.elapsed().as_nanos() as f64 / (turns * words) as f64);
}

/// Prints how many million words a second go from a producer to a consumer. Each call moves a number of words, at most
/// as many as it is given, and returns it.
fn across(
    name: &str,
    put: impl FnMut(usize) -> usize + Send,
    take: impl FnMut(usize) -> usize + Send,
) {
    let start = Instant::now();
    thread::scope(|scope| {
        scope.spawn(move || until_done(put));
        scope.spawn(move || until_done(take));
    });
    println!("{name} {:.4} Mitem/s", ACROSS as f64 / start.elapsed().as_secs_f64() / 1e6);
}

fn until_done(mut call: impl FnMut(usize) -> usize) {
    let mut left = ACROSS;
    while left > 0 {
        match call(left) {
            0 => spin_loop(),
            moved => left -= moved,
        }
    }
}

/// One producer and one consumer, one word a call and bursts, against the queue one by one.
fn threads() -> Result<(), hokhtura::Error> {
    let (mut producer, mut consumer) = Ring::<u64>::new(CAPACITY)?.split()?;
    across(
        "across-one",
        |_| producer.put(black_box(7)).is_ok().into(),
        |_| consumer.take().is_ok().into(),
    );
    let (mut producer, mut consumer) = Ring::<u64>::new(CAPACITY)?.split()?;
    let (words, mut taken) = ([7; BURST], [0; BURST]);
    across(
        "across-burst",
        |left| producer.try_put_burst(&black_box(words)[..left.min(BURST)]).unwrap_or(0),
        |_| consumer.try_take_burst(&mut taken).unwrap_or(0),
    );
    let queue = ArrayQueue::new(CAPACITY);
    across("across-queue", |_| queue.push(black_box(7u64)).is_ok().into(), |_| queue.pop().is_some().into());
    Ok(())
}

fn main() -> Result<(), hokhtura::Error> {
    if std::env::args().any(|word| word == "threads") { threads() } else { alone() }
}

fn alone() -> Result<(), hokhtura::Error> {
    let mut ring = Ring::new(CAPACITY)?;
    let mut word = [0u64];
    timed("one", 1, || {
        assert_eq!(ring.try_put_bulk(&word), Ok(1));
        assert_eq!(ring.try_take_bulk(&mut word), Ok(1));
    });
    let (mut producer, mut consumer) = Ring::new(CAPACITY)?.split()?;
    timed("end", 1, || {
        assert_eq!(producer.put(black_box(7u64)), Ok(()));
        assert!(consumer.take().is_ok());
    });
    let mut words = [0u64; 32];
    timed("burst", 32, || {
        assert_eq!(ring.try_put_burst(&words), Ok(32));
        assert_eq!(ring.try_take_burst(&mut words), Ok(32));
    });
    let (mut producer, mut consumer) = Ring::with_modes(CAPACITY, Mode::Hts, Mode::Hts)?.split()?;
    let (mut puts, mut takes) = (producer.hold(LAP)?, consumer.hold(LAP)?);
    timed("held", LAP, || {
        for word in 0..LAP as u64 {
            assert_eq!(puts.put(black_box(word)), Ok(()));
        }
        for _ in 0..LAP {
            assert!(takes.take().is_ok());
        }
    });
    let queue = ArrayQueue::new(CAPACITY);
    timed("queue-laps", LAP, || {
        for word in 0..LAP as u64 {
            assert!(queue.push(black_box(word)).is_ok());
        }
        for _ in 0..LAP {
            assert!(queue.pop().is_some());
        }
    });
    timed("queue", 1, || {
        assert!(queue.push(black_box(7u64)).is_ok());
        assert!(queue.pop().is_some());
    });
    let mut values = Queue::new(CAPACITY)?;
    timed("boxed", 1, || {
        assert!(values.try_put(black_box(7u64)).is_ok());
        assert!(values.try_take().is_ok());
    });
    Ok(())
}
