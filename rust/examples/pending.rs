//! Two threads that put words on one ring, and finish what is pending.
use hokhtura::{Error, Producer, Ring};
use std::thread;

const EACH: u64 = 10_000;

fn put(producer: &mut Producer<u64>, words: &[u64]) -> Result<usize, Error> {
    let mut put = producer.try_put_bulk(words);
    while put == Err(Error::Pending) {
        thread::yield_now();
        put = producer.finish_put(words);
    }
    put
}

fn put_all(mut producer: Producer<u64>, first: u64) -> Result<(), Error> {
    for word in first..first + EACH {
        while let Err(error) = put(&mut producer, &[word]) {
            match error {
                Error::NoRoom | Error::Again => thread::yield_now(),
                other => return Err(other),
            }
        }
    }
    Ok(())
}

fn main() -> Result<(), Error> {
    let (mut one, mut consumer) = Ring::new(1000)?.split()?;
    let other = one.try_clone()?;
    let makers = [thread::spawn(move || put_all(one, 1)), thread::spawn(move || put_all(other, 1 + EACH))];
    let (mut sum, mut taken) = (0, 0);
    while taken < 2 * EACH {
        for word in consumer.taken() {
            sum += word;
            taken += 1;
        }
        thread::yield_now();
    }
    for maker in makers {
        maker.join().expect("the thread ends")?;
    }
    println!("the words add up to {sum}");
    Ok(())
}
