//! Four threads and a ring of values: two make orders and put them on it, two take them and add them up.
use hokhtura::{Error, Queue};
use std::thread;

const EACH: u64 = 100_000;

struct Order {
    item: u64,
    price: u64,
}

fn make_orders(mut queue: Queue<Order>, first: u64) -> Result<(), Error> {
    for item in first..first + EACH {
        let mut next = Box::new(Order { item, price: 2 * item });
        while let Err((again, error)) = queue.try_put_box(next) {
            match error {
                Error::NoRoom | Error::Again => thread::yield_now(),
                other => return Err(other),
            }
            next = again;
        }
    }
    Ok(())
}

fn add_up(mut queue: Queue<Order>) -> Result<u64, Error> {
    let (mut sum, mut done) = (0, 0);
    while done < EACH {
        match queue.try_take() {
            Ok(order) => {
                assert_eq!(order.price, 2 * order.item);
                sum += order.price;
                done += 1;
            }
            Err(Error::NoRoom | Error::Again) => thread::yield_now(),
            Err(error) => return Err(error),
        }
    }
    Ok(sum)
}

fn main() -> Result<(), Error> {
    let mut queue = Queue::new(1000)?;
    let (second, third, fourth) = (queue.try_clone()?, queue.try_clone()?, queue.try_clone()?);
    let makers = [thread::spawn(move || make_orders(queue, 1)), thread::spawn(move || make_orders(second, 1 + EACH))];
    let adders = [thread::spawn(move || add_up(third)), thread::spawn(move || add_up(fourth))];
    for maker in makers {
        maker.join().expect("the thread ends")?;
    }
    let mut sum = 0;
    for adder in adders {
        sum += adder.join().expect("the thread ends")?;
    }
    println!("the prices add up to {sum}");
    Ok(())
}
