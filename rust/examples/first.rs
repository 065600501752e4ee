//! A ring between two threads.
use hokhtura::Ring;
fn main() -> Result<(), hokhtura::Error> {
    let (mut producer, mut consumer) = Ring::new(1000)?.split()?;
    let sent = std::thread::spawn(move || producer.try_put_bulk(&[1u64, 2, 3]));
    sent.join().expect("the thread ends")?;
    println!("taken {}", consumer.taken().count());
    Ok(())
}
