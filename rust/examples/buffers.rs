//! A pool that passes buffers: a reader gets free buffers and fills them, and a writer looks at them and puts them
//! back. The pool's numbers stand for the buffers. A buffer is with the thread that has its number, which the
//! compiler doesn't know: so each buffer is an atomic here.
use hokhtura::{Error, Pool};
use std::sync::atomic::{AtomicU32, Ordering::Relaxed};
use std::thread;

const BUFFERS: usize = 256;
const CACHE: usize = 32;
const BURSTS: u32 = 10_000;
const BURST: usize = 16;

static LENGTHS: [AtomicU32; BUFFERS] = [const { AtomicU32::new(0) }; BUFFERS];

/// Calls until other threads no longer come first, and there is enough.
fn wait(mut call: impl FnMut() -> Result<(), Error>) -> Result<(), Error> {
    loop {
        match call() {
            Err(Error::NoRoom | Error::Again) => thread::yield_now(),
            done => return done,
        }
    }
}

fn read(mut pool: Pool) -> Result<(), Error> {
    let mut numbers = [0; BURST];
    for burst in 0..BURSTS {
        wait(|| pool.try_get_bulk(&mut numbers))?;
        for number in numbers {
            LENGTHS[number as usize].store(burst % 50, Relaxed);
        }
        wait(|| pool.try_send_bulk(0, &numbers))?;
    }
    wait(|| pool.try_flush().map(drop))
}

fn write(mut pool: Pool) -> Result<u64, Error> {
    let (mut numbers, mut bytes) = ([0; BURST], 0);
    for _ in 0..BURSTS {
        wait(|| pool.try_receive_bulk(0, &mut numbers))?;
        for number in numbers {
            bytes += u64::from(LENGTHS[number as usize].load(Relaxed));
        }
        wait(|| pool.try_put_bulk(&numbers))?;
    }
    wait(|| pool.try_flush().map(drop))?;
    Ok(bytes)
}

fn main() -> Result<(), Error> {
    let mut pool = Pool::new(BUFFERS, CACHE, 1)?;
    let (reading, writing) = (pool.split()?, pool.split()?);
    let reader = thread::spawn(move || read(reading));
    let writer = thread::spawn(move || write(writing));
    reader.join().expect("the thread ends")?;
    let bytes = writer.join().expect("the thread ends")?;
    pool.try_get_bulk(&mut [0; BUFFERS])?;
    println!("{bytes} bytes, and all {BUFFERS} buffers are back");
    Ok(())
}
