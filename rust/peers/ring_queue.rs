//! A queue of any values with the peers' interface, over one ring: each value is a box whose address is the word.
//! Each thread that comes gets a hand of its own.
use hokhtura::{Error, Mode, Ring};
use std::cell::RefCell;
use std::collections::HashMap;
use std::marker::PhantomData;
use std::sync::atomic::{AtomicU64, Ordering};
use std::sync::Mutex;
use std::thread;

static NEXT: AtomicU64 = AtomicU64::new(0);
thread_local! {
    static HANDS: RefCell<HashMap<u64, Ring<usize>>> = RefCell::new(HashMap::new());
}

pub struct RingQueue<T> {
    id: u64,
    root: Mutex<Ring<usize>>,
    capacity: usize,
    kind: PhantomData<T>,
}

// Values cross threads as boxes.
unsafe impl<T: Send> Sync for RingQueue<T> {}
unsafe impl<T: Send> Send for RingQueue<T> {}

fn mode() -> Mode {
    match std::env::var("HK_MODE").as_deref() {
        Ok("hts") => Mode::Hts,
        _ => Mode::Multi,
    }
}

fn put(hand: &mut Ring<usize>, word: usize) -> bool {
    loop {
        let mut put = hand.try_put_bulk(&[word]);
        while put == Err(Error::Pending) {
            thread::yield_now();
            put = hand.finish_put(&[word]);
        }
        match put {
            Ok(_) => return true,
            Err(Error::NoRoom) => return false,
            Err(Error::Again) => thread::yield_now(),
            Err(error) => panic!("{error}"),
        }
    }
}

fn take(hand: &mut Ring<usize>) -> Option<usize> {
    let mut word = [0];
    loop {
        let mut taken = hand.try_take_bulk(&mut word);
        while taken == Err(Error::Pending) {
            thread::yield_now();
            taken = hand.finish_take(1);
        }
        match taken {
            Ok(_) => return Some(word[0]),
            Err(Error::NoRoom) => return None,
            Err(Error::Again) => thread::yield_now(),
            Err(error) => panic!("{error}"),
        }
    }
}

impl<T> RingQueue<T> {
    pub fn new(capacity: usize) -> RingQueue<T> {
        assert!(capacity > 0, "capacity must be non-zero");
        let root = Ring::with_modes(capacity, mode(), mode()).expect("a ring");
        let id = NEXT.fetch_add(1, Ordering::Relaxed);
        RingQueue { id, root: Mutex::new(root), capacity, kind: PhantomData }
    }

    fn with<R>(&self, f: impl FnOnce(&mut Ring<usize>) -> R) -> R {
        HANDS.with(|hands| {
            let mut hands = hands.borrow_mut();
            f(hands.entry(self.id).or_insert_with(|| self.root.lock().unwrap().try_clone().expect("a hand")))
        })
    }

    pub fn push(&self, value: T) -> Result<(), T> {
        let at = Box::into_raw(Box::new(value));
        if self.with(|hand| put(hand, at as usize)) {
            Ok(())
        } else {
            Err(*unsafe { Box::from_raw(at) })
        }
    }

    pub fn pop(&self) -> Option<T> {
        let at = self.with(take)? as *mut T;
        Some(*unsafe { Box::from_raw(at) })
    }

    /// Two steps, and not one: if the queue is full, it takes the oldest, and then puts as soon as there is room.
    pub fn force_push(&self, value: T) -> Option<T> {
        let mut value = value;
        let mut oldest = None;
        while let Err(back) = self.push(value) {
            value = back;
            oldest = oldest.or_else(|| self.pop());
        }
        oldest
    }

    pub fn capacity(&self) -> usize {
        self.capacity
    }

    pub fn len(&self) -> usize {
        self.with(|hand| hand.len())
    }

    pub fn is_empty(&self) -> bool {
        self.len() == 0
    }

    pub fn is_full(&self) -> bool {
        self.len() == self.capacity
    }
}

impl<T> Drop for RingQueue<T> {
    fn drop(&mut self) {
        let _ = HANDS.try_with(|hands| hands.borrow_mut().remove(&self.id));
        let hand = self.root.get_mut().unwrap();
        while let Some(at) = take(hand) {
            drop(unsafe { Box::from_raw(at as *mut T) });
        }
    }
}

pub struct IntoIter<T>(RingQueue<T>);

impl<T> Iterator for IntoIter<T> {
    type Item = T;

    fn next(&mut self) -> Option<T> {
        self.0.pop()
    }
}

impl<T> IntoIterator for RingQueue<T> {
    type Item = T;
    type IntoIter = IntoIter<T>;

    fn into_iter(self) -> IntoIter<T> {
        IntoIter(self)
    }
}
