//! What clients may take of the gateway's memory and disk.

use std::cell::Cell;
use std::fmt;
use std::rc::Rc;

/// An amount of bytes. Its users take parts of it and give them back.
///
/// What is taken of a pool within another one is taken of both.
#[derive(Clone, Debug)]
pub struct Pool(Rc<Amounts>);

#[derive(Debug)]
struct Amounts {
    limit: u64,
    taken: Cell<u64>,
    of: Option<Pool>,
    guard: Option<Guard>,
}

/// What looks whether the system has the bytes that a pool still has.
struct Guard {
    /// How many bytes were taken when it looked last.
    looked: Cell<u64>,
    has_room: fn() -> bool,
}

impl fmt::Debug for Guard {
    fn fmt(&self, formatter: &mut fmt::Formatter<'_>) -> fmt::Result {
        write!(formatter, "Guard at {}", self.looked.get())
    }
}

/// A guard looks again when so many more bytes are taken.
const STEP: u64 = 256 * 1024;

/// Bytes that are taken of a pool. They are given back when this is dropped.
#[derive(Debug)]
pub struct Charge {
    pool: Pool,
    bytes: u64,
}

impl Pool {
    /// Returns a pool of so many bytes.
    pub fn new(limit: u64) -> Pool {
        Pool::with(limit, None, None)
    }

    /// Returns a pool of so many bytes. It gives some only while `has_room` says that the system has them.
    /// It is asked now and then, as more are taken.
    pub fn guarded(limit: u64, has_room: fn() -> bool) -> Pool {
        let looked = Cell::new(0);
        Pool::with(limit, None, Some(Guard { looked, has_room }))
    }

    /// Returns a pool of so many bytes within this one.
    pub fn part(&self, limit: u64) -> Pool {
        Pool::with(limit, Some(self.clone()), None)
    }

    fn with(limit: u64, of: Option<Pool>, guard: Option<Guard>) -> Pool {
        Pool(Rc::new(Amounts {
            limit,
            taken: Cell::new(0),
            of,
            guard,
        }))
    }

    /// Returns how many bytes it has at the most.
    pub fn limit(&self) -> u64 {
        self.0.limit
    }

    /// Returns how many bytes are taken.
    pub fn taken(&self) -> u64 {
        self.0.taken.get()
    }

    /// Begins to take bytes of it: none as yet.
    pub fn charge(&self) -> Charge {
        Charge {
            pool: self.clone(),
            bytes: 0,
        }
    }

    /// Takes bytes, if there are as many.
    pub fn take(&self, bytes: usize) -> Option<Charge> {
        let mut charge = self.charge();
        charge.grow(bytes).then_some(charge)
    }

    fn add(&self, bytes: u64) -> bool {
        let taken = match self.taken().checked_add(bytes) {
            Some(taken) if taken <= self.0.limit => taken,
            _ => return false,
        };
        let is_granted = match (&self.0.of, &self.0.guard) {
            (Some(of), _) => of.add(bytes),
            (None, Some(guard)) => guard.grants(taken),
            (None, None) => true,
        };
        if is_granted {
            self.0.taken.set(taken);
        }
        is_granted
    }

    fn remove(&self, bytes: u64) {
        self.0.taken.set(self.taken() - bytes);
        if let Some(of) = &self.0.of {
            of.remove(bytes);
        }
    }
}

impl Guard {
    /// Returns whether so many bytes may be taken.
    fn grants(&self, taken: u64) -> bool {
        let looked = self.looked.get();
        if taken < looked {
            // It looks again as soon as as many are taken once more.
            self.looked.set(taken);
        } else if taken - looked >= STEP {
            if !(self.has_room)() {
                return false;
            }
            self.looked.set(taken);
        }
        true
    }
}

impl Charge {
    /// Takes more bytes. Returns whether there were as many; otherwise it takes none.
    pub fn grow(&mut self, bytes: usize) -> bool {
        let is_taken = self.pool.add(bytes as u64);
        if is_taken {
            self.bytes += bytes as u64;
        }
        is_taken
    }

    /// Takes more bytes or gives some back, so that it has so many. Returns whether there were as many; otherwise it has
    /// what it had.
    pub fn set(&mut self, bytes: usize) -> bool {
        let wanted = bytes as u64;
        if wanted > self.bytes {
            return self.grow((wanted - self.bytes) as usize);
        }
        self.pool.remove(self.bytes - wanted);
        self.bytes = wanted;
        true
    }

    /// Returns how many bytes it has.
    pub fn bytes(&self) -> u64 {
        self.bytes
    }

    /// Gives them back to the part of a pool that they were taken of. They stay taken of the pool that this is a part of.
    pub fn leave_part(&mut self) {
        if let Some(of) = self.pool.0.of.clone() {
            self.pool.0.taken.set(self.pool.taken() - self.bytes);
            self.pool = of;
        }
    }

    /// Gives all bytes back.
    pub fn clear(&mut self) {
        self.pool.remove(self.bytes);
        self.bytes = 0;
    }
}

impl Drop for Charge {
    fn drop(&mut self) {
        self.clear();
    }
}

#[cfg(test)]
mod tests {
    use super::*;

    #[test]
    fn what_is_taken_of_a_part_is_taken_of_the_whole() {
        let all = Pool::new(100);
        let (one, two) = (all.part(60), all.part(60));
        let mut first = one.take(50).unwrap();
        assert!(one.take(11).is_none());
        let second = two.take(50).unwrap();
        assert_eq!((one.taken(), two.taken(), all.taken()), (50, 50, 100));
        assert!(!first.grow(1), "the whole has nothing left");
        drop(second);
        assert!(first.grow(10));
        assert_eq!((one.taken(), two.taken(), all.taken()), (60, 0, 60));
        assert!(first.set(5) && !first.set(61) && first.set(7));
        assert_eq!((one.taken(), all.taken()), (7, 7));
        first.leave_part();
        assert_eq!((one.taken(), all.taken(), first.bytes()), (0, 7, 7));
        drop(first);
        assert_eq!((one.taken(), all.taken()), (0, 0));
        assert!(all.take(usize::MAX).is_none());
    }

    #[test]
    fn a_guard_is_asked_now_and_then() {
        let step = STEP as usize;
        let all = Pool::guarded(u64::MAX, || false);
        let small = all.take(step - 1).unwrap();
        assert!(all.take(1).is_none());
        drop(small);
        let again = all.take(step - 1).unwrap();
        assert!(all.take(step).is_none());
        assert_eq!(all.taken(), STEP - 1);
        drop(again);
        assert!(Pool::guarded(u64::MAX, || true).take(9 * step).is_some());
    }
}
