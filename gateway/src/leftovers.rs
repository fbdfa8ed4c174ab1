//! What clients no longer use, which is freed part by part.
//!
//! A client may leave hundreds of large pieces at once, by DEALLOCATE ALL, by COMMIT or by its end. To give all of them
//! back to the system takes milliseconds, in which no other client is served. So each turn frees some.

use std::cell::RefCell;
use std::collections::VecDeque;
use std::fmt;

/// Less than this is freed at once, in bytes.
const SMALL: u64 = 64 * 1024;

/// How many bytes a turn frees at least, if there are as many.
const LEAST: u64 = 256 * 1024;

/// Which part of all that waits a turn frees at least.
const PART: u64 = 64;

/// How many bytes wait at the most: what is beyond is freed by the next turn.
const MOST: u64 = 64 * 1024 * 1024;

/// Pieces that wait to be freed.
#[derive(Default)]
pub struct Leftovers(RefCell<Waiting>);

#[derive(Default)]
struct Waiting {
    /// Each step of one of these frees a piece, and tells its bytes.
    things: VecDeque<Box<dyn Iterator<Item = u64>>>,
    /// The bytes of all.
    bytes: u64,
}

impl fmt::Debug for Leftovers {
    fn fmt(&self, formatter: &mut fmt::Formatter<'_>) -> fmt::Result {
        write!(formatter, "Leftovers of {} bytes", self.bytes())
    }
}

impl Leftovers {
    /// Takes pieces of so many bytes together. Each step of `pieces` frees one, and tells its bytes.
    pub fn add(&self, bytes: u64, pieces: impl Iterator<Item = u64> + 'static) {
        if bytes < SMALL {
            pieces.for_each(drop);
        } else {
            let mut waiting = self.0.borrow_mut();
            waiting.bytes += bytes;
            waiting.things.push_back(Box::new(pieces));
        }
    }

    /// Frees what belongs to a turn. Returns whether more may be left.
    pub fn free_some(&self) -> bool {
        let all = self.bytes();
        let share = LEAST.max(all / PART).max(all.saturating_sub(MOST));
        let mut freed = 0;
        while freed < share {
            match self.free_one() {
                Some(bytes) => freed += bytes,
                None => return false,
            }
        }
        true
    }

    /// Frees a piece, and returns its bytes. None: nothing waits.
    fn free_one(&self) -> Option<u64> {
        loop {
            // What is freed may leave something itself, so nothing is borrowed meanwhile.
            let mut pieces = self.0.borrow_mut().things.pop_front()?;
            if let Some(bytes) = pieces.next() {
                let mut waiting = self.0.borrow_mut();
                waiting.bytes = waiting.bytes.saturating_sub(bytes);
                waiting.things.push_front(pieces);
                return Some(bytes);
            }
        }
    }

    /// Returns how many bytes wait.
    fn bytes(&self) -> u64 {
        self.0.borrow().bytes
    }
}

#[cfg(test)]
mod tests {
    use std::rc::Rc;

    use super::*;

    /// Adds so many pieces of a size, and returns what counts those that are not freed, and itself.
    fn add(leftovers: &Leftovers, count: usize, size: u64) -> Rc<()> {
        let counter = Rc::new(());
        let pieces = vec![Rc::clone(&counter); count];
        let all = count as u64 * size;
        leftovers.add(all, pieces.into_iter().map(move |_| size));
        counter
    }

    #[test]
    fn little_is_freed_at_once() {
        let leftovers = Leftovers::default();
        let counter = add(&leftovers, 63, 1024);
        assert_eq!(Rc::strong_count(&counter), 1);
        assert!(!leftovers.free_some());
    }

    #[test]
    fn each_turn_frees_a_part() {
        const SIZE: u64 = 128 * 1024;
        let leftovers = Leftovers::default();
        let (first, second) = (add(&leftovers, 500, SIZE), add(&leftovers, 4, SIZE));
        let per_turn = 1 + (504 / PART) as usize;
        assert!(leftovers.free_some());
        assert_eq!(Rc::strong_count(&first), 501 - per_turn);
        let turns = std::iter::from_fn(|| leftovers.free_some().then_some(())).count();
        assert!((100..250).contains(&turns), "{turns}");
        assert_eq!(Rc::strong_count(&first) + Rc::strong_count(&second), 2);
        assert!(!leftovers.free_some() && leftovers.bytes() == 0);
    }

    #[test]
    fn no_more_than_a_bound_waits() {
        let leftovers = Leftovers::default();
        let counter = add(&leftovers, 3, MOST);
        assert!(leftovers.free_some());
        assert_eq!((Rc::strong_count(&counter), leftovers.bytes()), (2, MOST));
    }
}
