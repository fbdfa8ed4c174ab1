//! A queue of bytes whose memory follows what waits in it.

use std::collections::VecDeque;

/// Bytes that are appended at the back and taken off the front.
///
/// They are kept in pieces. A piece is freed as soon as all of it is taken, so a queue that is never empty does not
/// grow. Each byte is moved at most once, so all costs are linear.
#[derive(Debug)]
pub struct Queue {
    /// How long a piece becomes before the next one is begun.
    piece: usize,
    /// The pieces in front of the last one.
    closed: VecDeque<Vec<u8>>,
    last: Vec<u8>,
    /// How many bytes of the first piece are taken.
    taken: usize,
    /// The bytes of the closed pieces, taken ones included.
    closed_length: usize,
}

impl Queue {
    /// Returns an empty queue, with pieces of this many bytes.
    pub fn new(piece: usize) -> Queue {
        Queue {
            piece,
            closed: VecDeque::new(),
            last: Vec::new(),
            taken: 0,
            closed_length: 0,
        }
    }

    /// Returns the last piece, to append at most `length` bytes to it. They stay in one piece. A new one is begun if
    /// this one would become too long.
    ///
    /// More may be appended: then this piece is longer than others.
    pub fn room(&mut self, length: usize) -> &mut Vec<u8> {
        if !self.last.is_empty() && self.last.len() + length > self.piece {
            let closed = std::mem::take(&mut self.last);
            self.closed_length += closed.len();
            self.closed.push_back(closed);
        }
        &mut self.last
    }

    /// Returns the first bytes: the rest of the first piece. They are none exactly if the queue is empty.
    pub fn front(&self) -> &[u8] {
        &self.closed.front().unwrap_or(&self.last)[self.taken..]
    }

    /// Returns how many bytes wait.
    pub fn len(&self) -> usize {
        self.closed_length + self.last.len() - self.taken
    }

    /// Returns whether no byte waits.
    pub fn is_empty(&self) -> bool {
        self.len() == 0
    }

    /// Takes at most `count` bytes off the front.
    pub fn take(&mut self, count: usize) {
        self.taken += count.min(self.len());
        while let Some(first) = self.closed.front() {
            if self.taken < first.len() {
                return;
            }
            self.taken -= first.len();
            self.closed_length -= first.len();
            self.closed.pop_front();
        }
        if self.taken == self.last.len() {
            self.clear();
        }
    }

    /// Takes all bytes. The memory of one piece is kept for the next ones.
    pub fn clear(&mut self) {
        self.closed = VecDeque::new();
        self.closed_length = 0;
        self.taken = 0;
        self.last.clear();
        self.last.shrink_to(self.piece);
    }

    /// Gives the kept memory back, if the queue is empty.
    pub fn trim(&mut self) {
        if self.is_empty() {
            self.last = Vec::new();
        }
    }

    /// Returns how many bytes of memory it takes.
    #[cfg(test)]
    fn memory(&self) -> usize {
        self.closed.iter().map(Vec::capacity).sum::<usize>() + self.last.capacity()
    }
}

#[cfg(test)]
mod tests {
    use super::*;
    use proptest::prelude::*;

    const PIECE: usize = 64;

    #[test]
    fn a_queue_that_is_never_empty_does_not_grow() {
        let mut queue = Queue::new(PIECE);
        queue.room(10).extend_from_slice(&[1; 10]);
        for _ in 0..10_000 {
            queue.room(10).extend_from_slice(&[2; 10]);
            queue.take(10);
            assert_eq!(queue.len(), 10);
            assert!(queue.memory() <= 4 * PIECE, "{}", queue.memory());
        }
    }

    #[test]
    fn memory_falls_again() {
        let mut queue = Queue::new(PIECE);
        for _ in 0..1_000 {
            queue.room(50).extend_from_slice(&[7; 50]);
        }
        queue.take(49_900);
        assert!(queue.memory() <= 4 * PIECE);
        queue.room(9_000).extend_from_slice(&[7; 9_000]);
        queue.take(usize::MAX);
        assert!(queue.is_empty() && queue.memory() <= PIECE);
        queue.room(9).push(7);
        queue.trim();
        assert_eq!(queue.front(), [7]);
        queue.take(1);
        queue.trim();
        assert_eq!(queue.memory(), 0);
    }

    proptest! {
        /// A queue gives what a vector from which the front is removed has.
        #[test]
        fn bytes_come_in_their_order(
            steps in prop::collection::vec((prop::collection::vec(any::<u8>(), 0..100), 0_usize..150), 0..60),
        ) {
            let (mut queue, mut plain) = (Queue::new(PIECE), Vec::new());
            for (bytes, count) in steps {
                queue.room(bytes.len()).extend_from_slice(&bytes);
                plain.extend_from_slice(&bytes);
                prop_assert!(plain.starts_with(queue.front()));
                prop_assert_eq!(queue.front().is_empty(), plain.is_empty());
                queue.take(count);
                plain.drain(..count.min(plain.len()));
                prop_assert_eq!(queue.len(), plain.len());
            }
            let mut rest = Vec::new();
            while !queue.is_empty() {
                rest.extend_from_slice(queue.front());
                queue.take(queue.front().len());
            }
            prop_assert_eq!(rest, plain);
        }

        /// What is appended with its length is never parted, unless it alone is longer than a piece.
        #[test]
        fn what_fits_into_a_piece_is_never_parted(lengths in prop::collection::vec(1..=PIECE, 1..50)) {
            let mut queue = Queue::new(PIECE);
            for &length in &lengths {
                let piece = queue.room(length);
                piece.resize(piece.len() + length - 1, b'x');
                piece.push(b'\n');
            }
            let mut count = 0;
            while !queue.is_empty() {
                let front = queue.front();
                prop_assert!(front.len() <= PIECE && front.ends_with(b"\n"));
                count += front.iter().filter(|&&byte| byte == b'\n').count();
                queue.take(front.len());
            }
            prop_assert_eq!(count, lengths.len());
        }
    }
}
