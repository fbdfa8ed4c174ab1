//! A table of clients by place.

use crate::client::Client;
use crate::program::ClientId;

/// Clients. A place is used again when its client is gone.
#[derive(Default)]
pub struct Clients {
    places: Vec<Option<Box<Client>>>,
    free: Vec<usize>,
    /// How many there have been.
    count: u64,
}

impl Clients {
    /// Returns which one the next client is.
    pub fn next_id(&self) -> ClientId {
        ClientId {
            place: self.free.last().copied().unwrap_or(self.places.len()),
            serial: self.count,
        }
    }

    /// Puts the next client at its place.
    pub fn insert(&mut self, client: Client) {
        self.count += 1;
        let client = Some(Box::new(client));
        match self.free.pop() {
            Some(place) => self.places[place] = client,
            None => self.places.push(client),
        }
    }

    /// Takes the client at `place` away.
    pub fn remove(&mut self, place: usize) {
        if self.places[place].take().is_some() {
            self.free.push(place);
        }
    }

    /// Returns the client at `place`, if there is one.
    pub fn get_mut(&mut self, place: usize) -> Option<&mut Client> {
        self.places.get_mut(place)?.as_deref_mut()
    }

    /// Returns a client, if it is still there.
    pub fn find(&mut self, id: ClientId) -> Option<&mut Client> {
        self.get_mut(id.place).filter(|client| client.id == id)
    }

    /// Returns the first process id behind `last` that no client has.
    pub fn next_process_id(&self, last: i32) -> i32 {
        next_free(last, |id| {
            self.iter()
                .any(|(_, client)| client.connection.process_id() == id)
        })
    }

    /// Returns the place of the client that has taken longest for its startup, if one hasn't done it. Looks at all.
    pub fn oldest_in_startup(&self) -> Option<usize> {
        self.iter()
            .filter_map(|(place, client)| Some((client.connection.in_startup_since()?, place)))
            .min()
            .map(|(_, place)| place)
    }

    /// Returns how many there are.
    pub fn len(&self) -> usize {
        self.places.len() - self.free.len()
    }

    /// Returns whether there is none.
    pub fn is_empty(&self) -> bool {
        self.len() == 0
    }

    /// Returns all clients with their places.
    pub fn iter(&self) -> impl Iterator<Item = (usize, &Client)> {
        let clients = self.places.iter().enumerate();
        clients.filter_map(|(place, client)| Some((place, client.as_deref()?)))
    }

    /// Returns all clients with their places, to change them.
    pub fn iter_mut(&mut self) -> impl Iterator<Item = (usize, &mut Client)> {
        let clients = self.places.iter_mut().enumerate();
        clients.filter_map(|(place, client)| Some((place, client.as_deref_mut()?)))
    }
}

/// Returns the first number from 1 behind `last` that isn't taken. Behind the greatest one comes 1.
fn next_free(last: i32, is_taken: impl Fn(i32) -> bool) -> i32 {
    let mut next = last;
    loop {
        next = next.checked_add(1).unwrap_or(1);
        if next == last || !is_taken(next) {
            return next;
        }
    }
}

#[cfg(test)]
mod tests {
    use super::*;

    #[test]
    fn no_two_clients_have_the_same_process_id() {
        let nobody = |_| false;
        assert_eq!(next_free(0, nobody), 1);
        assert_eq!(next_free(7, nobody), 8);
        assert_eq!(next_free(7, |id| id < 12), 12);
        assert_eq!(next_free(i32::MAX, nobody), 1);
        assert_eq!(next_free(i32::MAX - 1, |id| id == i32::MAX || id < 3), 3);
    }
}
