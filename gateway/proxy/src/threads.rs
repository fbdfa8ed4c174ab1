//! Threads that serve connections, each with a runtime of its own, so that no connection's task moves from one to another.
//!
//! They are fewer than the processors. A thread that is busy takes all that has come meanwhile at once. One that sleeps is
//! woken for each message: that costs the process that wakes it, and takes a processor from another one amid its work.

use std::future::Future;
use std::io;
use std::thread;
use std::time::Duration;

use tokio::runtime::{Builder, Handle};
use tokio::sync::mpsc::{unbounded_channel, UnboundedReceiver, UnboundedSender};
use tokio::time::interval;

use crate::relay::{self, Service};
use crate::stream::{Detached, Stream};

/// For how many processors there is a thread. On one machine with PostgreSQL and clients, these have more to do for a message.
const PROCESSORS: usize = 2;

/// A timer that ends before all others has its thread wake itself as it begins. One that ends as often as this is always
/// there, so those that limit how long an UPDATE waits don't.
const FIRST: Duration = Duration::from_secs(5);

/// Returns how many threads serve connections, unless the command line says it.
pub fn usual_count() -> u16 {
    let processors = thread::available_parallelism().map_or(1, usize::from);
    u16::try_from(processors / PROCESSORS).map_or(u16::MAX, |count| count.max(1))
}

/// The threads. Connections go to them in turn.
#[derive(Clone)]
pub struct Threads {
    first: Handle,
    threads: Vec<UnboundedSender<Detached>>,
    next: usize,
}

impl Threads {
    /// Starts so many, at least one.
    ///
    /// # Errors
    ///
    /// Fails if the system refuses a thread.
    pub fn start(count: u16, service: &Service) -> io::Result<Threads> {
        let (first, sender) = start(0, service)?;
        let mut threads = vec![sender];
        for number in 1..count {
            threads.push(start(number, service)?.1);
        }
        Ok(Threads {
            first,
            threads,
            next: 0,
        })
    }

    /// Has a task done by the first thread: what clients of it wait for needs no other thread to wake it then.
    pub fn spawn(&self, task: impl Future<Output = ()> + Send + 'static) {
        self.first.spawn(task);
    }

    /// Has a connection served.
    ///
    /// # Errors
    ///
    /// Fails if the system refuses to hand it over.
    pub fn take(&mut self, client: Stream) -> io::Result<()> {
        // A thread ends only with the program.
        let _ = self.threads[self.next].send(client.detach()?);
        self.next = (self.next + 1) % self.threads.len();
        Ok(())
    }
}

/// Starts a thread. Returns its runtime, and what takes its connections.
fn start(number: u16, service: &Service) -> io::Result<(Handle, UnboundedSender<Detached>)> {
    let (sender, connections) = unbounded_channel();
    let runtime = Builder::new_current_thread().enable_all().build()?;
    let handle = runtime.handle().clone();
    let service = service.clone();
    thread::Builder::new()
        .name(format!("clients {number}"))
        .spawn(move || runtime.block_on(serve(service, connections)))?;
    Ok((handle, sender))
}

async fn serve(service: Service, mut connections: UnboundedReceiver<Detached>) {
    let mut first = interval(FIRST);
    loop {
        let client = tokio::select! {
            client = connections.recv() => client,
            _ = first.tick() => continue,
        };
        let client = match client {
            Some(client) => client,
            None => return,
        };
        let service = service.clone();
        tokio::spawn(async move {
            let served = match client.attach() {
                Ok(client) => relay::serve(client, &service).await,
                Err(error) => Err(error.into()),
            };
            if let Err(error) = served {
                tracing::warn!("a connection ended: {error}");
            }
        });
    }
}

#[cfg(test)]
mod tests {
    use super::*;
    use tokio::net::UnixStream;

    #[tokio::test]
    async fn connections_go_to_threads_in_turn() {
        let (senders, mut receivers): (Vec<_>, Vec<_>) =
            (0..3).map(|_| unbounded_channel()).unzip();
        let mut threads = Threads {
            first: Handle::current(),
            threads: senders,
            next: 0,
        };
        for turn in 0..7 {
            let (near, _far) = UnixStream::pair().unwrap();
            threads.take(Stream::Unix(near)).unwrap();
            for (at, receiver) in receivers.iter_mut().enumerate() {
                assert_eq!(receiver.try_recv().is_ok(), at == turn % 3, "turn {turn}");
            }
        }
    }

    #[test]
    fn every_machine_has_a_thread() {
        assert!(usual_count() > 0);
    }
}
