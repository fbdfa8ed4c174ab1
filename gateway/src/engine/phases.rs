//! How the gateway begins and ends.

use escrowd_pg::connection::Ending;
use escrowd_pg::system::notify;
use tracing::{error, info};

use super::{enqueue, Engine, Phase, CLOSING, FAREWELL, LISTENER, SHORT_FAREWELL};
use crate::failure::Failure;
use crate::program::Program;

impl Engine {
    /// Goes on to the next phases, as far as it is time for them.
    pub(super) fn act_on_phase(&mut self) {
        loop {
            let phase = self.phase;
            self.act_once();
            if self.phase == phase {
                return;
            }
        }
    }

    /// Goes on to the next phase, if it is time for that.
    fn act_once(&mut self) {
        match self.phase {
            Phase::Opening => {
                if let Err(failure) = self.start_again() {
                    self.fail(failure);
                } else if !self.notice_end() && self.programs.iter().all(Program::is_open) {
                    self.open_door();
                }
            }
            Phase::Serving => {
                self.notice_end();
            }
            Phase::Leaving(until) => {
                self.notice_end();
                if self.clients.is_empty() || until <= self.now {
                    self.clients = Default::default();
                    self.programs.iter().for_each(Program::let_go_on);
                    self.programs.iter_mut().for_each(Program::tell_to_end);
                    self.phase = Phase::Closing(self.now + CLOSING);
                }
            }
            Phase::Closing(until) => {
                if self.have_exited() {
                    self.finish_end();
                } else if until <= self.now {
                    self.kill_programs();
                }
            }
            Phase::Killing(until) => {
                if self.have_exited() || until <= self.now {
                    self.finish_end();
                }
            }
            Phase::Finished => {}
        }
    }

    /// Returns whether all programs have exited.
    fn have_exited(&self) -> bool {
        let now = self.now;
        self.programs.iter().all(|program| program.has_exited(now))
    }

    /// Ends the gateway.
    fn finish_end(&mut self) {
        self.judge_ends();
        self.phase = Phase::Finished;
    }

    /// Lets clients in.
    fn open_door(&mut self) {
        let opened = match &mut self.door {
            Some(door) => door.open(self.poll.registry(), LISTENER),
            None => return,
        };
        match opened {
            Err(failure) => self.fail(failure),
            Ok(()) => {
                self.phase = Phase::Serving;
                notify::ready();
                if let Some(door) = &self.door {
                    let names = self.settings.databases.join(", ");
                    info!("serving {names} at {}", door.path().display());
                }
            }
        }
    }

    /// Starts the programs again whose stores were still open in others.
    fn start_again(&mut self) -> Result<(), Failure> {
        let registry = self.poll.registry();
        self.programs
            .iter_mut()
            .try_for_each(|program| program.retry(registry, self.now))
    }

    /// Ends the gateway if a program has ended, unless it will be started again. Returns whether one has.
    ///
    /// A stop ends the wait for a store that another program has open. That is no fault.
    fn notice_end(&mut self) -> bool {
        let is_opening = self.phase == Phase::Opening;
        let waits = |program: &Program| match is_opening {
            true => program.retry_at().is_some(),
            false => program.found_its_store_open(),
        };
        let has_failed = |program: &&Program| program.has_ended(self.now) && !waits(program);
        let program = match self.programs.iter().find(has_failed) {
            None => return false,
            Some(program) => program,
        };
        let (database, how) = (program.name().to_owned(), program.how_it_ended());
        self.fail(if program.is_open() {
            Failure::Ended { database, how }
        } else {
            Failure::NotOpened { database, how }
        });
        true
    }

    /// Ends the gateway for a fault, unless it ends for one already.
    pub(super) fn fail(&mut self, failure: Failure) {
        if self.failure.is_none() {
            error!("{failure}");
            self.leave(&Ending::ProgramEnded(failure.to_string()));
            self.failure = Some(failure);
        }
    }

    /// Accepts no client any more, and tells those that are there of the end.
    pub(super) fn leave(&mut self, why: &Ending) {
        self.door = None;
        notify::stopping();
        self.programs.iter().for_each(Program::let_go_on);
        for (place, client) in self.clients.iter_mut() {
            client.connection.end(why.clone(), self.now);
            enqueue(&mut self.queue, client, place);
        }
        self.phase = Phase::Leaving(match why {
            Ending::Shutdown => self.now + FAREWELL,
            Ending::ProgramEnded(_) => self.now + SHORT_FAREWELL,
        });
    }

    /// Notes which of the programs didn't end well.
    fn judge_ends(&mut self) {
        for program in &self.programs {
            let how = match program.has_exited(self.now) {
                true if program.ended_well() || program.found_its_store_open() => continue,
                true => program.how_it_ended(),
                false => "did not end when it was killed".to_owned(),
            };
            // A fault that ended all was told already.
            if self.failure.is_none() {
                let failure = Failure::EndedBadly {
                    database: program.name().to_owned(),
                    how,
                };
                error!("{failure}");
                self.failure = Some(failure);
            }
        }
    }
}
