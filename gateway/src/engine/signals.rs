//! Signals: which the gateway takes, and what they mean.
//!
//! It takes every signal that would end it without a word, but those of a fault of its own (SIGSEGV, SIGABRT and such)
//! and those that nobody can take.

use std::fs::{self, File};
use std::io;
use std::ops::RangeInclusive;
use std::os::raw::c_int;
use std::time::Duration;

use escrowd_pg::connection::Ending;
use mio::{Interest, Poll};
use signal_hook::consts::{
    SIGALRM, SIGCHLD, SIGHUP, SIGINT, SIGIO, SIGPROF, SIGQUIT, SIGTERM, SIGUSR1, SIGUSR2,
    SIGVTALRM, SIGXCPU, SIGXFSZ,
};
use signal_hook::low_level::signal_name;
use signal_hook_mio::v0_8::Signals;
use tracing::{info, warn};

use super::{Engine, Phase, KILLING, SIGNALS};
use crate::program::Program;

/// The power fails (Linux), of which `signal_hook` has no constant.
const SIGPWR: c_int = 30;

/// A fault of a coprocessor, which no system raises (Linux).
const SIGSTKFLT: c_int = 16;

/// The signals whose meaning programs agree on, as the C library of Linux leaves them.
const REAL_TIME: RangeInclusive<c_int> = 34..=64;

/// The signals that stop the gateway.
const STOPPING: [c_int; 5] = [SIGTERM, SIGINT, SIGQUIT, SIGXCPU, SIGPWR];

/// Those that mean nothing to it, beside the real-time ones. SIGXFSZ comes if the metrics meet a limit of files.
const MEANINGLESS: [c_int; 8] = [
    SIGUSR1, SIGUSR2, SIGALRM, SIGVTALRM, SIGPROF, SIGIO, SIGXFSZ, SIGSTKFLT,
];

/// Signals that stop the gateway within this time count once: `timeout`, shells and service managers send some to the
/// process and to its group.
const ONE: Duration = Duration::from_secs(1);

/// What SIGHUP means.
#[derive(Clone, Copy, Debug, PartialEq, Eq)]
pub(super) enum HangUp {
    /// The terminal that started the gateway is gone.
    Stops,
    /// Somebody asks a service to read its configuration again, or to open its log again. There is no configuration,
    /// and the log is standard error, whose name the gateway doesn't know.
    Nothing,
}

impl HangUp {
    /// Returns what it means to a process that was started as this one was.
    fn here() -> HangUp {
        // A service has no terminal: opening this name fails then.
        match File::open("/dev/tty") {
            Ok(_) => HangUp::Stops,
            Err(_) => HangUp::Nothing,
        }
    }
}

/// Asks the system for signals. Returns them, and what SIGHUP means.
pub(super) fn watch(poll: &Poll) -> io::Result<(Signals, HangUp)> {
    let hang_up = HangUp::here();
    // `nohup` lets a process ignore SIGHUP from its beginning. So it does.
    let ignored = fs::read_to_string("/proc/self/status")?;
    let taken = [SIGCHLD, SIGHUP]
        .into_iter()
        .chain(STOPPING)
        .chain(MEANINGLESS)
        .chain(REAL_TIME)
        .filter(|&signal| signal != SIGHUP || !ignores(&ignored, SIGHUP));
    let mut signals = Signals::new(taken)?;
    poll.registry()
        .register(&mut signals, SIGNALS, Interest::READABLE)?;
    Ok((signals, hang_up))
}

/// Returns whether a process ignores a signal, by the text of its /proc/PID/status.
fn ignores(status: &str, signal: c_int) -> bool {
    let mask = status
        .lines()
        .find_map(|line| line.strip_prefix("SigIgn:"))
        .and_then(|mask| u64::from_str_radix(mask.trim(), 16).ok());
    mask.map_or(false, |mask| mask >> (signal - 1) & 1 == 1)
}

/// Returns the name of a signal.
fn name(signal: c_int) -> String {
    match signal {
        SIGPWR => "SIGPWR".to_owned(),
        _ => signal_name(signal).map_or_else(|| format!("signal {signal}"), str::to_owned),
    }
}

impl Engine {
    /// Takes the signals that came.
    pub(super) fn take_signals(&mut self) {
        let signals: Vec<c_int> = self.signals.pending().collect();
        for signal in signals {
            match signal {
                SIGCHLD => {
                    for program in &mut self.programs {
                        program.look_for_end(self.now);
                    }
                }
                SIGHUP if self.hang_up == HangUp::Nothing => {
                    info!("SIGHUP changes nothing: no file is read again, and the log is standard error");
                }
                signal if signal == SIGHUP || STOPPING.contains(&signal) => self.stop(signal),
                signal => info!("{} changes nothing", name(signal)),
            }
        }
    }

    /// Begins to end, or goes on to the next phase of the end if it is asked once more.
    fn stop(&mut self, signal: c_int) {
        let is_same = |last| self.now.saturating_duration_since(last) < ONE;
        if self.stopped.map_or(false, is_same) {
            return;
        }
        self.stopped = Some(self.now);
        let name = name(signal);
        match self.phase {
            Phase::Opening | Phase::Serving => {
                info!("{name}: stopping");
                self.leave(&Ending::Shutdown);
            }
            Phase::Leaving(_) => {
                info!("{name}: no client is waited for any more");
                self.phase = Phase::Leaving(self.now);
            }
            Phase::Closing(_) => {
                warn!("{name}: the programs are killed. Their stores keep what was answered");
                self.kill_programs();
            }
            Phase::Killing(_) | Phase::Finished => {}
        }
    }

    /// Ends the programs that run still.
    pub(super) fn kill_programs(&mut self) {
        self.programs.iter_mut().for_each(Program::kill);
        self.phase = Phase::Killing(self.now + KILLING);
    }
}

#[cfg(test)]
mod tests {
    use super::*;

    #[test]
    fn ignored_signals_are_read_of_the_status() {
        let status = "Name:\tx\nSigIgn:\t0000000000001001\nSigCgt:\t0000000000000000\n";
        assert!(ignores(status, SIGHUP));
        assert!(!ignores(status, SIGINT));
        assert!(ignores(status, 13));
        assert!(!ignores("Name:\tx\n", SIGHUP));
    }

    #[test]
    fn signals_have_names() {
        assert_eq!(name(SIGUSR1), "SIGUSR1");
        assert_eq!(name(SIGPWR), "SIGPWR");
        assert_eq!(name(40), "signal 40");
    }

    #[test]
    fn no_signal_is_taken_twice() {
        let mut all: Vec<_> = STOPPING
            .into_iter()
            .chain(MEANINGLESS)
            .chain([SIGCHLD, SIGHUP])
            .chain(REAL_TIME)
            .collect();
        let count = all.len();
        all.sort_unstable();
        all.dedup();
        assert_eq!(all.len(), count);
    }
}
