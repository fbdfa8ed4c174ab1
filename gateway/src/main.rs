//! PostgreSQL's protocol in front of `escrowd serve`.
#![forbid(unsafe_code)]
#![warn(missing_docs)]

mod allocator;
mod args;
mod client;
mod engine;
mod failure;
mod metrics;
mod program;
#[cfg(test)]
#[path = "system/temporary.rs"]
mod temporary;

use std::process::ExitCode;

use escrowd_pg::system::log::Log;
use tracing::error;

use args::Args;
use engine::Engine;

fn main() -> ExitCode {
    allocator::settle();
    let args = Args::read();
    let log = match Log::start(args.log_level.level()) {
        Ok(log) => log,
        Err(error) => {
            eprintln!("escrowd-pg: the log cannot be started: {error}");
            return ExitCode::FAILURE;
        }
    };
    let status = match Engine::start(&args) {
        Ok(engine) => engine.run(),
        Err(failure) => {
            error!("{failure}");
            failure.status()
        }
    };
    log.finish();
    ExitCode::from(status)
}
