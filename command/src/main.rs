//! The command `rewrites`: the calls of the library from a shell and from a job. What a call
//! answers is the library's; how it is laid out is tested here.

#![forbid(unsafe_code)]

mod blame;
mod check;
mod costs;
mod desk;
mod fault;
mod files;
mod folder;
mod force;
mod join;
mod lines;
mod list;
mod marks;
mod output;
mod parts;
mod path;
mod price;
mod review;
mod run;
mod slip;
mod stage;
mod start;
mod status;
mod tabulate;
mod why;

#[cfg(test)]
mod tests;

use clap::error::ErrorKind;
use clap::{CommandFactory, Parser, Subcommand};
use output::{reason, Output, Unwritten};
use status::Status;
use std::io::{self, Write};
use std::process::ExitCode;

const STATUSES: &str = "\
Exit status:
  0  a result
  1  something is refused
  2  usage, or a file that can't be read
  3  output that wasn't written
Of many folders the worst is told.";

/// Shift programs: judges marks and shows why they are refused, tabulates and reviews conditions, runs, prices by a buyer's table, finds
/// what a driver can force and the lines of marks, lists readers and writers, joins two programs, keeps
/// stages to go back to, and serves a page for a folder
#[derive(Parser)]
#[command(name = "rewrites", version, after_help = STATUSES)]
struct Arguments {
    #[command(subcommand)]
    call: Call,
}

#[derive(Subcommand)]
enum Call {
    /// Judge the marks of folders, and write the program with the accepted ones made
    #[command(after_help = STATUSES)]
    Check(check::Arguments),
    /// Show why a mark is refused: the path that speaks against it
    #[command(after_help = STATUSES)]
    Why(why::Arguments),
    /// Show at which statements each part of a condition is true
    #[command(after_help = STATUSES)]
    Tabulate(tabulate::Arguments),
    /// Show at which statements each condition of a review is true
    #[command(after_help = STATUSES)]
    Review(review::Arguments),
    /// Show what a driver can force, however the unit answers
    #[command(after_help = STATUSES)]
    Force(force::Arguments),
    /// Run a program from a start
    #[command(after_help = STATUSES)]
    Run(run::Arguments),
    /// Show what the statements and the runs of both programs cost by a buyer's own prices
    #[command(after_help = STATUSES)]
    Price(price::Arguments),
    /// Show where in a list the line of each mark begins and ends
    #[command(after_help = STATUSES)]
    Lines(lines::Arguments),
    /// Show for each variable the statements that define it and those that use it
    #[command(after_help = STATUSES)]
    List(list::Arguments),
    /// Make one program of a road program and a creeper program
    #[command(after_help = STATUSES)]
    Join(join::Arguments),
    /// Keep a program under a name, return to one, or show what is kept
    #[command(after_help = STATUSES)]
    Stage(stage::Arguments),
    /// Serve a page for a folder on this machine, to look at conditions, marks, runs and reviews
    #[command(after_help = STATUSES)]
    Desk(desk::Arguments),
}

/// What is wrong with the arguments of a call taken together.
fn wrong(arguments: &Arguments) -> Option<clap::Error> {
    let (name, words) = match &arguments.call {
        Call::Check(check) => ("check", check.wrong()?),
        Call::Stage(stage) => ("stage", stage.wrong()?),
        Call::Why(_)
        | Call::Tabulate(_)
        | Call::Review(_)
        | Call::Force(_)
        | Call::Run(_)
        | Call::Price(_)
        | Call::Lines(_)
        | Call::List(_)
        | Call::Join(_)
        | Call::Desk(_) => return None,
    };
    let mut command = Arguments::command();
    command.build();
    let of_call = command.find_subcommand_mut(name)?;
    Some(of_call.error(ErrorKind::ArgumentConflict, words))
}

/// Prints help, the version, or what is wrong with the arguments.
fn told(error: &clap::Error) -> Result<Status, Unwritten> {
    let printed = error.print().and_then(|()| io::stdout().flush());
    if error.use_stderr() {
        return Ok(Status::Unread);
    }
    let place = "standard output".to_string();
    printed.map(|()| Status::Result).map_err(|error| Unwritten { place, error })
}

fn answered(output: &mut Output) -> Result<Status, Unwritten> {
    let arguments = match Arguments::try_parse() {
        Ok(arguments) => arguments,
        Err(error) => return told(&error),
    };
    if let Some(error) = wrong(&arguments) {
        return told(&error);
    }
    match arguments.call {
        Call::Check(call) => call.run(output),
        Call::Why(call) => call.run(output),
        Call::Tabulate(call) => call.run(output),
        Call::Review(call) => call.run(output),
        Call::Force(call) => call.run(output),
        Call::Run(call) => call.run(output),
        Call::Price(call) => call.run(output),
        Call::Lines(call) => call.run(output),
        Call::List(call) => call.run(output),
        Call::Join(call) => call.run(output),
        Call::Stage(call) => call.run(output),
        Call::Desk(call) => call.run(output),
    }
}

fn main() -> ExitCode {
    let mut output = Output::new();
    let status = answered(&mut output).unwrap_or_else(|Unwritten { place, error }| {
        // A pipe that nobody reads from any more is no mistake to be told.
        if error.kind() != io::ErrorKind::BrokenPipe {
            output.say(format!("{place}: {}", reason(&error)));
        }
        Status::Unwritten
    });
    output.end_progress();
    status.into()
}
