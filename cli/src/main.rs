//! `wimmostry`: the calls of the proved library on files. `wimmostry help` says
//! all about it; the commands are the entries of `table.rs`.

mod bcns;
mod calls;
mod data;
mod demo;
mod draw;
mod escape;
mod explain;
mod files;
mod fresh;
mod guard;
mod help;
mod json;
mod link;
mod lock;
mod near;
mod options;
mod outputs;
mod pages;
mod public;
mod random;
mod rows;
mod run;
mod session;
mod settings;
mod shape;
mod signals;
mod table;
mod tell;
mod trace;
mod wipe;
mod words;

use std::ffi::OsString;
use std::process::ExitCode;
use table::{Command, Form, OPTIONS};
use tell::{Done, Fault};
use words::Found;

/// Whether this processor has all that code for a level takes: where a part is
/// missing the first call would end the process by a signal.
#[cfg(target_arch = "x86_64")]
fn runs(level: &str) -> bool {
    use std::is_x86_feature_detected as has;
    let v3 = has!("avx2") && has!("bmi1") && has!("bmi2") && has!("f16c") && has!("fma");
    level != "x86-64-v3" || v3 && has!("lzcnt") && has!("movbe")
}

#[cfg(not(target_arch = "x86_64"))]
fn runs(_: &str) -> bool {
    true
}

fn main() -> ExitCode {
    let level = wimmostry::cpu();
    if !runs(level) {
        eprintln!(
            "wimmostry: this processor cannot run a program for {level}; build it for x86-64"
        );
        return ExitCode::from(4);
    }
    guard::begin();
    let words = options::take(std::env::args_os().skip(1));
    let status = words
        .and_then(|words| dispatch(&words))
        .unwrap_or_else(|fault| {
            tell::complain(&fault);
            fault.status
        });
    ExitCode::from(status)
}

fn dispatch(words: &[OsString]) -> Done {
    if options::given("--help") {
        return help::of(words);
    }
    if options::given("--version") && words.is_empty() {
        return help::version(&[]);
    }
    if words.is_empty() {
        return help::run(&[]);
    }
    let Found {
        command,
        file,
        rest,
    } = words::command(words)?;
    words::counted(command, rest.len())?;
    taken(command)?;
    match &command.form {
        Form::Files(own) => run::run(own, None, rest),
        Form::Session(own) => session::run(own, file, rest),
        Form::Kept(run) => run(file),
        Form::Words(own) => (own.run)(rest),
    }
}

/// That the command takes the options that were given.
fn taken(command: &Command) -> Result<(), Fault> {
    let other = |only: &str| only != command.name;
    let mut options = OPTIONS.iter().filter(|x| x.only.is_some_and(other));
    match options.find(|x| options::given(x.name)) {
        None => Ok(()),
        Some(option) => Err(tell::words(format!(
            "{} is an option of {}, not of {}",
            option.name,
            option.only.unwrap_or_default(),
            command.name
        ))),
    }
}
