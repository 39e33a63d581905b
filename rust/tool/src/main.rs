//! Join sheets for people: as text, as bytes, and the estimates of the proved library in words.

mod answers;
mod arguments;
mod check;
mod expected;
mod failure;
mod given;
mod input;

use arguments::{Command, Request, USAGE};
use failure::Failure;
use given::Given;
use input::Input;
use sheet::text;
use std::io::{self, Write};
use std::process::ExitCode;

fn main() -> ExitCode {
    let outcome = arguments::request(std::env::args_os().skip(1))
        .and_then(|request| output(&request))
        .and_then(|output| write(&output));
    match outcome {
        Ok(()) => ExitCode::SUCCESS,
        Err(failure) => {
            eprintln!("{}", failure.message());
            ExitCode::from(failure.status())
        }
    }
}

/// All that goes to standard output. Nothing does where anything is wrong.
fn output(request: &Request) -> Result<Vec<u8>, Failure> {
    let words = match request.command {
        Command::Help => USAGE.into(),
        Command::Text => text_of(Input::read(request)?)?,
        Command::Bytes => return bytes_of(Input::read(request)?),
        Command::Join => join(&Given::either(Input::read(request)?)?)?,
        Command::Predicate(number) => predicate(&Given::either(Input::read(request)?)?, number)?,
        Command::Split(number) => split(&Given::either(Input::read(request)?)?, number)?,
    };
    Ok(words.into_bytes())
}

fn write(output: &[u8]) -> Result<(), Failure> {
    let mut out = io::stdout().lock();
    let written = out.write_all(output).and_then(|()| out.flush());
    written.map_err(|error| Failure::Cannot(format!("cannot write standard output: {error}")))
}

fn text_of(input: Input) -> Result<String, Failure> {
    let sheet = check::sheet(&Given::bytes(input))?;
    Ok(text::print(&sheet))
}

fn bytes_of(input: Input) -> Result<Vec<u8>, Failure> {
    let given = Given::text(input)?;
    check::sheet(&given)?;
    Ok(given.bytes)
}

fn join(given: &Given) -> Result<String, Failure> {
    check::sheet(given)?;
    let join = estimates::join(&given.bytes).map_err(|refusal| given.refused(refusal))?;
    Ok(answers::join(&join))
}

fn predicate(given: &Given, number: u16) -> Result<String, Failure> {
    let sheet = check::sheet(given)?;
    let estimate = estimates::predicate(&given.bytes, number)
        .map_err(|refusal| check::named(given, &sheet, number, refusal))?;
    Ok(answers::predicate(&sheet, number, &estimate))
}

fn split(given: &Given, number: u16) -> Result<String, Failure> {
    let sheet = check::sheet(given)?;
    let conjuncts = estimates::split(&given.bytes, number)
        .map_err(|refusal| check::named(given, &sheet, number, refusal))?;
    Ok(answers::split(&sheet, number, &conjuncts))
}
