//! What `abd simulate SCRIPT` does, in plain sequential Rust and nothing but std: the yardstick of its speed, and a second
//! program, written from the rules alone, whose output, messages and exit status have to be the same byte for byte.
mod random;
mod record;
mod script;
mod simulator;
#[cfg(test)]
mod tests;
mod world;

use script::Fault;
use std::fs::File;
use std::io::{self, Read, Write};
use std::process::ExitCode;

const FORMAT: u8 = 3;
const FAILED: u8 = 4;

fn report(text: &str, status: u8) -> u8 {
    // Where standard error refuses it too, there is nowhere else to say it.
    let _ = writeln!(io::stderr(), "abd: {text}");
    status
}

fn deliver(messages: &[u8], history: &[u8]) -> io::Result<()> {
    io::stderr().write_all(messages)?;
    let mut out = io::stdout().lock();
    out.write_all(history)?;
    out.flush()
}

fn run(name: &str, mut file: File) -> u8 {
    let mut bytes = Vec::new();
    let is_whole = file.read_to_end(&mut bytes).is_ok();
    match script::parse(&bytes, is_whole) {
        Ok(script) => {
            let (history, messages) = simulator::run(script.config, &script.commands);
            match deliver(&messages, &history) {
                Ok(()) => 0,
                Err(_) => report("output failed", FAILED),
            }
        }
        Err((line, fault)) => {
            let status = if fault == Fault::Device { FAILED } else { FORMAT };
            report(&format!("{name}: line {line}: script fault {} {}", fault as u8, fault.text()), status)
        }
    }
}

fn main() -> ExitCode {
    let arguments: Vec<_> = std::env::args_os().skip(1).collect();
    let [path] = arguments.as_slice() else {
        eprintln!("usage: plain_simulate SCRIPT");
        return ExitCode::from(2);
    };
    let name = path.to_string_lossy();
    ExitCode::from(match File::open(path) {
        Ok(file) => run(&name, file),
        Err(_) => report(&format!("{name}: cannot open"), FORMAT),
    })
}
