//! What the recorder refuses, and four threads that call a map with one lock: `rustc recorder_main.rs`, `./recorder_main > run.history`,
//! `abd justify run.history`.
//!
//! One call in twenty gets no answer: it may have taken effect, and its thread goes on as a new client.
mod recorder;

use recorder::{Names, Recorder};
use std::collections::HashMap;
use std::fmt::Debug;
use std::hash::{BuildHasher, RandomState};
use std::io::{Result, Stdout, sink, stdout};
use std::sync::Mutex;
use std::thread;

type Pairs = Mutex<HashMap<&'static str, (u64, u16, Option<String>)>>;

fn refused<T: Debug>(answer: Result<T>, words: &str) {
    assert_eq!(answer.expect_err("it should be refused").to_string(), words);
}

/// Each refusal, at the call that makes it; nothing is written then.
fn refusals() -> Result<()> {
    let mut file = Vec::new();
    let log = Recorder::new(&mut file)?;
    let read = log.invoke_read(7, "x")?;
    let write = log.invoke_write(65_535, "Aa0._-", &"é".repeat(128))?;
    log.note(write, 1_000_001, 65_535)?;
    let wrong = |key: &str| format!("key {key:?} should be 1 to 64 letters, digits, '.', '_' or '-'");
    refused(log.invoke_read(0, "x"), "client 0 should be a number from 1 to 65535");
    refused(log.invoke_read(7, "x"), "client 7 has call 0 pending: after a call without an answer take a new client");
    for key in ["user:17", "", "x\n", &"x".repeat(65)] {
        refused(log.invoke_read(1, key), &wrong(key));
    }
    refused(log.invoke_write(1, "x", &("é".repeat(128) + "e")), "a value has 257 bytes, and should have at most 256");
    refused(log.respond_write(read), "call 0 is a read, not a write");
    refused(log.respond_read(write, None), "call 1 is a write, not a read");
    refused(log.respond_write(2), "call 2 isn't pending");
    refused(log.note(write, 1, 1), "call 1 has a note");
    refused(log.new_client(), "client 65536 should be a number from 1 to 65535");
    log.respond_read(read, None)?;
    refused(log.respond_read(read, None), "call 0 isn't pending");
    drop(log);
    assert_eq!(String::from_utf8_lossy(&file).lines().count(), 5, "a refused call was written");
    Ok(())
}

fn most_calls() -> Result<()> {
    let log = Recorder::new(sink())?;
    for _ in 0..1_000_000 {
        log.respond_write(log.invoke_write(1, "x", "")?)?;
    }
    refused(log.invoke_read(1, "x"), "a history has at most 1,000,000 calls");
    Ok(())
}

fn names() {
    let keys = Names::new("k");
    assert_eq!([keys.of("user:17"), keys.of("4"), keys.of("user:17")], ["k0", "k1", "k0"]);
    assert_eq!(keys.lines(), ["k0 user:17", "k1 4"]);
}

fn write(client: u16, key: &'static str, value: String, is_done: bool, recorder: &Recorder<Stdout>, pairs: &Pairs) -> Result<u32> {
    let call = recorder.invoke_write(client, key, &value)?;
    if is_done {
        let mut pairs = pairs.lock().unwrap();
        let number = pairs.get(key).map_or(1, |pair| pair.0 + 1);
        recorder.note(call, number, client)?;
        pairs.insert(key, (number, client, Some(value)));
    }
    Ok(call)
}

fn read(client: u16, key: &'static str, recorder: &Recorder<Stdout>, pairs: &Pairs) -> Result<(u32, Option<String>)> {
    let call = recorder.invoke_read(client, key)?;
    let (number, writer, value) = pairs.lock().unwrap().get(key).cloned().unwrap_or_default();
    recorder.note(call, number, writer)?;
    Ok((call, value))
}

/// A thread's calls, each value once.
fn calls(number: u16, recorder: &Recorder<Stdout>, pairs: &Pairs) -> Result<()> {
    let (random, mut client) = (RandomState::new(), recorder.new_client()?);
    for turn in 0..100u32 {
        let chosen = random.hash_one(turn);
        let (key, is_answered) = (if chosen & 1 == 0 { "x" } else { "y" }, (chosen >> 8) % 20 > 0);
        if chosen & 2 == 0 {
            let is_done = is_answered || chosen & 4 == 0;
            let call = write(client, key, format!("\"{number}\"\t\\{turn} é"), is_done, recorder, pairs)?;
            if is_answered {
                recorder.respond_write(call)?;
            }
        } else {
            let (call, value) = read(client, key, recorder, pairs)?;
            if is_answered {
                recorder.respond_read(call, value.as_deref())?;
            }
        }
        if !is_answered {
            client = recorder.new_client()?;
        }
    }
    Ok(())
}

fn main() -> Result<()> {
    refusals()?;
    most_calls()?;
    names();
    let (recorder, pairs) = (Recorder::new(stdout())?, Pairs::default());
    thread::scope(|scope| {
        let clients = [1, 2, 3, 4].map(|number| scope.spawn({
            let (recorder, pairs) = (&recorder, &pairs);
            move || calls(number, recorder, pairs)
        }));
        clients.into_iter().try_for_each(|client| client.join().expect("no client panics"))
    })
}
