//! A recorder for a store's test, to copy: it writes a history file for `abd`.
//!
//! All threads of a run share one recorder. Its lock is the run's one clock: a call precedes another if its response was recorded
//! before the other's invocation. Each line is flushed, so what was recorded stays if the process dies. What `abd` would refuse is
//! refused here, at the call that makes it: an error of the kind `InvalidInput` says what is wrong, and nothing is written.

use std::collections::HashMap;
use std::io::{Error, ErrorKind, Result, Write};
use std::sync::{Mutex, MutexGuard};

const CALLS: u32 = 1_000_000;
const VALUE_BYTES: usize = 256;

/// Writes the rows of a run as they happen.
pub struct Recorder<W>(Mutex<Log<W>>);

struct Log<W> {
    file: W,
    calls: u32,
    last_client: u16,
    pending: HashMap<u32, Pending>,
    busy: HashMap<u16, u32>,
}

/// A call without a response.
struct Pending {
    client: u16,
    does: &'static str,
    is_noted: bool,
}

impl<W: Write> Recorder<W> {
    pub fn new(file: W) -> Result<Self> {
        let mut log = Log { file, calls: 0, last_client: 0, pending: HashMap::new(), busy: HashMap::new() };
        log.write(r#"{"abd":"history","version":1}"#)?;
        Ok(Recorder(Mutex::new(log)))
    }

    /// A client's name that nobody has: for each thread, and for a thread whose last call got no answer.
    pub fn new_client(&self) -> Result<u16> {
        let mut log = self.log();
        log.last_client = log.last_client.checked_add(1).ok_or_else(|| refused("client 65536 should be a number from 1 to 65535"))?;
        Ok(log.last_client)
    }

    /// Record this before the call's first message goes out. The number of the call.
    pub fn invoke_read(&self, client: u16, key: &str) -> Result<u32> {
        self.log().invoke(client, key, "read", "")
    }

    /// The same for a write.
    pub fn invoke_write(&self, client: u16, key: &str, value: &str) -> Result<u32> {
        require_value(value)?;
        self.log().invoke(client, key, "write", &format!(r#","value":{}"#, quoted(value)))
    }

    /// Only for a store with tags: the tag of a pending call. Numbers above 1,000,000 want `rank_tags.py` afterwards.
    pub fn note(&self, call: u32, number: u64, writer: u16) -> Result<()> {
        let mut log = self.log();
        let pending = log.find(call)?;
        require(!pending.is_noted, || format!("call {call} has a note"))?;
        pending.is_noted = true;
        log.write(&format!(r#"{{"call":{call},"number":{number},"row":"note","writer":{writer}}}"#))
    }

    /// Record this after the answer has come, before the caller is told. `None`: the key was absent.
    pub fn respond_read(&self, call: u32, value: Option<&str>) -> Result<()> {
        value.map_or(Ok(()), require_value)?;
        self.log().respond(call, "read", &format!(r#","value":{}"#, value.map_or("null".to_string(), quoted)))
    }

    /// The same for a write.
    pub fn respond_write(&self, call: u32) -> Result<()> {
        self.log().respond(call, "write", "")
    }

    fn log(&self) -> MutexGuard<'_, Log<W>> {
        self.0.lock().expect("no thread panics while it records")
    }
}

impl<W: Write> Log<W> {
    fn invoke(&mut self, client: u16, key: &str, does: &'static str, value: &str) -> Result<u32> {
        require(client > 0, || "client 0 should be a number from 1 to 65535".to_string())?;
        require_key(key)?;
        if let Some(call) = self.busy.get(&client) {
            return Err(refused(format!("client {client} has call {call} pending: after a call without an answer take a new client")));
        }
        require(self.calls < CALLS, || "a history has at most 1,000,000 calls".to_string())?;
        let call = self.calls;
        self.write(&format!(r#"{{"call":{call},"client":{client},"do":"{does}","key":{},"row":"invoke"{value}}}"#, quoted(key)))?;
        self.calls += 1;
        self.last_client = self.last_client.max(client);
        self.pending.insert(call, Pending { client, does, is_noted: false });
        self.busy.insert(client, call);
        Ok(call)
    }

    fn respond(&mut self, call: u32, does: &str, value: &str) -> Result<()> {
        let Pending { client, does: begun, .. } = *self.find(call)?;
        require(begun == does, || format!("call {call} is a {begun}, not a {does}"))?;
        self.write(&format!(r#"{{"call":{call},"row":"respond"{value}}}"#))?;
        self.pending.remove(&call);
        self.busy.remove(&client);
        Ok(())
    }

    fn find(&mut self, call: u32) -> Result<&mut Pending> {
        self.pending.get_mut(&call).ok_or_else(|| refused(format!("call {call} isn't pending")))
    }

    fn write(&mut self, row: &str) -> Result<()> {
        writeln!(self.file, "{row}")?;
        self.file.flush()
    }
}

/// Names for keys or values that no history takes: with `Names::new("k")`, `of("user:17")` is `k0`, and the same each time.
pub struct Names {
    prefix: &'static str,
    places: Mutex<HashMap<String, usize>>,
}

impl Names {
    pub fn new(prefix: &'static str) -> Self {
        Names { prefix, places: Mutex::default() }
    }

    /// The name of a key or a value.
    pub fn of(&self, text: &str) -> String {
        let mut places = self.places.lock().expect("no thread panics while it names");
        let next = places.len();
        format!("{}{}", self.prefix, places.entry(text.to_string()).or_insert(next))
    }

    /// Each name and what it stands for: to print after the run.
    pub fn lines(&self) -> Vec<String> {
        let places = self.places.lock().expect("no thread panics while it names");
        let mut sorted: Vec<_> = places.iter().map(|(text, place)| (place, text)).collect();
        sorted.sort();
        sorted.iter().map(|(place, text)| format!("{}{place} {text}", self.prefix)).collect()
    }
}

fn require_key(key: &str) -> Result<()> {
    let is_lawful = |c: char| c.is_ascii_alphanumeric() || matches!(c, '.' | '_' | '-');
    require((1..=64).contains(&key.len()) && key.chars().all(is_lawful), || {
        format!("key {key:?} should be 1 to 64 letters, digits, '.', '_' or '-'")
    })
}

fn require_value(value: &str) -> Result<()> {
    require(value.len() <= VALUE_BYTES, || format!("a value has {} bytes, and should have at most {VALUE_BYTES}", value.len()))
}

fn require(is_so: bool, otherwise: impl FnOnce() -> String) -> Result<()> {
    if is_so { Ok(()) } else { Err(refused(otherwise())) }
}

fn refused(words: impl Into<String>) -> Error {
    Error::new(ErrorKind::InvalidInput, words.into())
}

fn quoted(text: &str) -> String {
    let escaped = |c: char| match c {
        '"' | '\\' => format!("\\{c}"),
        c if c < ' ' => format!("\\u{:04x}", c as u32),
        c => c.to_string(),
    };
    format!("\"{}\"", text.chars().map(escaped).collect::<String>())
}
