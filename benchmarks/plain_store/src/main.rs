//! What the running store does, in plain Rust: the yardstick of the benchmark. Halls are worlds behind std's Mutex, each with its record
//! and its journal; each replica has a thread of its own and serves all halls; parcels and reports go by crossbeam's channels; a call takes
//! its hall's lock for each step, and once more before a round that isn't a phase's first; a caller keeps a log of its calls. It asks no
//! gate, and has no limits, so it refuses nothing.
//!
//! With `--whole` it then does what `abd run` does with the record: it orders each key's calls by their tags, checks the orders, writes the
//! history of each hall on standard output, and counts all of that in the time.
//!
//!     plain_store [--whole] CALLERS CALLS HALLS
use crossbeam_channel::{unbounded, Receiver, Sender};
use std::collections::{BTreeMap, HashMap};
use std::io::Write;
use std::sync::Mutex;
use std::thread;
use std::time::Instant;

const REPLICAS: u8 = 3;
const KEYS: u32 = 8;

type Tag = (u32, u32);
type Pair = (Tag, Option<String>);

#[derive(Clone)]
enum Action {
    Read,
    Write(String),
}

#[allow(dead_code)]
enum Row {
    Invoke { op: u32, client: u32, key: String, action: Action },
    Note { op: u32, tag: Tag },
    Respond { op: u32, returned: Option<Option<String>> },
}

#[derive(Clone)]
#[allow(dead_code)]
enum Step {
    Invoke { client: u32, key: String, action: Action },
    Send { client: u32, replica: u8 },
    Deliver { flight: u32 },
    Respond { client: u32 },
}

enum Message {
    Query { op: u32, replica: u8, key: String },
    Put { op: u32, replica: u8, key: String, pair: Pair },
    Held { op: u32, client: u32, replica: u8, pair: Pair },
    Kept { op: u32, client: u32, replica: u8 },
}

enum Phase {
    Idle,
    Ask { best: Pair },
    Put { pair: Pair },
    Ready { value: Option<String> },
}

struct Client {
    phase: Phase,
    op: u32,
    key: String,
    action: Action,
    counted: u16,
}

#[derive(Default)]
struct Hall {
    replicas: Vec<BTreeMap<String, Pair>>,
    clients: BTreeMap<u32, Client>,
    callers: Vec<u32>,
    flights: HashMap<u32, Message>,
    sent: u32,
    rows: Vec<Row>,
    journal: Vec<Step>,
}

impl Hall {
    /// The call's number, and the place of its invocation.
    fn invoke(&mut self, client: u32, key: &str, action: &Action) -> (u32, usize) {
        let op = self.callers.len() as u32;
        let place = self.rows.len();
        self.callers.push(client);
        self.rows.push(Row::Invoke { op, client, key: key.into(), action: action.clone() });
        self.journal.push(Step::Invoke { client, key: key.into(), action: action.clone() });
        let one = Client { phase: Phase::Ask { best: ((0, 0), None) }, op, key: key.into(), action: action.clone(), counted: 0 };
        self.clients.insert(client, one);
        (op, place)
    }

    fn send(&mut self, client: u32, replica: u8) -> Option<u32> {
        let one = self.clients.get(&client)?;
        let message = match &one.phase {
            Phase::Ask { .. } => Message::Query { op: one.op, replica, key: one.key.clone() },
            Phase::Put { pair } => Message::Put { op: one.op, replica, key: one.key.clone(), pair: pair.clone() },
            _ => return None,
        };
        self.journal.push(Step::Send { client, replica });
        Some(self.fly(message))
    }

    fn fly(&mut self, message: Message) -> u32 {
        let flight = self.sent;
        self.sent += 1;
        self.flights.insert(flight, message);
        flight
    }

    /// Delivers a request; the flight of the reply.
    fn serve(&mut self, flight: u32) -> Option<u32> {
        let reply = match self.flights.remove(&flight)? {
            Message::Query { op, replica, key } => {
                let pair = self.replicas[replica as usize].get(&key).cloned().unwrap_or(((0, 0), None));
                Message::Held { op, client: self.callers[op as usize], replica, pair }
            }
            Message::Put { op, replica, key, pair } => {
                let entry = self.replicas[replica as usize].entry(key).or_insert(((0, 0), None));
                if pair.0 > entry.0 {
                    *entry = pair;
                }
                Message::Kept { op, client: self.callers[op as usize], replica }
            }
            other => {
                self.flights.insert(flight, other);
                return None;
            }
        };
        self.journal.push(Step::Deliver { flight });
        Some(self.fly(reply))
    }

    /// Delivers a reply; whether the client's phase is over.
    fn hear(&mut self, flight: u32) -> bool {
        let Some(message) = self.flights.remove(&flight) else { return false };
        self.journal.push(Step::Deliver { flight });
        let majority = REPLICAS as u32 / 2 + 1;
        match message {
            Message::Held { op, client, replica, pair } => {
                let one = self.clients.get_mut(&client).expect("a client");
                if one.op != op || one.counted >> replica & 1 == 1 {
                    return false;
                }
                let Phase::Ask { best } = &mut one.phase else { return false };
                one.counted |= 1 << replica;
                if pair.0 > best.0 {
                    *best = pair;
                }
                if one.counted.count_ones() >= majority {
                    let best = std::mem::replace(best, ((0, 0), None));
                    let pair = match &one.action {
                        Action::Read => best,
                        Action::Write(value) => ((best.0 .0 + 1, client), Some(value.clone())),
                    };
                    self.rows.push(Row::Note { op, tag: pair.0 });
                    one.counted = 0;
                    one.phase = Phase::Put { pair };
                    return true;
                }
            }
            Message::Kept { op, client, replica } => {
                let one = self.clients.get_mut(&client).expect("a client");
                if one.op != op || one.counted >> replica & 1 == 1 {
                    return false;
                }
                let Phase::Put { pair } = &mut one.phase else { return false };
                one.counted |= 1 << replica;
                if one.counted.count_ones() >= majority {
                    let value = pair.1.take();
                    one.phase = Phase::Ready { value };
                    return true;
                }
            }
            _ => {}
        }
        false
    }

    /// The place of the response, and the answer.
    fn respond(&mut self, client: u32) -> Option<(usize, Option<Option<String>>)> {
        let one = self.clients.get_mut(&client)?;
        let Phase::Ready { value } = std::mem::replace(&mut one.phase, Phase::Idle) else { return None };
        let returned = match one.action {
            Action::Read => Some(value),
            Action::Write(_) => None,
        };
        let place = self.rows.len();
        self.rows.push(Row::Respond { op: one.op, returned: returned.clone() });
        self.journal.push(Step::Respond { client });
        Some((place, returned))
    }

    /// Which replicas the client counted in its phase.
    fn counted(&self, client: u32) -> u16 {
        self.clients[&client].counted
    }
}

struct Parcel {
    hall: usize,
    flight: u32,
    reports: Sender<Option<u32>>,
}

fn serve(halls: &[Mutex<Hall>], parcels: Receiver<Parcel>) {
    for parcel in parcels {
        let reply = halls[parcel.hall].lock().unwrap().serve(parcel.flight);
        let _ = parcel.reports.send(reply);
    }
}

/// What a caller keeps of a call.
#[allow(dead_code)]
struct Entry {
    hall: usize,
    op: u32,
    key: String,
    action: Action,
    invoked: usize,
    response: (usize, Option<Option<String>>),
}

/// What a caller needs on its way.
struct Errand<'a> {
    hall: &'a Mutex<Hall>,
    at: usize,
    ways: &'a [Sender<Parcel>],
    client: u32,
    reports: Sender<Option<u32>>,
    inbox: Receiver<Option<u32>>,
    awaited: u64,
}

impl Errand<'_> {
    /// Makes rounds until the phase is over, which has just begun.
    fn leave(&mut self) {
        let mut counted = 0;
        loop {
            for replica in (0..REPLICAS).filter(|replica| counted >> replica & 1 == 0) {
                let Some(flight) = self.hall.lock().unwrap().send(self.client, replica) else { break };
                let _ = self.ways[replica as usize].send(Parcel { hall: self.at, flight, reports: self.reports.clone() });
                self.awaited += 1;
            }
            while self.awaited > 0 {
                self.awaited -= 1;
                if let Ok(Some(reply)) = self.inbox.recv() {
                    if self.hall.lock().unwrap().hear(reply) {
                        return;
                    }
                }
            }
            counted = self.hall.lock().unwrap().counted(self.client);
        }
    }
}

fn call(
    halls: &[Mutex<Hall>],
    ways: &[Sender<Parcel>],
    client: u32,
    key: &str,
    action: &Action,
    log: &mut Vec<Entry>,
) -> Option<Option<String>> {
    let at = key.bytes().map(usize::from).sum::<usize>() % halls.len();
    let hall = &halls[at];
    let (reports, inbox) = unbounded();
    let (op, invoked) = hall.lock().unwrap().invoke(client, key, action);
    let mut errand = Errand { hall, at, ways, client, reports, inbox, awaited: 0 };
    errand.leave();
    errand.leave();
    let (place, returned) = hall.lock().unwrap().respond(client)?;
    let response = (place, returned.clone());
    log.push(Entry { hall: at, op, key: key.into(), action: action.clone(), invoked, response });
    returned
}

fn caller(halls: &[Mutex<Hall>], ways: &[Sender<Parcel>], client: u32, calls: u32) -> u64 {
    let mut answered = 0;
    let mut log = Vec::new();
    for turn in 0..calls {
        let key = format!("k{}", (turn + client) % KEYS);
        let action = if turn % 2 == 0 { Action::Write(format!("c{client}t{turn}")) } else { Action::Read };
        if call(halls, ways, client, &key, &action, &mut log).is_none() == (turn % 2 == 0) {
            answered += 1;
        }
    }
    answered
}

/// A call as the rows tell it.
struct Recorded<'a> {
    op: u32,
    action: &'a Action,
    invoked: usize,
    tag: Option<Tag>,
    response: Option<(usize, &'a Option<Option<String>>)>,
}

/// The calls of each key.
fn parts(rows: &[Row]) -> BTreeMap<&str, Vec<Recorded<'_>>> {
    let mut parts: BTreeMap<&str, Vec<Recorded<'_>>> = BTreeMap::new();
    let mut places: Vec<(&str, usize)> = Vec::new();
    for (at, row) in rows.iter().enumerate() {
        match row {
            Row::Invoke { op, key, action, .. } => {
                let part = parts.entry(key).or_default();
                places.push((key, part.len()));
                part.push(Recorded { op: *op, action, invoked: at, tag: None, response: None });
            }
            Row::Note { op, tag } => {
                let (key, place) = places[*op as usize];
                parts.get_mut(key).expect("a part")[place].tag = Some(*tag);
            }
            Row::Respond { op, returned } => {
                let (key, place) = places[*op as usize];
                parts.get_mut(key).expect("a part")[place].response = Some((at, returned));
            }
        }
    }
    parts
}

/// Orders the calls by their tags, a write before the reads of its tag, and says whether that shows the key to be atomic.
fn is_atomic(part: &mut Vec<Recorded<'_>>) -> bool {
    part.retain(|call| call.tag.is_some() && (call.response.is_some() || matches!(call.action, Action::Write(_))));
    part.sort_by_key(|call| (call.tag, matches!(call.action, Action::Read), call.invoked, call.op));
    let mut current: Option<&String> = None;
    let mut latest = 0;
    for call in part.iter() {
        let answer = match call.action {
            Action::Write(value) => {
                current = Some(value);
                None
            }
            Action::Read => Some(current.cloned()),
        };
        if let Some((place, returned)) = call.response {
            if place < latest || *returned != answer {
                return false;
            }
        }
        latest = latest.max(call.invoked);
    }
    true
}

/// Writes the rows as a history file has them.
fn write_rows(out: &mut impl Write, rows: &[Row]) -> std::io::Result<()> {
    writeln!(out, "{{\"abd\":\"history\",\"version\":1}}")?;
    for row in rows {
        match row {
            Row::Invoke { op, client, key, action: Action::Read } => {
                writeln!(out, "{{\"call\":{op},\"client\":{client},\"do\":\"read\",\"key\":\"{key}\",\"row\":\"invoke\"}}")?
            }
            Row::Invoke { op, client, key, action: Action::Write(value) } => writeln!(
                out,
                "{{\"call\":{op},\"client\":{client},\"do\":\"write\",\"key\":\"{key}\",\"row\":\"invoke\",\"value\":\"{value}\"}}"
            )?,
            Row::Note { op, tag } => {
                writeln!(out, "{{\"call\":{op},\"number\":{},\"row\":\"note\",\"writer\":{}}}", tag.0, tag.1)?
            }
            Row::Respond { op, returned: None } => writeln!(out, "{{\"call\":{op},\"row\":\"respond\"}}")?,
            Row::Respond { op, returned: Some(None) } => writeln!(out, "{{\"call\":{op},\"row\":\"respond\",\"value\":null}}")?,
            Row::Respond { op, returned: Some(Some(value)) } => {
                writeln!(out, "{{\"call\":{op},\"row\":\"respond\",\"value\":\"{value}\"}}")?
            }
        }
    }
    Ok(())
}

/// Checks the record of each hall and writes it; whether all keys are atomic.
fn justify(halls: &[Mutex<Hall>]) -> std::io::Result<bool> {
    let mut out = std::io::BufWriter::with_capacity(1 << 20, std::io::stdout().lock());
    let mut all = true;
    for hall in halls {
        let hall = hall.lock().unwrap();
        all &= parts(&hall.rows).values_mut().all(is_atomic);
        write_rows(&mut out, &hall.rows)?;
    }
    out.flush()?;
    Ok(all)
}

fn main() {
    let mut words: Vec<String> = std::env::args().skip(1).collect();
    let whole = words.first().is_some_and(|word| word == "--whole");
    if whole {
        words.remove(0);
    }
    let numbers: Vec<u32> = words.iter().map(|word| word.parse().expect("a number")).collect();
    let [callers, calls, count] = numbers[..] else { panic!("plain_store [--whole] CALLERS CALLS HALLS") };
    let fresh = || Mutex::new(Hall { replicas: (0..REPLICAS).map(|_| BTreeMap::new()).collect(), ..Hall::default() });
    let halls: Vec<Mutex<Hall>> = (0..count).map(|_| fresh()).collect();
    let start = Instant::now();
    let answered: u64 = thread::scope(|scope| {
        let mut ways = Vec::new();
        for _ in 0..REPLICAS {
            let (way, parcels) = unbounded();
            ways.push(way);
            let halls = &halls;
            scope.spawn(move || serve(halls, parcels));
        }
        let threads: Vec<_> = (1..=callers)
            .map(|client| {
                let (halls, ways) = (&halls, ways.clone());
                scope.spawn(move || caller(halls, &ways, client, calls))
            })
            .collect();
        drop(ways);
        threads.into_iter().map(|thread| thread.join().unwrap()).sum()
    });
    let atomic = !whole || justify(&halls).expect("standard output");
    let time = start.elapsed();
    let rows: usize = halls.iter().map(|hall| hall.lock().unwrap().rows.len()).sum();
    eprintln!("{answered} calls answered, {rows} rows, {:.0} calls a second", answered as f64 / time.as_secs_f64());
    if !atomic {
        std::process::exit(1);
    }
}
