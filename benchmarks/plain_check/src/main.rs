//! What `abd check` (two files) and `abd justify` (one) do, in plain sequential Rust with serde_json: the yardstick of the
//! benchmark. It reads lawful files only, and stops at the first line that is none. With `--fast` before the files, histories are read
//! whole and their lines taken apart by hand, as far as `abd` itself writes them, and no text is copied (`fast.rs`). With `--columns`,
//! and `--threads N` after it, a history is checked as fast as we can (`columns.rs`).
mod columns;
mod fast;

use serde_json::Value;
use std::collections::{HashMap, HashSet};
use std::fs::File;
use std::hash::Hash;
use std::io::{BufRead, BufReader, BufWriter, Write};
use std::time::Instant;

enum Row<T> {
    Invoke { op: u32, client: u32, key: T, write: Option<T> },
    Note { op: u32, number: u32, writer: u32 },
    Respond { op: u32, answer: Option<Option<T>> },
}

struct Call<T> {
    op: u32,
    write: Option<T>,
    note: Option<(u32, u32)>,
    invoked: usize,
    response: Option<(usize, Option<Option<T>>)>,
}

/// The calls that are pending, and who made each call.
#[derive(Default)]
struct Pending {
    busy: HashSet<u32>,
    callers: Vec<u32>,
}

impl Pending {
    /// The row comes next; it has to be one that may.
    fn take<T>(&mut self, row: &Row<T>) {
        match row {
            Row::Invoke { op, client, .. } => {
                assert!(*op as usize == self.callers.len() && self.busy.insert(*client));
                self.callers.push(*client);
            }
            Row::Note { .. } => {}
            Row::Respond { op, .. } => assert!(self.busy.remove(&self.callers[*op as usize])),
        }
    }
}

fn number(value: &Value, name: &str) -> u32 {
    value.get(name).and_then(Value::as_u64).expect("a number") as u32
}

fn text(value: &Value, name: &str) -> String {
    value.get(name).and_then(Value::as_str).expect("a text").to_owned()
}

fn row_of(value: &Value) -> Row<String> {
    let op = number(value, "call");
    match value.get("row").and_then(Value::as_str).expect("a row") {
        "invoke" => Row::Invoke {
            op,
            client: number(value, "client"),
            key: text(value, "key"),
            write: (value.get("do").and_then(Value::as_str) == Some("write")).then(|| text(value, "value")),
        },
        "note" => Row::Note { op, number: number(value, "number"), writer: number(value, "writer") },
        _ => Row::Respond { op, answer: value.get("value").map(|v| v.as_str().map(str::to_owned)) },
    }
}

fn read_history(path: &str) -> Vec<Row<String>> {
    let mut reader = BufReader::with_capacity(1 << 20, File::open(path).expect("a history"));
    let (mut line, mut rows, mut pending) = (String::new(), Vec::new(), Pending::default());
    reader.read_line(&mut line).expect("a header");
    loop {
        line.clear();
        if reader.read_line(&mut line).expect("a line") == 0 {
            return rows;
        }
        let row = row_of(&serde_json::from_str(&line).expect("JSON"));
        pending.take(&row);
        rows.push(row);
    }
}

fn read_orders(path: &str) -> HashMap<String, Vec<u32>> {
    let mut orders: HashMap<String, Vec<u32>> = HashMap::new();
    for line in BufReader::new(File::open(path).expect("orders")).lines().skip(1) {
        let value: Value = serde_json::from_str(&line.expect("a line")).expect("JSON");
        let calls = value["order"].as_array().expect("an order");
        let order = orders.entry(text(&value, "key")).or_default();
        order.extend(calls.iter().map(|c| c.as_u64().expect("a call") as u32));
    }
    orders
}

fn parts_of<T: Clone + Eq + Hash>(rows: Vec<Row<T>>) -> Vec<(T, Vec<Call<T>>)> {
    let (mut slots, mut places) = (HashMap::new(), Vec::new());
    let mut parts: Vec<(T, Vec<Call<T>>)> = Vec::new();
    for (place, row) in rows.into_iter().enumerate() {
        match row {
            Row::Invoke { op, key, write, .. } => {
                let slot = *slots.entry(key.clone()).or_insert_with(|| {
                    parts.push((key, Vec::new()));
                    parts.len() - 1
                });
                places.push((slot, parts[slot].1.len()));
                parts[slot].1.push(Call { op, write, note: None, invoked: place, response: None });
            }
            Row::Note { op, number, writer } => {
                let (slot, index) = places[op as usize];
                parts[slot].1[index].note = Some((number, writer));
            }
            Row::Respond { op, answer } => {
                let (slot, index) = places[op as usize];
                parts[slot].1[index].response = Some((place, answer));
            }
        }
    }
    parts
}

fn is_order<T: PartialEq>(part: &[Call<T>], order: &[u32]) -> bool {
    let mut marks = vec![false; part.len()];
    let (mut current, mut latest) = (None, 0);
    for op in order {
        let Ok(index) = part.binary_search_by_key(op, |call| call.op) else { return false };
        let call = &part[index];
        if marks[index] {
            return false;
        }
        marks[index] = true;
        match (&call.write, &call.response) {
            (Some(value), _) => current = Some(value),
            (None, None) => return false,
            (None, Some((_, answer))) => {
                if answer.as_ref().map(Option::as_ref) != Some(current) {
                    return false;
                }
            }
        }
        if call.response.as_ref().is_some_and(|(place, _)| *place < latest) {
            return false;
        }
        latest = latest.max(call.invoked);
    }
    part.iter().zip(&marks).all(|(call, mark)| *mark || call.response.is_none())
}

/// The settled calls by tag, a write before a read of the same tag, then by place of invocation.
fn order_of<T>(part: &[Call<T>]) -> Vec<u32> {
    let settled = part.iter().filter(|call| call.response.is_some() || (call.write.is_some() && call.note.is_some()));
    let mut keys: Vec<_> = settled.map(|call| (call.note.expect("a note"), call.write.is_none(), call.invoked, call.op)).collect();
    keys.sort_unstable();
    keys.into_iter().map(|key| key.3).collect()
}

fn justify<T: AsRef<str> + PartialEq>(parts: &[(T, Vec<Call<T>>)]) {
    let mut out = BufWriter::with_capacity(1 << 16, std::io::stdout().lock());
    let orders: Vec<_> = parts.iter().map(|(_, part)| order_of(part)).collect();
    assert!(parts.iter().zip(&orders).all(|((_, part), order)| is_order(part, order)));
    out.write_all(b"{\"abd\":\"orders\",\"version\":1}\n").expect("written");
    for ((key, _), order) in parts.iter().zip(&orders) {
        for piece in order.chunks(1000) {
            let calls: Vec<String> = piece.iter().map(u32::to_string).collect();
            writeln!(out, "{{\"key\":\"{}\",\"order\":[{}]}}", key.as_ref(), calls.join(",")).expect("written");
        }
    }
}

/// Checks what was read, or justifies it where there are no orders.
fn answer<T: AsRef<str> + Clone + Eq + Hash>(rows: Vec<Row<T>>, orders: Option<&str>, start: Instant) {
    let read = start.elapsed();
    let Some(orders) = orders else {
        justify(&parts_of(rows));
        eprintln!("history read in {read:?}, all in {:?}", start.elapsed());
        return;
    };
    let orders = read_orders(orders);
    let parts = parts_of(rows);
    let empty = Vec::new();
    let mut yes = 0;
    for (key, part) in &parts {
        let is_yes = is_order(part, orders.get(key.as_ref()).unwrap_or(&empty));
        yes += is_yes as u32;
        println!("{}: {}", key.as_ref(), if is_yes { "yes" } else { "no" });
    }
    let notes = parts.iter().flat_map(|part| &part.1).filter(|call| call.note.is_some()).count();
    eprintln!("{yes} of {} keys yes, {notes} notes; history read in {read:?}, all in {:?}", parts.len(), start.elapsed());
}

/// Takes `[--threads N] HISTORY ORDERS`, with 1 to 64 threads, and 1 if there is no number.
fn check_columns(words: &[String]) {
    let (threads, files) = match words {
        [name, count, files @ ..] if name == "--threads" => (count.parse().expect("a number of threads"), files),
        files => (1, files),
    };
    assert!((1..=64).contains(&threads), "1 to 64 threads");
    let [history, orders] = files else { panic!("a history and its orders") };
    columns::check(history, orders, threads);
}

fn main() {
    let mut files: Vec<String> = std::env::args().skip(1).collect();
    let start = Instant::now();
    if files[0] == "--columns" {
        check_columns(&files[1..]);
    } else if files[0] == "--fast" {
        files.remove(0);
        let bytes = std::fs::read(&files[0]).expect("a history");
        answer(fast::rows_in(&bytes), files.get(1).map(String::as_str), start);
    } else {
        answer(read_history(&files[0]), files.get(1).map(String::as_str), start);
    }
}
