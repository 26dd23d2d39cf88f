//! A history that other threads scan, part by part, while this one goes over the rows by the
//! recorder's rules.
use super::cursor::Cursor;
use super::history::{Halls, Scan};
use super::keys::{Keys, Name};
use super::parts::result_of;
use super::recorder::{Recorder, Rows, Text};
use std::sync::mpsc::{channel, Receiver, Sender};
use std::thread::{Scope, ScopedJoinHandle};

/// How many batches of a thread are under way.
const UNDER_WAY: usize = 4;

/// A row, with the number that its key has in the scan.
enum Row {
    Invoke {
        hall: u8,
        client: u16,
        call: u32,
        key: u32,
        write: Option<Text>,
    },
    Note {
        hall: u8,
        call: u32,
    },
    Respond {
        hall: u8,
        call: u32,
        value: Option<Text>,
    },
}

impl Rows for Vec<Row> {
    #[inline(always)]
    fn invoke(&mut self, hall: u32, call: u32, client: u16, key: u32, write: Option<Text>) {
        self.push(Row::Invoke {
            hall: hall as u8,
            client,
            call,
            key,
            write,
        });
    }

    #[inline(always)]
    fn note(&mut self, hall: u32, call: u32) {
        self.push(Row::Note {
            hall: hall as u8,
            call,
        });
    }

    #[inline(always)]
    fn respond(&mut self, hall: u32, call: u32, value: Option<Text>) {
        self.push(Row::Respond {
            hall: hall as u8,
            call,
            value,
        });
    }
}

/// The rows of a part, and the names of the keys that the scan hadn't seen before, one after the
/// other, with their ends.
#[derive(Default)]
struct Batch {
    rows: Vec<Row>,
    names: Vec<u8>,
    ends: Vec<usize>,
}

impl Batch {
    /// Takes the rows of a part.
    fn fill(&mut self, scan: &mut Scan, part: Cursor) {
        self.rows.clear();
        self.names.clear();
        self.ends.clear();
        let known = scan.keys.count();
        scan.give(part, &mut self.rows);
        for key in known..scan.keys.count() {
            self.names.extend_from_slice(scan.keys.name(key as u32));
            self.ends.push(self.names.len());
        }
    }
}

/// The batches of a thread that scans, which come full and go back, and the numbers that its keys
/// have in the whole history.
struct Source {
    full: Receiver<Batch>,
    used: Sender<Batch>,
    numbers: Vec<u32>,
}

impl Source {
    /// Gives the rows of the next batch to the recorder.
    fn give(&mut self, keys: &mut Keys, recorder: &mut Recorder) {
        let batch = self.full.recv().expect("a thread without a fault");
        let mut start = 0;
        for end in &batch.ends {
            self.numbers
                .push(keys.number(Name::new(&batch.names[start..*end])));
            start = *end;
        }
        for row in &batch.rows {
            match *row {
                Row::Invoke {
                    hall,
                    client,
                    call,
                    key,
                    write,
                } => recorder.invoke(hall.into(), call, client, self.numbers[key as usize], write),
                Row::Note { hall, call } => recorder.note(hall.into(), call),
                Row::Respond { hall, call, value } => recorder.respond(hall.into(), call, value),
            }
        }
        // A thread that has no part left doesn't take it.
        let _ = self.used.send(batch);
    }
}

/// Scans parts of the file while somebody takes their rows; gives the texts that it had to decode.
fn scan_parts<'a>(
    mut scan: Scan,
    parts: impl Iterator<Item = Cursor<'a>>,
    used: Receiver<Batch>,
    full: Sender<Batch>,
) -> Vec<u8> {
    for part in parts {
        let Ok(mut batch) = used.recv() else { break };
        batch.fill(&mut scan, part);
        if full.send(batch).is_err() {
            break;
        }
    }
    scan.decoded
}

/// Starts a thread that scans parts of the file.
fn start<'a, 'scope>(
    scope: &'scope Scope<'scope, '_>,
    scan: Scan,
    parts: impl Iterator<Item = Cursor<'a>> + Send + 'scope,
) -> (Source, ScopedJoinHandle<'scope, Vec<u8>>) {
    let ((used, again), (ready, full)) = (channel(), channel());
    for _ in 0..UNDER_WAY {
        used.send(Batch::default()).expect("a batch");
    }
    let numbers = Vec::new();
    let thread = scope.spawn(move || scan_parts(scan, parts, again, ready));
    (
        Source {
            full,
            used,
            numbers,
        },
        thread,
    )
}

/// Gives the rows of these parts of the file to the recorder, scanned by so many other threads:
/// they take the parts by turns. Gives the keys, and the texts that each thread had to decode.
pub fn record(
    parts: &[Cursor],
    halls: Halls,
    scanners: usize,
    recorder: &mut Recorder,
) -> (Keys, Vec<Vec<u8>>) {
    let mut keys = Keys::new(halls.count);
    let decoded = std::thread::scope(|scope| {
        let started = (0..scanners).map(|number| {
            let own = parts.iter().copied().skip(number).step_by(scanners);
            start(scope, Scan::new(halls, number as u64 + 1), own)
        });
        let (mut sources, threads): (Vec<Source>, Vec<_>) = started.unzip();
        for part in 0..parts.len() {
            sources[part % scanners].give(&mut keys, recorder);
        }
        threads.into_iter().map(result_of).collect()
    });
    (keys, decoded)
}
