//! The lines of an order file, and the check of each key by its order.
use super::cursor::Cursor;
use super::json::{member, number_in, object_of, text_in, LONGEST_LINE};
use super::keys::{is_key, Keys, Name};
use super::recorder::{Recorder, Rooms, Text, MOST_CALLS};
use std::sync::atomic::{AtomicBool, Ordering::Relaxed};

/// How many calls of an order are under way from memory.
const AHEAD: usize = 16;

/// A line of a key of the history: where its calls stand among those of all lines.
struct Line {
    key: u32,
    start: usize,
    end: usize,
}

/// The orders of a part of the file, without those of keys that the history hasn't.
#[derive(Default)]
pub struct Orders {
    lines: Vec<Line>,
    calls: Vec<u32>,
    /// How many calls were listed in all lines.
    pub listed: usize,
}

/// Where the header of an order file ends.
pub fn header_end(bytes: &[u8]) -> usize {
    let mut cursor = Cursor::new(bytes, (0, bytes.len()));
    let header = object_of(cursor.line());
    assert!(text_in(&header, "abd") == "orders", "no header");
    assert!(member(&header, "version").as_u64() == Some(1), "a version");
    cursor.place()
}

impl Orders {
    /// The orders of the lines that are left.
    pub fn read(mut cursor: Cursor, keys: &Keys) -> Self {
        let mut orders = Orders {
            calls: Vec::with_capacity(cursor.rest.len() / 4),
            ..Orders::default()
        };
        while !cursor.rest.is_empty() {
            let (mut next, start) = (cursor, orders.calls.len());
            let key = orders.line(&mut next, keys).unwrap_or_else(|| {
                orders.calls.truncate(start);
                next = cursor;
                orders.json_line(next.line(), keys)
            });
            orders.end_line(key, start);
            cursor = next;
        }
        orders
    }

    /// Takes the calls of a line as `abd` writes it; its key's number is what is left, if the
    /// history has the key.
    #[inline(always)]
    fn line(&mut self, cursor: &mut Cursor, keys: &Keys) -> Option<Option<u32>> {
        let start = cursor.place();
        cursor.skip(b"{\"key\":\"")?;
        let key = cursor.text()?;
        cursor.skip(b",\"order\":[")?;
        if !cursor.has(b"]") {
            loop {
                self.calls.push(cursor.number()?);
                if !cursor.has(b",") {
                    break;
                }
            }
            cursor.skip(b"]")?;
        }
        cursor.skip(b"}\n")?;
        let is_lawful = cursor.place() - start <= LONGEST_LINE + 1 && is_key(key.bytes);
        is_lawful.then(|| keys.find(key.into()))
    }

    /// The same of any line.
    #[inline(never)]
    fn json_line(&mut self, line: &[u8], keys: &Keys) -> Option<u32> {
        let line = object_of(line);
        let key = text_in(&line, "key").as_bytes();
        assert!(is_key(key), "a key outside its range");
        let calls = member(&line, "order").as_array().expect("an order");
        self.calls
            .extend(calls.iter().map(|call| number_in(call, 0, u32::MAX)));
        keys.find(Name::new(key))
    }

    /// Keeps the calls from `start` on as a line of the key; of a key that the history hasn't they
    /// are only counted.
    fn end_line(&mut self, key: Option<u32>, start: usize) {
        let end = self.calls.len();
        self.listed += end - start;
        assert!(self.listed <= MOST_CALLS, "too many calls");
        match key {
            Some(key) => self.lines.push(Line { key, start, end }),
            None => self.calls.truncate(start),
        }
    }
}

/// How far the order of a key was gone over.
#[derive(Clone)]
struct Register {
    /// What the last write wrote.
    value: Text,
    /// The latest line where a call of the order began.
    latest: u32,
    /// How many completed calls stood in it.
    answered: u32,
    is_lawful: bool,
}

impl Register {
    /// Nothing was gone over.
    const NEW: Register = Register {
        value: Text::NOTHING,
        latest: 0,
        answered: 0,
        is_lawful: true,
    };
}

/// What the orders are checked against. `marks` has a mark for each call, none set at first.
#[derive(Clone, Copy)]
pub struct Checker<'a> {
    pub recorder: &'a Recorder,
    pub keys: &'a Keys,
    pub rooms: &'a Rooms<'a>,
    pub marks: &'a [AtomicBool],
}

impl Checker<'_> {
    /// Whether their order is one of each key whose number leaves `share` when it is divided by
    /// `of`, in order of their numbers.
    pub fn verdicts(self, orders: &[Orders], share: usize, of: usize) -> Vec<bool> {
        let keys = (share..self.keys.count()).step_by(of);
        let mut registers = vec![Register::NEW; keys.len()];
        for part in orders {
            for line in &part.lines {
                let key = line.key as usize;
                if key % of == share {
                    let calls = &part.calls[line.start..line.end];
                    self.take_all(&mut registers[key / of], line.key, calls);
                }
            }
        }
        let answered = keys.map(|key| self.recorder.answered[key]);
        let ends = registers.iter().zip(answered);
        ends.map(|(end, answered)| end.is_lawful && end.answered == answered)
            .collect()
    }

    /// Takes more calls of the key's order, up to the first that may not come next.
    fn take_all(self, register: &mut Register, key: u32, calls: &[u32]) {
        let hall = self.keys.hall(key);
        let mut ahead = calls.iter().skip(AHEAD);
        register.is_lawful = register.is_lawful
            && calls.iter().all(|call| {
                ahead.next().inspect(|call| self.fetch(hall, **call));
                self.takes(register, key, hall, *call)
            });
    }

    /// Has the processor bring the call from memory, before it is needed.
    #[inline(always)]
    fn fetch(self, hall: u32, call: u32) {
        #[cfg(target_arch = "x86_64")]
        if let Some(place) = self.recorder.place(hall, call) {
            use std::arch::x86_64::{_mm_prefetch, _MM_HINT_T0};
            let call = std::ptr::from_ref(&self.recorder.calls[place]);
            // SAFETY: it changes nothing that a program sees.
            unsafe { _mm_prefetch::<_MM_HINT_T0>(call.cast()) };
        }
    }

    /// Whether the call may come next in the key's order; it is taken then.
    #[inline(always)]
    fn takes(self, register: &mut Register, key: u32, hall: u32, call: u32) -> bool {
        let Some(place) = self.recorder.place(hall, call) else {
            return false;
        };
        let call = &self.recorder.calls[place];
        if call.key != key || self.marks[place].load(Relaxed) {
            return false;
        }
        self.marks[place].store(true, Relaxed);
        let is_answered = call.answered != 0;
        if call.is_write {
            register.value = call.text;
        } else if !is_answered || !call.text.is(register.value, self.rooms) {
            return false;
        }
        if is_answered && call.answered < register.latest {
            return false;
        }
        register.answered += u32::from(is_answered);
        register.latest = register.latest.max(call.began);
        true
    }
}
