//! The lines of a history file. A line as `abd` writes it is taken apart where it stands; any other
//! is read as JSON. A line that is no row, or has a number, a key or a value outside its range,
//! ends the program.
use super::cursor::{word_of, Cursor, Piece};
use super::json::{member, member_in, number_in, object_of, text_in};
use super::keys::{Keys, Name};
use super::recorder::{Rows, Text};
use serde_json::{Map, Value};

/// How many halls there are, and whether each row names its own (version 2).
#[derive(Clone, Copy)]
pub struct Halls {
    pub count: u32,
    are_named: bool,
}

/// The header of the history, and where its line ends.
pub fn header_of(bytes: &[u8]) -> (Halls, usize) {
    let mut cursor = Cursor::new(bytes, (0, bytes.len()));
    let header = object_of(cursor.line());
    assert!(text_in(&header, "abd") == "history", "no header");
    let version = member(&header, "version").as_u64();
    assert!(matches!(version, Some(1 | 2)), "a version");
    let halls = if version == Some(1) {
        Halls {
            count: 1,
            are_named: false,
        }
    } else {
        several(&header)
    };
    (halls, cursor.place())
}

/// What a header of version 2 says, whose quorums have to meet.
fn several(header: &Map<String, Value>) -> Halls {
    let votes = member(header, "votes").as_array().expect("votes");
    assert!((1..=15).contains(&votes.len()), "1 to 15 votes");
    let all: u32 = votes.iter().map(|vote| number_in(vote, 1, 9)).sum();
    let quorum = |name| member_in(header, name, 1, all);
    assert!(quorum("ask") + quorum("put") > all, "quorums that meet");
    Halls {
        count: member_in(header, "halls", 1, 64),
        are_named: true,
    }
}

/// Goes over the lines of a history, or of some parts of it.
pub struct Scan {
    halls: Halls,
    room: u64,
    pub keys: Keys,
    /// The texts that had to be decoded: what stands in the room of this scan. The file is room 0.
    pub decoded: Vec<u8>,
}

impl Scan {
    /// A scan with its own room.
    pub fn new(halls: Halls, room: u64) -> Self {
        Scan {
            halls,
            room,
            keys: Keys::new(halls.count),
            decoded: Vec::new(),
        }
    }

    /// Gives the rows of the lines that are left, in order. The cursor is the scan's own, so that
    /// it is kept in registers.
    pub fn give(&mut self, mut cursor: Cursor, rows: &mut impl Rows) {
        while !cursor.rest.is_empty() {
            let mut next = cursor;
            if self.row(&mut next, rows).is_none() {
                next = cursor;
                self.json_row(next.line(), rows);
            }
            cursor = next;
        }
    }

    /// Gives the row of a line as `abd` writes it. Where the line is another, nothing is given.
    #[inline(always)]
    fn row(&mut self, cursor: &mut Cursor, rows: &mut impl Rows) -> Option<()> {
        cursor.skip(b"{\"call\":")?;
        let call = cursor.number()?;
        if cursor.has(b",\"client\":") {
            return self.invocation(cursor, call, rows);
        }
        let hall = self.hall(cursor)?;
        if cursor.has(b",\"number\":") {
            let number = cursor.number()?;
            cursor.skip(b",\"row\":\"note\",\"writer\":")?;
            let writer = cursor.number()?;
            cursor.skip(b"}\n")?;
            (number <= 1_000_000 && writer <= 65_535).then(|| rows.note(hall, call))
        } else {
            cursor.skip(b",\"row\":\"respond\"")?;
            let value = answer(cursor)?;
            rows.respond(hall, call, value);
            Some(())
        }
    }

    /// Gives an invocation, from its client on.
    #[inline(always)]
    fn invocation(&mut self, cursor: &mut Cursor, call: u32, rows: &mut impl Rows) -> Option<()> {
        let client = cursor.number().and_then(client_of)?;
        cursor.skip(b",\"do\":\"")?;
        let is_write = cursor.has(b"write\"");
        if !is_write {
            cursor.skip(b"read\"")?;
        }
        let hall = self.hall(cursor)?;
        cursor.skip(b",\"key\":\"")?;
        let key = cursor.text()?;
        cursor.skip(b",\"row\":\"invoke\"")?;
        let mut write = None;
        if is_write {
            cursor.skip(b",\"value\":\"")?;
            write = Some(value_of(cursor.text()?)?);
        }
        cursor.skip(b"}\n")?;
        let key = self.key(hall, key.into());
        rows.invoke(hall, call, client, key, write);
        Some(())
    }

    /// The row's hall, which the rows of version 1 don't name.
    #[inline(always)]
    fn hall(&self, cursor: &mut Cursor) -> Option<u32> {
        if !self.halls.are_named {
            return Some(0);
        }
        cursor.skip(b",\"hall\":")?;
        cursor.number().filter(|hall| *hall < self.halls.count)
    }

    /// The number of a key, which has to be one of that hall.
    #[inline(always)]
    fn key(&mut self, hall: u32, name: Name) -> u32 {
        let key = self.keys.number(name);
        assert!(
            !self.halls.are_named || self.keys.hall(key) == hall,
            "a key in its hall"
        );
        key
    }

    /// Gives the row of any line.
    #[inline(never)]
    fn json_row(&mut self, line: &[u8], rows: &mut impl Rows) {
        let row = object_of(line);
        let hall = if self.halls.are_named {
            member_in(&row, "hall", 0, self.halls.count - 1)
        } else {
            0
        };
        let call = member_in(&row, "call", 0, u32::MAX);
        match text_in(&row, "row") {
            "invoke" => self.json_invocation(hall, call, &row, rows),
            "note" => {
                member_in(&row, "number", 0, 1_000_000);
                member_in(&row, "writer", 0, 65_535);
                rows.note(hall, call);
            }
            "respond" => {
                let value = row.get("value").map(|value| match value {
                    Value::Null => Text::NOTHING,
                    value => self.decoded_text(value.as_str().expect("a text or null")),
                });
                rows.respond(hall, call, value);
            }
            _ => panic!("a kind of row"),
        }
    }

    /// Gives an invocation that was read as JSON.
    fn json_invocation(
        &mut self,
        hall: u32,
        call: u32,
        row: &Map<String, Value>,
        rows: &mut impl Rows,
    ) {
        let client = client_of(member_in(row, "client", 1, 65_535)).expect("a client");
        let write = match text_in(row, "do") {
            "read" => None,
            "write" => Some(self.decoded_text(text_in(row, "value"))),
            _ => panic!("a read or a write"),
        };
        let key = self.key(hall, Name::new(text_in(row, "key").as_bytes()));
        rows.invoke(hall, call, client, key, write);
    }

    /// A value that was decoded; a long one is kept.
    fn decoded_text(&mut self, value: &str) -> Text {
        let length = value.len();
        assert!(length <= 256, "a value of at most 256 bytes");
        if length <= 8 {
            return Text::short(word_of(value.as_bytes()), length);
        }
        let place = self.decoded.len();
        self.decoded.extend_from_slice(value.as_bytes());
        Text::long(self.room, place, length)
    }
}

/// What a response answers, and the end of its line.
#[inline(always)]
fn answer(cursor: &mut Cursor) -> Option<Option<Text>> {
    if cursor.has(b"}\n") {
        return Some(None);
    }
    cursor.skip(b",\"value\":")?;
    let value = if cursor.has(b"null") {
        Text::NOTHING
    } else {
        cursor.skip(b"\"")?;
        value_of(cursor.text()?)?
    };
    cursor.skip(b"}\n")?;
    Some(Some(value))
}

/// The client of that number, if it is one.
#[inline(always)]
fn client_of(number: u32) -> Option<u16> {
    u16::try_from(number).ok().filter(|client| *client != 0)
}

/// The value that stands in the file, unless it is too long.
#[inline(always)]
fn value_of(piece: Piece) -> Option<Text> {
    let length = piece.bytes.len();
    match length {
        0..=8 => Some(Text::short(piece.word, length)),
        9..=256 => Some(Text::long(0, piece.place, length)),
        _ => None,
    }
}
