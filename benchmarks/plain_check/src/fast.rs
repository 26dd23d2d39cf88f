//! Lines of a history as `abd` writes them, taken apart by hand: members in byte order, no space, plain numbers, no escapes.
use crate::{Pending, Row};

/// What is left of a line.
struct Rest<'a>(&'a [u8]);

impl<'a> Rest<'a> {
    /// These bytes come next.
    fn skip(&mut self, bytes: &[u8]) {
        self.0 = self.0.strip_prefix(bytes).expect("a line as abd writes it");
    }

    /// Whether these bytes come next; if so they are passed over.
    fn has(&mut self, bytes: &[u8]) -> bool {
        match self.0.strip_prefix(bytes) {
            Some(rest) => {
                self.0 = rest;
                true
            }
            None => false,
        }
    }

    /// The number that comes next.
    fn number(&mut self) -> u32 {
        let count = self.0.iter().take_while(|byte| byte.is_ascii_digit()).count();
        let (digits, rest) = self.0.split_at(count);
        assert!((1..=10).contains(&count) && (digits[0] != b'0' || count == 1));
        self.0 = rest;
        digits.iter().fold(0, |number, digit| number * 10 + u32::from(digit - b'0'))
    }

    /// The text up to the next quotation mark.
    fn text(&mut self) -> &'a str {
        let count = self.0.iter().position(|byte| *byte == b'"').expect("the end of a text");
        let (text, rest) = self.0.split_at(count);
        assert!(text.iter().all(|byte| *byte >= 32 && *byte != b'\\'));
        self.0 = &rest[1..];
        std::str::from_utf8(text).expect("UTF-8")
    }

    /// An invocation, behind its call's number.
    fn invocation(&mut self, op: u32) -> Row<&'a str> {
        let client = self.number();
        self.skip(b",\"do\":\"");
        let is_write = self.has(b"write");
        if !is_write {
            self.skip(b"read");
        }
        self.skip(b"\",\"key\":\"");
        let key = self.text();
        self.skip(b",\"row\":\"invoke\"");
        let write = is_write.then(|| {
            self.skip(b",\"value\":\"");
            self.text()
        });
        Row::Invoke { op, client, key, write }
    }

    /// A note, behind its call's number.
    fn note(&mut self, op: u32) -> Row<&'a str> {
        let number = self.number();
        self.skip(b",\"row\":\"note\",\"writer\":");
        Row::Note { op, number, writer: self.number() }
    }

    /// A response, behind its call's number.
    fn response(&mut self, op: u32) -> Row<&'a str> {
        self.skip(b"\"respond\"");
        let answer = self.has(b",\"value\":").then(|| if self.has(b"null") {
            None
        } else {
            self.skip(b"\"");
            Some(self.text())
        });
        Row::Respond { op, answer }
    }

    /// The row that the line is.
    fn row(mut self) -> Row<&'a str> {
        self.skip(b"{\"call\":");
        let op = self.number();
        let row = if self.has(b",\"client\":") {
            self.invocation(op)
        } else if self.has(b",\"number\":") {
            self.note(op)
        } else {
            self.skip(b",\"row\":");
            self.response(op)
        };
        assert!(self.0 == b"}");
        row
    }
}

/// The rows of the history that the bytes are.
pub fn rows_in(bytes: &[u8]) -> Vec<Row<&str>> {
    let (mut rows, mut pending) = (Vec::new(), Pending::default());
    let mut rest = bytes.strip_prefix(b"{\"abd\":\"history\",\"version\":1}\n").expect("a header");
    while let Some(end) = memchr(rest) {
        let row = Rest(&rest[..end]).row();
        pending.take(&row);
        rows.push(row);
        rest = &rest[end + 1..];
    }
    assert!(rest.is_empty());
    rows
}

/// Where the first line ends.
fn memchr(bytes: &[u8]) -> Option<usize> {
    bytes.iter().position(|byte| *byte == b'\n')
}
