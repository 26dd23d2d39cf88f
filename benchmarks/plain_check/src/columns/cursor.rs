//! The bytes of a file from the left on. What is read eight bytes at a time ends with `None` in the
//! last seven of the file, which are then read another way.

/// A byte in each of the eight.
const EACH: u64 = 0x0101_0101_0101_0101;
/// The high bit of each byte.
const HIGH: u64 = 0x80 * EACH;

/// What is left of a file, or of a part of it.
#[derive(Clone, Copy)]
pub struct Cursor<'a> {
    pub rest: &'a [u8],
    /// Where in the file the rest ends.
    end: usize,
}

/// A text between quotation marks, without an escape: where it stands, and its first eight bytes,
/// zeros after its end.
#[derive(Clone, Copy)]
pub struct Piece<'a> {
    pub place: usize,
    pub bytes: &'a [u8],
    pub word: u64,
}

impl<'a> Cursor<'a> {
    /// At `start` of the file, to read up to `end`.
    pub fn new(file: &'a [u8], (start, end): (usize, usize)) -> Self {
        Cursor {
            rest: &file[start..end],
            end,
        }
    }

    /// Where in the file the rest begins.
    pub fn place(self) -> usize {
        self.end - self.rest.len()
    }

    /// The next eight bytes, the first of them lowest.
    #[inline(always)]
    fn word(self) -> Option<u64> {
        self.rest
            .first_chunk()
            .map(|bytes| u64::from_le_bytes(*bytes))
    }

    /// Whether these bytes come next; if so they are passed over.
    #[inline(always)]
    pub fn has<const N: usize>(&mut self, wanted: &[u8; N]) -> bool {
        match self.rest.strip_prefix(wanted) {
            Some(rest) => {
                self.rest = rest;
                true
            }
            None => false,
        }
    }

    /// Passes over these bytes, which have to come next.
    #[inline(always)]
    pub fn skip<const N: usize>(&mut self, wanted: &[u8; N]) -> Option<()> {
        self.has(wanted).then_some(())
    }

    /// The number that comes next, of at most seven digits.
    #[inline(always)]
    pub fn number(&mut self) -> Option<u32> {
        let digits = self.word()? ^ (u64::from(b'0') * EACH);
        // The high bits of the bytes above 9; those after the first of them may be wrong.
        let others = (digits.wrapping_add(0x76 * EACH) | digits) & HIGH;
        let count = others.trailing_zeros() / 8;
        if count == 0 || count == 8 || (count > 1 && digits & 0xff == 0) {
            return None;
        }
        self.rest = &self.rest[count as usize..];
        Some(value_of(digits << (64 - 8 * count)))
    }

    /// The text up to the next quotation mark, which is passed over.
    #[inline(always)]
    pub fn text(&mut self) -> Option<Piece<'a>> {
        let word = self.word()?;
        let shift = specials(word).trailing_zeros() & !7;
        let piece = if shift < 64 && (word >> shift) as u8 == b'"' {
            let bytes = &self.rest[..(shift / 8) as usize];
            Piece {
                place: self.place(),
                bytes,
                word: word & ((1 << shift) - 1),
            }
        } else {
            self.long_text()?
        };
        self.rest = &self.rest[piece.bytes.len() + 1..];
        Some(piece)
    }

    /// A text of eight bytes or more, or of other characters than ASCII's.
    #[inline(never)]
    fn long_text(self) -> Option<Piece<'a>> {
        let length = memchr::memchr(b'"', &self.rest[..self.rest.len().min(300)])?;
        let bytes = &self.rest[..length];
        let is_plain = bytes.iter().all(|byte| *byte >= 32 && *byte != b'\\')
            && std::str::from_utf8(bytes).is_ok();
        is_plain.then(|| Piece {
            place: self.place(),
            bytes,
            word: word_of(bytes),
        })
    }

    /// The line that begins here, without its end, which is passed over.
    pub fn line(&mut self) -> &'a [u8] {
        let length = memchr::memchr(b'\n', self.rest).unwrap_or(self.rest.len());
        let line = &self.rest[..length];
        self.rest = self.rest.get(length + 1..).unwrap_or_default();
        line
    }
}

/// The first eight bytes as a number, zeros after the end.
pub fn word_of(bytes: &[u8]) -> u64 {
    let mut word = [0; 8];
    let count = bytes.len().min(8);
    word[..count].copy_from_slice(&bytes[..count]);
    u64::from_le_bytes(word)
}

/// The high bit of the first byte that is a quotation mark, a backslash, a control character or
/// none of ASCII; bits after it may be set.
#[inline(always)]
fn specials(word: u64) -> u64 {
    let zero = |bytes: u64| bytes.wrapping_sub(EACH) & !bytes;
    let control = word.wrapping_sub(0x20 * EACH) & !word;
    (zero(word ^ (u64::from(b'"') * EACH))
        | zero(word ^ (u64::from(b'\\') * EACH))
        | control
        | word)
        & HIGH
}

/// The number that eight digits make, the first of them in the lowest byte: of two digits each,
/// then of four, then of all.
#[inline(always)]
fn value_of(digits: u64) -> u32 {
    let twos = digits.wrapping_mul(10).wrapping_add(digits >> 8);
    let mask = 0x0000_00ff_0000_00ff;
    let odd = (twos & mask).wrapping_mul(100 + (1_000_000 << 32));
    let even = ((twos >> 16) & mask).wrapping_mul(1 + (10_000 << 32));
    (odd.wrapping_add(even) >> 32) as u32
}

#[cfg(test)]
mod tests {
    use super::*;

    fn cursor(bytes: &[u8]) -> Cursor<'_> {
        Cursor::new(bytes, (0, bytes.len()))
    }

    /// The number at the beginning, and what is left.
    fn number(bytes: &[u8]) -> Option<(u32, &[u8])> {
        let mut cursor = cursor(bytes);
        cursor.number().map(|number| (number, cursor.rest))
    }

    #[test]
    fn numbers() {
        for value in (0..10_000_000)
            .step_by(37)
            .chain([9, 10, 99, 100, 9_999_999])
        {
            let text = format!("{value},\"row\":");
            assert_eq!(number(text.as_bytes()), Some((value, &b",\"row\":"[..])));
        }
        assert_eq!(number(b"7}\xff:9/ab"), Some((7, &b"}\xff:9/ab"[..])));
        for text in [
            &b"12345678,"[..],
            b"01,.....",
            b",1......",
            b"12345}\n",
            b"/1......",
            b":1......",
        ] {
            assert_eq!(number(text), None, "{text:?}");
        }
    }

    #[test]
    fn texts() {
        for text in [
            "",
            "a",
            "1234567",
            "12345678",
            "123456789",
            "\u{7f} !#[]",
            "é",
            "1234567é",
            "{}:,1234567890",
        ] {
            let line = format!("{text}\"}}\n......");
            let mut cursor = cursor(line.as_bytes());
            let piece = cursor.text().expect("a text");
            assert_eq!(
                (piece.bytes, piece.place, cursor.rest),
                (text.as_bytes(), 0, &b"}\n......"[..])
            );
            assert_eq!(piece.word, word_of(text.as_bytes()));
        }
        for text in [
            &b"a\\n\"}......"[..],
            b"a\n\"}......",
            b"12345678\x1f\"}",
            b"1234567890",
            b"\xff\"}......",
            b"a\xc3\"}......",
        ] {
            assert!(cursor(text).text().is_none(), "{text:?}");
        }
    }

    #[test]
    fn lines() {
        let mut cursor = Cursor::new(b"ab\n\nc", (1, 5));
        let found = [cursor.line(), cursor.line(), cursor.line()];
        assert_eq!(
            (found, cursor.rest, cursor.place()),
            ([&b"b"[..], b"", b"c"], &b""[..], 5)
        );
    }
}
