//! The keys of a history, numbered as they are first seen: a table of open slots by hash, and their
//! names one after the other.
use super::cursor::{word_of, Piece};

/// A key that is looked up: its bytes, and the first eight of them as a number, zeros after its
/// end.
#[derive(Clone, Copy)]
pub struct Name<'a> {
    pub bytes: &'a [u8],
    word: u64,
}

impl<'a> Name<'a> {
    /// The key that these bytes are.
    pub fn new(bytes: &'a [u8]) -> Self {
        Name {
            bytes,
            word: word_of(bytes),
        }
    }

    /// The hash, whose high bits are the good ones.
    fn hash(&self) -> u64 {
        let mix = |hash: u64, word: u64| {
            (hash.rotate_left(29) ^ word).wrapping_mul(0x9e37_79b9_7f4a_7c15)
        };
        let first = mix(self.bytes.len() as u64, self.word);
        match self.bytes.get(8..) {
            Some(rest) => rest
                .chunks(8)
                .fold(first, |hash, bytes| mix(hash, word_of(bytes))),
            None => first,
        }
    }
}

impl<'a> From<Piece<'a>> for Name<'a> {
    fn from(piece: Piece<'a>) -> Self {
        Name {
            bytes: piece.bytes,
            word: piece.word,
        }
    }
}

/// A key's number, with what tells most keys apart. A slot without a key has length 0.
#[derive(Clone, Copy, Default)]
struct Slot {
    word: u64,
    length: u32,
    number: u32,
}

/// The keys that were seen. Each is of a hall.
pub struct Keys {
    slots: Vec<Slot>,
    bits: u32,
    halls: u32,
    names: Vec<u8>,
    ends: Vec<u32>,
    hall_of: Vec<u8>,
}

impl Keys {
    /// No key yet, of so many halls.
    pub fn new(halls: u32) -> Self {
        let bits = 10;
        Keys {
            slots: vec![Slot::default(); 1 << bits],
            bits,
            halls,
            names: Vec::new(),
            ends: Vec::new(),
            hall_of: Vec::new(),
        }
    }

    /// How many keys there are.
    pub fn count(&self) -> usize {
        self.ends.len()
    }

    /// The name of the key of that number.
    pub fn name(&self, number: u32) -> &[u8] {
        let number = number as usize;
        let start = if number == 0 {
            0
        } else {
            self.ends[number - 1]
        };
        &self.names[start as usize..self.ends[number] as usize]
    }

    /// The hall of the key of that number.
    pub fn hall(&self, number: u32) -> u32 {
        u32::from(self.hall_of[number as usize])
    }

    /// The slot that has the key, or the one that it would get.
    #[inline(always)]
    fn slot(&self, name: Name) -> usize {
        let mut at = (name.hash() >> (64 - self.bits)) as usize;
        loop {
            let slot = self.slots[at];
            let same = slot.word == name.word && slot.length as usize == name.bytes.len();
            if slot.length == 0
                || (same && (slot.length <= 8 || self.name(slot.number) == name.bytes))
            {
                return at;
            }
            at = (at + 1) & (self.slots.len() - 1);
        }
    }

    /// The key's number, where the key was seen.
    pub fn find(&self, name: Name) -> Option<u32> {
        let slot = self.slots[self.slot(name)];
        (slot.length != 0).then_some(slot.number)
    }

    /// The key's number; a key that wasn't seen gets the next.
    #[inline(always)]
    pub fn number(&mut self, name: Name) -> u32 {
        let at = self.slot(name);
        let slot = self.slots[at];
        if slot.length != 0 {
            slot.number
        } else {
            self.add(name, at)
        }
    }

    /// Puts a new key in a slot.
    #[inline(never)]
    fn add(&mut self, name: Name, at: usize) -> u32 {
        assert!(is_key(name.bytes), "a key outside its range");
        let number = self.ends.len() as u32;
        self.slots[at] = Slot {
            word: name.word,
            length: name.bytes.len() as u32,
            number,
        };
        self.names.extend_from_slice(name.bytes);
        self.ends.push(self.names.len() as u32);
        let sum: u32 = name.bytes.iter().map(|byte| u32::from(*byte)).sum();
        self.hall_of.push((sum % self.halls) as u8);
        if 2 * self.ends.len() > self.slots.len() {
            self.grow();
        }
        number
    }

    /// Doubles the slots.
    fn grow(&mut self) {
        self.bits += 1;
        let old = std::mem::replace(&mut self.slots, vec![Slot::default(); 1 << self.bits]);
        for slot in old.into_iter().filter(|slot| slot.length != 0) {
            let at = self.slot(Name::new(self.name(slot.number)));
            self.slots[at] = slot;
        }
    }
}

/// Whether these bytes may be a key.
pub fn is_key(bytes: &[u8]) -> bool {
    let allowed = |byte: &u8| byte.is_ascii_alphanumeric() || b"._-".contains(byte);
    (1..=64).contains(&bytes.len()) && bytes.iter().all(allowed)
}
