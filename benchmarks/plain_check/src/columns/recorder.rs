//! The calls of a history as a table of 32 bytes a call, and the recorder's rules for the row that
//! comes next.

/// How many calls a history may have.
pub const MOST_CALLS: usize = 1_000_000;

/// A value: its bytes if it has eight or fewer, else its place in one of the rooms.
#[derive(Clone, Copy)]
pub struct Text {
    word: u64,
    length: u32,
}

/// The file, and for each scan the texts that it had to decode.
pub struct Rooms<'a>(pub Vec<&'a [u8]>);

impl Text {
    /// What a register holds before the first write.
    pub const NOTHING: Text = Text {
        word: 0,
        length: u32::MAX,
    };

    /// A text of at most eight bytes, which are these, zeros after its end.
    #[inline(always)]
    pub fn short(word: u64, length: usize) -> Self {
        Text {
            word,
            length: length as u32,
        }
    }

    /// A longer text at this place of that room.
    #[inline(always)]
    pub fn long(room: u64, place: usize, length: usize) -> Self {
        Text {
            word: room << 48 | place as u64,
            length: length as u32,
        }
    }

    /// Whether both texts are the same.
    #[inline(always)]
    pub fn is(self, other: Text, rooms: &Rooms) -> bool {
        let bytes_are = || self.is_long() && self.bytes(rooms) == other.bytes(rooms);
        self.length == other.length && (self.word == other.word || bytes_are())
    }

    /// Whether the word is a place.
    fn is_long(self) -> bool {
        self.length > 8 && self.length != Text::NOTHING.length
    }

    /// The bytes of a text that is long.
    fn bytes<'a>(self, rooms: &Rooms<'a>) -> &'a [u8] {
        let place = (self.word & ((1 << 48) - 1)) as usize;
        &rooms.0[(self.word >> 48) as usize][place..place + self.length as usize]
    }
}

/// A call. Its text is what it wrote, or what it was answered. `began` and `answered` are lines of
/// the file, 0 if there is no answer.
pub struct Call {
    pub text: Text,
    pub key: u32,
    pub began: u32,
    pub answered: u32,
    client: u16,
    pub is_write: bool,
    has_note: bool,
}

/// What the rows of a history are given to, in order. A key is given by its number.
pub trait Rows {
    /// A call begins: a read, or a write of a text.
    fn invoke(&mut self, hall: u32, call: u32, client: u16, key: u32, write: Option<Text>);
    /// A call settled on a tag.
    fn note(&mut self, hall: u32, call: u32);
    /// A call is answered; a read's answer has a value.
    fn respond(&mut self, hall: u32, call: u32, value: Option<Text>);
}

/// A hall: which clients have a pending call, and, where there are several halls, the places of its
/// calls in the table.
struct Hall {
    busy: Vec<bool>,
    calls: Vec<u32>,
}

/// The calls so far.
pub struct Recorder {
    pub calls: Vec<Call>,
    halls: Vec<Hall>,
    line: u32,
    pub notes: usize,
    /// How many calls of each key are answered.
    pub answered: Vec<u32>,
}

impl Recorder {
    /// No call yet; there is room for so many without a growth.
    pub fn new(halls: u32, room: usize) -> Self {
        let hall = || Hall {
            busy: vec![false; 1 << 16],
            calls: Vec::new(),
        };
        let calls = Vec::with_capacity(room.min(MOST_CALLS));
        Recorder {
            calls,
            halls: (0..halls).map(|_| hall()).collect(),
            line: 1,
            notes: 0,
            answered: Vec::new(),
        }
    }

    /// Where a call of a hall stands in the table, if it is there.
    #[inline(always)]
    pub fn place(&self, hall: u32, call: u32) -> Option<usize> {
        if self.halls.len() == 1 {
            return ((call as usize) < self.calls.len()).then_some(call as usize);
        }
        self.halls[hall as usize]
            .calls
            .get(call as usize)
            .map(|place| *place as usize)
    }

    /// The call, which has to be pending.
    #[inline(always)]
    fn pending(&mut self, hall: u32, call: u32) -> &mut Call {
        let place = self.place(hall, call).expect("a call that has begun");
        let call = &mut self.calls[place];
        assert!(call.answered == 0, "a pending call");
        call
    }
}

impl Rows for Recorder {
    #[inline(always)]
    fn invoke(&mut self, hall: u32, call: u32, client: u16, key: u32, write: Option<Text>) {
        self.line += 1;
        let (place, one) = (self.calls.len(), self.halls.len() == 1);
        assert!(place < MOST_CALLS, "too many calls");
        let hall = &mut self.halls[hall as usize];
        assert!(
            call as usize == if one { place } else { hall.calls.len() },
            "a call out of turn"
        );
        assert!(
            !std::mem::replace(&mut hall.busy[usize::from(client)], true),
            "a busy client"
        );
        if !one {
            hall.calls.push(place as u32);
        }
        if key as usize == self.answered.len() {
            self.answered.push(0);
        }
        let (text, is_write) = (write.unwrap_or(Text::NOTHING), write.is_some());
        self.calls.push(Call {
            text,
            key,
            began: self.line,
            answered: 0,
            client,
            is_write,
            has_note: false,
        });
    }

    #[inline(always)]
    fn note(&mut self, hall: u32, call: u32) {
        self.line += 1;
        self.notes += 1;
        let call = self.pending(hall, call);
        assert!(
            !std::mem::replace(&mut call.has_note, true),
            "a second note"
        );
    }

    #[inline(always)]
    fn respond(&mut self, hall: u32, call: u32, value: Option<Text>) {
        self.line += 1;
        let line = self.line;
        let call = self.pending(hall, call);
        assert!(
            call.is_write == value.is_none(),
            "a response of the wrong kind"
        );
        call.answered = line;
        call.text = value.unwrap_or(call.text);
        let (client, key) = (call.client, call.key);
        self.answered[key as usize] += 1;
        self.halls[hall as usize].busy[usize::from(client)] = false;
    }
}
