//! The text of a history, row by row.

/// A number and a writer's name, ordered by number, then by name.
pub type Tag = (u32, u32);

pub struct Record {
    pub text: Vec<u8>,
    pub calls: u32,
}

impl Record {
    pub fn new() -> Record {
        Record { text: b"{\"abd\":\"history\",\"version\":1}\n".to_vec(), calls: 0 }
    }

    fn add(&mut self, text: &str) {
        self.text.extend_from_slice(text.as_bytes());
    }

    fn add_number(&mut self, mut number: u32) {
        let mut digits = [0; 10];
        let mut start = digits.len();
        loop {
            start -= 1;
            digits[start] = b'0' + (number % 10) as u8;
            number /= 10;
            if number == 0 {
                break;
            }
        }
        self.text.extend_from_slice(&digits[start..]);
    }

    fn add_text(&mut self, text: &str) {
        self.text.push(b'"');
        for byte in text.bytes() {
            match byte {
                b'"' => self.add("\\\""),
                b'\\' => self.add("\\\\"),
                0x08 => self.add("\\b"),
                b'\t' => self.add("\\t"),
                b'\n' => self.add("\\n"),
                0x0c => self.add("\\f"),
                b'\r' => self.add("\\r"),
                0..=0x1f => self.add(&format!("\\u{byte:04x}")),
                _ => self.text.push(byte),
            }
        }
        self.text.push(b'"');
    }

    /// A call is invoked; answers its number.
    pub fn invoke(&mut self, client: u32, key: &str, write: Option<&str>) -> u32 {
        let call = self.calls;
        self.calls += 1;
        self.add("{\"call\":");
        self.add_number(call);
        self.add(",\"client\":");
        self.add_number(client);
        self.add(if write.is_some() { ",\"do\":\"write\",\"key\":\"" } else { ",\"do\":\"read\",\"key\":\"" });
        self.add(key);
        self.add("\",\"row\":\"invoke\"");
        if let Some(value) = write {
            self.add(",\"value\":");
            self.add_text(value);
        }
        self.add("}\n");
        call
    }

    /// A call settles on a tag.
    pub fn note(&mut self, call: u32, (number, writer): Tag) {
        self.add("{\"call\":");
        self.add_number(call);
        self.add(",\"number\":");
        self.add_number(number);
        self.add(",\"row\":\"note\",\"writer\":");
        self.add_number(writer);
        self.add("}\n");
    }

    /// A write is done.
    pub fn written(&mut self, call: u32) {
        self.add("{\"call\":");
        self.add_number(call);
        self.add(",\"row\":\"respond\"}\n");
    }

    /// A read answers a value, or that there is none.
    pub fn answer(&mut self, call: u32, value: Option<&str>) {
        self.add("{\"call\":");
        self.add_number(call);
        self.add(",\"row\":\"respond\",\"value\":");
        match value {
            Some(value) => self.add_text(value),
            None => self.add("null"),
        }
        self.add("}\n");
    }
}
