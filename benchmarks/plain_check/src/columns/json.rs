//! Members of lines that are read as JSON. A member that isn't as it should be ends the program.
use serde_json::{Map, Value};

/// How many bytes a line may have, without its end.
pub const LONGEST_LINE: usize = 65_536;

/// The object that a line is.
pub fn object_of(line: &[u8]) -> Map<String, Value> {
    assert!(line.len() <= LONGEST_LINE, "a line that is too long");
    match serde_json::from_slice(line).expect("JSON") {
        Value::Object(members) => members,
        _ => panic!("an object"),
    }
}

/// The member of that name.
pub fn member<'a>(object: &'a Map<String, Value>, name: &str) -> &'a Value {
    object.get(name).expect("a member")
}

/// The text of that name.
pub fn text_in<'a>(object: &'a Map<String, Value>, name: &str) -> &'a str {
    member(object, name).as_str().expect("a text")
}

/// The number of that name, which has to be from `least` to `most`.
pub fn member_in(object: &Map<String, Value>, name: &str, least: u32, most: u32) -> u32 {
    number_in(member(object, name), least, most)
}

/// The number, which has to be from `least` to `most`.
pub fn number_in(value: &Value, least: u32, most: u32) -> u32 {
    let number = value.as_u64().and_then(|number| u32::try_from(number).ok());
    number
        .filter(|number| (least..=most).contains(number))
        .expect("a number in its range")
}
