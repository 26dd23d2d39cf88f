//! Scripts with the histories and messages that the rules give for them, worked by hand.
use crate::random::Generator;
use crate::script::{self, Fault};
use crate::simulator;

/// A script's history without its header, and its messages; ` / ` parts the script's lines.
fn run(script: &str) -> (String, String) {
    run_bytes(script.replace(" / ", "\n").as_bytes())
}

fn run_bytes(bytes: &[u8]) -> (String, String) {
    let script = script::parse(bytes, true).expect("a script");
    let (history, messages) = simulator::run(script.config, &script.commands);
    let history = String::from_utf8(history).expect("a text");
    let rows = history.strip_prefix("{\"abd\":\"history\",\"version\":1}\n").expect("a header");
    (rows.to_owned(), String::from_utf8(messages).expect("a text"))
}

fn fault_of(bytes: &[u8]) -> Option<(usize, Fault)> {
    script::parse(bytes, true).err()
}

fn write(call: u32, client: u32, key: &str, value: &str) -> String {
    format!("{{\"call\":{call},\"client\":{client},\"do\":\"write\",\"key\":\"{key}\",\"row\":\"invoke\",\"value\":{value}}}\n")
}

fn read(call: u32, client: u32, key: &str) -> String {
    format!("{{\"call\":{call},\"client\":{client},\"do\":\"read\",\"key\":\"{key}\",\"row\":\"invoke\"}}\n")
}

fn note(call: u32, number: u32, writer: u32) -> String {
    format!("{{\"call\":{call},\"number\":{number},\"row\":\"note\",\"writer\":{writer}}}\n")
}

fn written(call: u32) -> String {
    format!("{{\"call\":{call},\"row\":\"respond\"}}\n")
}

fn answer(call: u32, value: &str) -> String {
    format!("{{\"call\":{call},\"row\":\"respond\",\"value\":{value}}}\n")
}

/// Client 1 writes `a` to `x`, and then a client reads it.
fn two_calls(reader: u32) -> String {
    [
        write(0, 1, "x", "\"a\""), note(0, 1, 1), written(0),
        read(1, reader, "x"), note(1, 1, 1), answer(1, "\"a\""),
    ]
    .concat()
}

const NEW_THEN_OLD: &str = "join 1 / join 2 / join 3 / invoke 1 write x a / send 1 0 / deliver 0 / deliver 1 / send 1 1 / \
    deliver 2 / deliver 3 / send 1 0 / deliver 4 / stop client 1";

#[test]
fn calls_complete_one_after_the_other() {
    let none = String::new();
    let same = "replicas 3 / join 1 / join 2 / invoke 1 write x a / finish 1 / invoke 2 read x / finish 2";
    assert_eq!(run(same), (two_calls(2), none.clone()));
    assert_eq!(run(&same.replace("replicas 3", "replicas 3 / reads short")), (two_calls(2), none.clone()));
    assert_eq!(run(&same.replace("replicas 3", "replicas 3 / votes 1 1 3 ask 3 put 3")), (two_calls(2), none.clone()));
    let one = [read(0, 7, "k.1"), note(0, 0, 0), answer(0, "null")].concat();
    assert_eq!(run("replicas 1 / join 7 / invoke 7 read k.1 / finish 7"), (one, none));
}

#[test]
fn a_minority_may_stop() {
    let script = "replicas 3 / join 1 / stop replica 0 / invoke 1 write x a / finish 1 / invoke 1 read x / stop replica 1 / \
        finish 1 / start replica 1 / finish 1";
    assert_eq!(run(script), (two_calls(1), "line 8: finish refused 1 NoMajority\n".to_owned()));
    let even = "replicas 2 / join 1 / stop replica 1 / invoke 1 read x / finish 1 / send 1 0 / deliver 0 / deliver 1";
    assert_eq!(run(even), (read(0, 1, "x"), "line 5: finish refused 1 NoMajority\n".to_owned()));
}

#[test]
fn a_read_writes_back_what_it_found() {
    let seen = [
        write(0, 1, "x", "\"a\""), note(0, 1, 1),
        read(1, 2, "x"), note(1, 1, 1), answer(1, "\"a\""),
        read(2, 3, "x"), note(2, 1, 1), answer(2, "\"a\""),
    ]
    .concat();
    let unseen = [write(0, 1, "x", "\"a\""), note(0, 1, 1), read(1, 2, "x"), note(1, 0, 0), answer(1, "null")].concat();
    for head in ["replicas 3", "replicas 3 / reads short"] {
        let twice = format!("{head} / {NEW_THEN_OLD} / invoke 2 read x / finish 2 / stop replica 0 / invoke 3 read x / finish 3");
        assert_eq!(run(&twice), (seen.clone(), String::new()));
        let elsewhere = format!("{head} / {NEW_THEN_OLD} / stop replica 0 / invoke 2 read x / finish 2");
        assert_eq!(run(&elsewhere), (unseen.clone(), String::new()));
    }
}

#[test]
fn the_writers_name_decides_between_equal_numbers() {
    let script = "replicas 3 / join 1 / join 2 / join 3 / invoke 1 write x a / invoke 2 write x b / send 1 0 / deliver 0 / deliver 1 / \
        send 1 1 / deliver 2 / deliver 3 / send 2 0 / deliver 4 / deliver 5 / send 2 1 / deliver 6 / deliver 7 / finish 2 / finish 1 / \
        invoke 3 read x / finish 3";
    let rows = [
        write(0, 1, "x", "\"a\""), write(1, 2, "x", "\"b\""), note(0, 1, 1), note(1, 1, 2), written(1), written(0),
        read(2, 3, "x"), note(2, 1, 2), answer(2, "\"b\""),
    ]
    .concat();
    assert_eq!(run(script), (rows, String::new()));
}

#[test]
fn replies_count_once_and_for_their_phase() {
    let repeated = "replicas 3 / join 1 / invoke 1 read x / send 1 0 / deliver 0 / repeat 1 / repeat 1 / deliver 1 / deliver 1 / \
        deliver 1 / deliver 1 / respond 1";
    let messages = "line 11: refused 7 NotInFlight\nline 12: refused 8 NotReady\n";
    assert_eq!(run(repeated), (read(0, 1, "x"), messages.to_owned()));
    let stale = "replicas 3 / join 1 / invoke 1 write x a / send 1 0 / send 1 1 / send 1 2 / deliver 0 / deliver 1 / deliver 2 / \
        deliver 3 / deliver 4 / deliver 5 / send 1 0 / deliver 6 / repeat 7 / deliver 7 / respond 1 / finish 1 / invoke 1 read x / \
        deliver 7 / finish 1";
    assert_eq!(run(stale), (two_calls(1), "line 17: refused 8 NotReady\n".to_owned()));
}

#[test]
fn refusals_have_their_numbers() {
    let lost = "replicas 1 / join 1 / invoke 1 read x / send 1 0 / lose 0 / deliver 0 / repeat 0";
    let messages = "line 6: refused 7 NotInFlight\nline 7: refused 7 NotInFlight\n";
    assert_eq!(run(lost).1, messages);
    let repeats = format!("replicas 1 / join 1 / invoke 1 read x / send 1 0{}", " / repeat 0".repeat(1000));
    assert_eq!(run(&repeats).1, "line 1004: refused 11 CopiesFull\n");
    let busy = "replicas 3 / join 1 / invoke 1 read x / invoke 1 read y / stop client 1 / join 1 / invoke 1 read y / invoke 2 read y";
    let messages = "line 4: refused 5 ClientBusy\nline 6: refused 3 ClientTaken\nline 7: refused 4 ClientStopped\n\
        line 8: refused 2 NoSuchClient\n";
    assert_eq!(run(busy), (read(0, 1, "x"), messages.to_owned()));
    assert_eq!(run("replicas 3 1 / join 1 / invoke 1 read x / finish 1 / invoke 1 read x").1, "line 5: refused 12 OpsFull\n");
    let calls = "join 1 / invoke 1 read x / finish 1 / invoke 1 read x / finish 1 / send 1 0";
    let messages = "line 6: finish refused 3 Room\nline 7: refused 13 FlightsFull\n";
    assert_eq!(run(&format!("replicas 1 10 4 / {calls}")).1, messages);
    // A short read's call takes half the flights, so that the send is the last that has room.
    assert_eq!(run(&format!("replicas 1 10 4 / reads short / {calls}")).1, "line 7: finish refused 3 Room\n");
    let others = "replicas 3 / send 1 3 / send 1 0 / respond 1 / stop client 1 / stop replica 3 / start replica 0 / stop replica 0 / \
        stop replica 0 / join 1 / send 1 0 / finish 1 / finish 2 / start replica 14";
    let messages = "line 2: refused 1 NoSuchReplica\nline 3: refused 2 NoSuchClient\nline 4: refused 2 NoSuchClient\n\
        line 5: refused 2 NoSuchClient\nline 6: refused 1 NoSuchReplica\nline 7: refused 10 ReplicaUp\nline 9: refused 9 ReplicaDown\n\
        line 11: refused 6 NothingToSend\nline 12: finish refused 2 NotPending\nline 13: finish refused 2 NotPending\n\
        line 14: refused 1 NoSuchReplica\n";
    assert_eq!(run(others), (String::new(), messages.to_owned()));
}

#[test]
fn short_reads_agree_by_tag() {
    let script = "replicas 3 / reads short / join 1 / join 2 / join 3 / invoke 1 write x a / finish 1 / invoke 1 write x a / send 1 0 / \
        deliver 8 / deliver 9 / send 1 1 / deliver 10 / deliver 11 / send 1 0 / deliver 12 / stop client 1 / invoke 2 read x / \
        finish 2 / stop replica 0 / invoke 3 read x / finish 3";
    let rows = [
        write(0, 1, "x", "\"a\""), note(0, 1, 1), written(0), write(1, 1, "x", "\"a\""), note(1, 2, 1),
        read(2, 2, "x"), note(2, 2, 1), answer(2, "\"a\""), read(3, 3, "x"), note(3, 2, 1), answer(3, "\"a\""),
    ]
    .concat();
    assert_eq!(run(script), (rows, String::new()));
}

#[test]
fn flights_are_numbered_through_every_finish() {
    // A finish takes so many flights: the first number that was never given is refused, the one before it was delivered.
    let script = "replicas 3 / reads MODE / join 1 / join 2 / invoke 1 write x a / finish 1 / invoke 2 read x / finish 2 / send 2 0 / \
        invoke 2 read x / send 2 0 / deliver LAST / deliver NEXT / deliver BEYOND";
    for (mode, sent) in [("full", 16), ("short", 12)] {
        let numbers = [("LAST", sent - 1), ("NEXT", sent), ("BEYOND", sent + 2)];
        let script = numbers.iter().fold(script.replace("MODE", mode), |text, (word, n)| text.replace(word, &n.to_string()));
        let messages = "line 9: refused 6 NothingToSend\nline 12: refused 7 NotInFlight\nline 14: refused 7 NotInFlight\n";
        assert_eq!(run(&script).1, messages, "{mode}");
    }
    // Four replicas need three answers in both phases, 12 flights; so do votes of 1, 1 and 3 with quorums of 3.
    for head in ["replicas 4", "replicas 3 / votes 1 1 3 ask 3 put 3"] {
        let first = head.split(" / ").count();
        let script = format!("{head} / join 1 / invoke 1 write x a / finish 1 / invoke 1 read x / send 1 0 / deliver 11 / deliver 12");
        assert_eq!(run(&script).1, format!("line {}: refused 7 NotInFlight\n", first + 6));
    }
}

#[test]
fn votes_make_quorums() {
    let script = "replicas 3 / votes 1 1 3 ask 3 put 3 / join 1 / invoke 1 write x a / send 1 2 / deliver 0 / deliver 1 / send 1 2 / \
        deliver 2 / deliver 3 / respond 1 / stop replica 2 / invoke 1 read x / finish 1";
    let rows = [write(0, 1, "x", "\"a\""), note(0, 1, 1), written(0), read(1, 1, "x")].concat();
    assert_eq!(run(script), (rows, "line 14: finish refused 1 NoMajority\n".to_owned()));
    let script = "replicas 3 / reads short / votes 1 1 1 ask 1 put 3 / join 1 / join 2 / join 3 / invoke 1 write x a / send 1 0 / \
        deliver 0 / deliver 1 / send 1 0 / deliver 2 / stop client 1 / invoke 2 read x / finish 2 / invoke 3 read x / send 3 1 / \
        deliver 12 / deliver 13 / finish 3";
    let rows = [
        write(0, 1, "x", "\"a\""), note(0, 1, 1), read(1, 2, "x"), note(1, 1, 1), answer(1, "\"a\""),
        read(2, 3, "x"), note(2, 1, 1), answer(2, "\"a\""),
    ]
    .concat();
    assert_eq!(run(script), (rows, String::new()));
}

#[test]
fn values_are_what_stands_behind_the_key() {
    for (words, value) in [
        (" say \"hi\"", "\"say \\\"hi\\\"\""),
        ("", "\"\""),
        (" ", "\"\""),
        ("  ", "\" \""),
        ("\t a\tb \\", "\" a\\tb \\\\\""),
        (" é\u{7f}\u{1}\u{8}\u{c}\r.\r", "\"é\u{7f}\\u0001\\b\\f\\r.\""),
    ] {
        let script = format!("replicas 1\njoin 1\n \tinvoke\t 1  write \tx{words}\nfinish 1\n\ninvoke 1 read x \t\nfinish 1 \r\n");
        let rows = [write(0, 1, "x", value), note(0, 1, 1), written(0), read(1, 1, "x"), note(1, 1, 1), answer(1, value)].concat();
        assert_eq!(run_bytes(script.as_bytes()), (rows, String::new()), "{words:?}");
    }
}

#[test]
fn the_generators_words_choose_the_steps() {
    let mut generator = Generator::new(42);
    let words: Vec<u32> = (0..6).map(|_| generator.word()).collect();
    assert_eq!(words, [0xa15c02b7, 0x7b47f409, 0xba1d3330, 0x83d2f293, 0xbfa4784b, 0xcbed606e]);
    let script = "replicas 3 / join 1 / invoke 1 read x / random 42 2 / stop replica 2 / deliver 0";
    let messages = "line 4: random took 1 of 2\nline 6: refused 9 ReplicaDown\n";
    assert_eq!(run(script), (read(0, 1, "x"), messages.to_owned()));
    assert_eq!(run("replicas 3 / random 7 100 / random 7 0").1, "line 2: random took 0 of 100\nline 3: random took 0 of 0\n");
}

#[test]
fn lines_have_their_faults() {
    let (key, value) = ("k".repeat(64), "v".repeat(256));
    for (line, fault) in [
        ("replicas 3", Some(Fault::UnknownCommand)),
        ("reads full", None),
        ("reads", Some(Fault::UnknownCommand)),
        ("reads half", Some(Fault::UnknownCommand)),
        ("reads full short", Some(Fault::UnknownCommand)),
        ("votes 1 1 1 ask 1 put 3", None),
        ("votes 1 1 1 ask 1 put 2", Some(Fault::Range)),
        ("votes 0 1 1 ask 2 put 2", Some(Fault::Range)),
        ("votes 1 1 10 ask 9 put 9", Some(Fault::Range)),
        ("votes 1 1 1 ask 4 put 3", Some(Fault::Range)),
        ("votes 1 1 ask 1 put 2", Some(Fault::UnknownCommand)),
        ("votes 1 1 1 1 ask 1 put 4", Some(Fault::UnknownCommand)),
        ("votes 1 1 1 put 3 ask 1", Some(Fault::UnknownCommand)),
        ("votes 1 1 1 ask 1 put 3 4", Some(Fault::UnknownCommand)),
        ("join 0", Some(Fault::Range)),
        ("join 65535", None),
        ("join 65536", Some(Fault::Range)),
        ("join 0000000000000000000000001", None),
        ("join +1", Some(Fault::UnknownCommand)),
        ("join", Some(Fault::UnknownCommand)),
        ("join 1 2", Some(Fault::UnknownCommand)),
        ("join 0 2", Some(Fault::UnknownCommand)),
        ("Join 1", Some(Fault::UnknownCommand)),
        ("invoke 0 reads x", Some(Fault::UnknownCommand)),
        ("invoke 0 read x", Some(Fault::Range)),
        ("invoke 1 read", Some(Fault::UnknownCommand)),
        ("invoke 1 read x y", Some(Fault::UnknownCommand)),
        ("invoke 1 read ä", Some(Fault::Range)),
        ("invoke 1 write", Some(Fault::UnknownCommand)),
        (&format!("invoke 1 write {key} {value}"), None),
        (&format!("invoke 1 write {key}k {value}"), Some(Fault::Range)),
        (&format!("invoke 1 write {key} {value}v"), Some(Fault::Range)),
        (&format!("invoke 1 write {key} {}", "é".repeat(128)), None),
        ("send 1 14", None),
        ("send 1 15", Some(Fault::Range)),
        ("send 0 15 1", Some(Fault::UnknownCommand)),
        ("deliver 4294967295", None),
        ("lose 4294967296", Some(Fault::Range)),
        ("repeat 99999999999999999999", Some(Fault::Range)),
        ("respond x", Some(Fault::UnknownCommand)),
        ("stop client 1", None),
        ("stop replica 14", None),
        ("stop replicas 1", Some(Fault::UnknownCommand)),
        ("start client 1", Some(Fault::UnknownCommand)),
        ("start replica 15", Some(Fault::Range)),
        ("finish 1", None),
        ("random 18446744073709551615 1000000", None),
        ("random 18446744073709551616 1", Some(Fault::Range)),
        ("random 1 1000001", Some(Fault::Range)),
        ("random 1", Some(Fault::UnknownCommand)),
        ("jo\u{a0}in 1", Some(Fault::UnknownCommand)),
    ] {
        let script = format!("# a comment\r\n\t replicas 3 \n \t\r\n{line}\n");
        assert_eq!(fault_of(script.as_bytes()), fault.map(|fault| (4, fault)), "{line}");
    }
}

#[test]
fn scripts_begin_with_replicas() {
    for (text, fault) in [
        ("", Some((1, Fault::NoReplicas))),
        ("\n# none\n", Some((1, Fault::NoReplicas))),
        ("\n\nrepl", Some((3, Fault::NoReplicas))),
        ("reads full", Some((1, Fault::NoReplicas))),
        ("\u{feff}replicas 3", Some((1, Fault::NoReplicas))),
        ("replicas", Some((1, Fault::UnknownCommand))),
        ("replicas 3 x", Some((1, Fault::UnknownCommand))),
        ("replicas 16 x", Some((1, Fault::UnknownCommand))),
        ("replicas 3 1 1 1", Some((1, Fault::UnknownCommand))),
        ("replicas 3", None),
        ("replicas 15 1000000 16000000", None),
        ("replicas 0", Some((1, Fault::Range))),
        ("replicas 16", Some((1, Fault::Range))),
        ("replicas 3 0", Some((1, Fault::Range))),
        ("replicas 3 1000001", Some((1, Fault::Range))),
        ("replicas 3 1 16000001", Some((1, Fault::Range))),
        ("replicas 3\nvotes 1 1 1 ask 1 put 3\nreads full", Some((3, Fault::UnknownCommand))),
        ("replicas 3\njoin 1\nreads full", Some((3, Fault::UnknownCommand))),
        ("replicas 3\nreads full\nreads full", Some((3, Fault::UnknownCommand))),
        ("replicas 3\nreads full\nvotes 1 1 1 ask 2 put 2\njoin 1", None),
    ] {
        assert_eq!(fault_of(text.as_bytes()), fault, "{text:?}");
    }
}

#[test]
fn lines_are_long_or_no_text() {
    let comment = |length: usize| format!("#{}", "x".repeat(length - 1));
    let script = |line: &[u8]| [b"replicas 3\n", line, b"\njoin 0\n"].concat();
    assert_eq!(fault_of(&script(comment(65_536).as_bytes())), Some((3, Fault::Range)));
    assert_eq!(fault_of(&script(comment(65_537).as_bytes())), Some((2, Fault::TooLong)));
    assert_eq!(fault_of(&script(format!("{}\r", comment(65_536)).as_bytes())), Some((2, Fault::TooLong)));
    assert_eq!(fault_of(&script(b"# \xff")), Some((2, Fault::NotUtf8)));
    assert_eq!(fault_of(&script(&[0xff; 65_537])), Some((2, Fault::TooLong)));
    assert_eq!(fault_of(b"\xffreplicas 3"), Some((1, Fault::NotUtf8)));
    let full = format!("replicas 3\n{}", "respond 1\n".repeat(999_999));
    assert_eq!(fault_of(full.as_bytes()), None);
    assert_eq!(fault_of(format!("{full}# one more\n\nno command\n").as_bytes()), Some((1_000_003, Fault::TooManyCommands)));
}

#[test]
fn a_reader_that_fails_fails_the_line_under_way() {
    let fault = |bytes: &[u8]| script::parse(bytes, false).err();
    assert_eq!(fault(b""), Some((1, Fault::Device)));
    assert_eq!(fault(b"replicas 3\njoin 0"), Some((2, Fault::Device)));
    assert_eq!(fault(b"replicas 3\njoin 0\n"), Some((2, Fault::Range)));
    assert_eq!(fault(&[b'x'; 65_537]), Some((1, Fault::TooLong)));
}
