//! Scripts: what each line says, and the first line with a fault.
use std::str;

const LONGEST_LINE: usize = 65_536;
const MOST_COMMANDS: u32 = 1_000_000;

/// What is wrong with a line, by its number.
#[derive(Clone, Copy, Debug, PartialEq, Eq)]
pub enum Fault {
    NotUtf8 = 1,
    NoReplicas = 2,
    UnknownCommand = 3,
    Range = 4,
    TooLong = 5,
    TooManyCommands = 6,
    Device = 7,
}

impl Fault {
    pub fn text(self) -> &'static str {
        match self {
            Fault::NotUtf8 => "not UTF-8",
            Fault::NoReplicas => "no replicas",
            Fault::UnknownCommand => "unknown command",
            Fault::Range => "range",
            Fault::TooLong => "line too long",
            Fault::TooManyCommands => "too many commands",
            Fault::Device => "device",
        }
    }
}

pub struct Config {
    pub votes: Vec<u32>,
    pub ask: u32,
    pub put: u32,
    pub has_short_reads: bool,
    pub calls: u32,
    pub flights: u32,
}

pub enum Command<'a> {
    Join(u32),
    Invoke { client: u32, key: &'a str, write: Option<&'a str> },
    Send { client: u32, replica: usize },
    Deliver(u32),
    Lose(u32),
    Repeat(u32),
    Respond(u32),
    StopClient(u32),
    StopReplica(usize),
    StartReplica(usize),
    Finish(u32),
    Random { seed: u64, count: u32 },
}

pub struct Script<'a> {
    pub config: Config,
    pub commands: Vec<(usize, Command<'a>)>,
}

/// The words of a line that are left.
struct Words<'a>(&'a str);

impl<'a> Words<'a> {
    /// The next word; what is left begins behind the one space or tab that ends it.
    fn next(&mut self) -> Option<&'a str> {
        let is_space = |byte: &u8| *byte == b' ' || *byte == b'\t';
        let start = self.0.bytes().position(|byte| !is_space(&byte))?;
        let text = &self.0[start..];
        let end = text.bytes().position(|byte| is_space(&byte)).unwrap_or(text.len());
        self.0 = text.get(end + 1..).unwrap_or("");
        Some(&text[..end])
    }

    fn word(&mut self) -> Result<&'a str, Fault> {
        self.next().ok_or(Fault::UnknownCommand)
    }

    fn expect(&mut self, text: &str) -> Result<(), Fault> {
        if self.word()? == text { Ok(()) } else { Err(Fault::UnknownCommand) }
    }

    fn end(&mut self) -> Result<(), Fault> {
        self.next().map_or(Ok(()), |_| Err(Fault::UnknownCommand))
    }

    fn number(&mut self) -> Result<Number, Fault> {
        number_of(self.word()?)
    }

    fn number_or(&mut self, default: u64) -> Result<Number, Fault> {
        self.next().map_or(Ok(Number(Some(default))), number_of)
    }

    fn last_number(&mut self) -> Result<Number, Fault> {
        let number = self.number()?;
        self.end()?;
        Ok(number)
    }
}

/// A number of any size, none where it has no place in 64 bits.
#[derive(Clone, Copy)]
struct Number(Option<u64>);

fn number_of(word: &str) -> Result<Number, Fault> {
    if !word.bytes().all(|byte| byte.is_ascii_digit()) {
        return Err(Fault::UnknownCommand);
    }
    let mut digits = word.bytes().map(|byte| u64::from(byte - b'0'));
    Ok(Number(digits.try_fold(0u64, |n, digit| n.checked_mul(10)?.checked_add(digit))))
}

impl Number {
    fn within(self, least: u32, most: u32) -> Result<u32, Fault> {
        let number = self.0.and_then(|n| u32::try_from(n).ok()).ok_or(Fault::Range)?;
        if (least..=most).contains(&number) { Ok(number) } else { Err(Fault::Range) }
    }

    fn client(self) -> Result<u32, Fault> {
        self.within(1, 65_535)
    }

    fn replica(self) -> Result<usize, Fault> {
        Ok(self.within(0, 14)? as usize)
    }

    fn flight(self) -> Result<u32, Fault> {
        self.within(0, u32::MAX)
    }
}

fn replicas(words: &mut Words) -> Result<Config, Fault> {
    let (replicas, calls, flights) = (words.number()?, words.number_or(1_000_000)?, words.number_or(4_000_000)?);
    words.end()?;
    let replicas = replicas.within(1, 15)?;
    Ok(Config {
        votes: vec![1; replicas as usize],
        ask: replicas / 2 + 1,
        put: replicas / 2 + 1,
        has_short_reads: false,
        calls: calls.within(1, 1_000_000)?,
        flights: flights.within(1, 16_000_000)?,
    })
}

fn reads(words: &mut Words) -> Result<bool, Fault> {
    let is_short = match words.word()? {
        "full" => false,
        "short" => true,
        _ => return Err(Fault::UnknownCommand),
    };
    words.end()?;
    Ok(is_short)
}

fn votes(words: &mut Words, config: &mut Config) -> Result<(), Fault> {
    let votes = config.votes.iter().map(|_| words.number()).collect::<Result<Vec<_>, _>>()?;
    words.expect("ask")?;
    let ask = words.number()?;
    words.expect("put")?;
    let put = words.last_number()?;
    config.votes = votes.into_iter().map(|vote| vote.within(1, 9)).collect::<Result<_, _>>()?;
    let all: u32 = config.votes.iter().sum();
    config.ask = ask.within(1, all)?;
    config.put = put.within(1, all)?;
    if config.ask + config.put > all { Ok(()) } else { Err(Fault::Range) }
}

fn invoke<'a>(words: &mut Words<'a>) -> Result<Command<'a>, Fault> {
    let (client, action, key) = (words.number()?, words.word()?, words.word()?);
    let write = match action {
        "write" => Some(words.0),
        "read" => {
            words.end()?;
            None
        }
        _ => return Err(Fault::UnknownCommand),
    };
    let client = client.client()?;
    let is_key_byte = |byte: u8| byte.is_ascii_alphanumeric() || b"._-".contains(&byte);
    if key.len() > 64 || !key.bytes().all(is_key_byte) || write.is_some_and(|value| value.len() > 256) {
        return Err(Fault::Range);
    }
    Ok(Command::Invoke { client, key, write })
}

fn command<'a>(verb: &str, words: &mut Words<'a>) -> Result<Command<'a>, Fault> {
    Ok(match verb {
        "join" => Command::Join(words.last_number()?.client()?),
        "invoke" => invoke(words)?,
        "send" => {
            let (client, replica) = (words.number()?, words.last_number()?);
            Command::Send { client: client.client()?, replica: replica.replica()? }
        }
        "deliver" => Command::Deliver(words.last_number()?.flight()?),
        "lose" => Command::Lose(words.last_number()?.flight()?),
        "repeat" => Command::Repeat(words.last_number()?.flight()?),
        "respond" => Command::Respond(words.last_number()?.client()?),
        "finish" => Command::Finish(words.last_number()?.client()?),
        "stop" => match words.word()? {
            "client" => Command::StopClient(words.last_number()?.client()?),
            "replica" => Command::StopReplica(words.last_number()?.replica()?),
            _ => return Err(Fault::UnknownCommand),
        },
        "start" => {
            words.expect("replica")?;
            Command::StartReplica(words.last_number()?.replica()?)
        }
        "random" => {
            let (seed, count) = (words.number()?, words.last_number()?);
            Command::Random { seed: seed.0.ok_or(Fault::Range)?, count: count.within(0, 1_000_000)? }
        }
        _ => return Err(Fault::UnknownCommand),
    })
}

/// The first line of the configuration that may still come behind `replicas`.
#[derive(PartialEq, PartialOrd)]
enum Open {
    Reads,
    Votes,
    Commands,
}

struct Reader<'a> {
    open: Open,
    count: u32,
    config: Option<Config>,
    commands: Vec<(usize, Command<'a>)>,
}

impl<'a> Reader<'a> {
    fn take(&mut self, number: usize, line: &'a [u8]) -> Result<(), Fault> {
        if line.len() > LONGEST_LINE {
            return Err(Fault::TooLong);
        }
        let text = str::from_utf8(line).map_err(|_| Fault::NotUtf8)?;
        let mut words = Words(text.strip_suffix('\r').unwrap_or(text));
        let Some(verb) = words.next().filter(|word| !word.starts_with('#')) else { return Ok(()) };
        if self.count == MOST_COMMANDS {
            return Err(Fault::TooManyCommands);
        }
        self.count += 1;
        self.take_words(number, verb, &mut words)
    }

    fn take_words(&mut self, number: usize, verb: &str, words: &mut Words<'a>) -> Result<(), Fault> {
        let Some(config) = &mut self.config else {
            if verb != "replicas" {
                return Err(Fault::NoReplicas);
            }
            self.config = Some(replicas(words)?);
            return Ok(());
        };
        match verb {
            "reads" if self.open == Open::Reads => {
                config.has_short_reads = reads(words)?;
                self.open = Open::Votes;
            }
            "votes" if self.open <= Open::Votes => {
                votes(words, config)?;
                self.open = Open::Commands;
            }
            _ => {
                self.commands.push((number, command(verb, words)?));
                self.open = Open::Commands;
            }
        }
        Ok(())
    }
}

/// The script of these bytes, or its first fault and that fault's line. A reader that failed behind them fails the line that
/// was under way, unless that was too long already.
pub fn parse(bytes: &[u8], is_whole: bool) -> Result<Script<'_>, (usize, Fault)> {
    let mut reader = Reader { open: Open::Reads, count: 0, config: None, commands: Vec::new() };
    let (mut number, mut rest) = (1, bytes);
    while let Some(end) = rest.iter().position(|byte| *byte == b'\n') {
        reader.take(number, &rest[..end]).map_err(|fault| (number, fault))?;
        rest = &rest[end + 1..];
        number += 1;
    }
    if is_whole && !rest.is_empty() {
        reader.take(number, rest).map_err(|fault| (number, fault))?;
    }
    match reader.config {
        _ if !is_whole => Err((number, if rest.len() > LONGEST_LINE { Fault::TooLong } else { Fault::Device })),
        Some(config) => Ok(Script { config, commands: reader.commands }),
        None => Err((1, Fault::NoReplicas)),
    }
}
