//! A script's run: its history, and its messages.
use crate::random::Generator;
use crate::script::{Command, Config};
use crate::world::{Place, Refusal, World};
use std::borrow::Cow;
use std::io::Write;

const RANDOM_KEYS: [&str; 4] = ["k0", "k1", "k2", "k3"];

/// One of the clients that joined; none where nobody did.
fn any_client(world: &World, word: u32) -> Place {
    (word as usize).checked_rem(world.joined())
}

/// One of the last 32 flights that were sent; 0 where none was.
fn any_flight(world: &World, word: u32) -> u32 {
    let sent = world.sent();
    word.checked_rem(sent.min(32)).map_or(0, |back| sent - 1 - back)
}

fn random_step(world: &mut World, words: [u32; 3]) -> Result<(), Refusal> {
    let [kind, second, third] = words;
    match kind % 16 {
        0 => world.lose(any_flight(world, second)),
        1 => world.repeat(any_flight(world, second)),
        2..=3 => world.respond(any_client(world, second)),
        4..=5 => {
            let write = (third / 4 % 2 == 1).then(|| Cow::Owned(format!("r{third}")));
            world.invoke(any_client(world, second), RANDOM_KEYS[third as usize % 4], write)
        }
        6..=9 => world.send(any_client(world, second), third as usize % world.replicas()),
        _ => world.deliver(any_flight(world, second)),
    }
}

/// So many random steps; answers how many weren't refused.
fn random_steps(world: &mut World, seed: u64, count: u32) -> u32 {
    let mut generator = Generator::new(seed);
    let mut taken = 0;
    for _ in 0..count {
        let words = [generator.word(), generator.word(), generator.word()];
        taken += u32::from(random_step(world, words).is_ok());
    }
    taken
}

fn step<'a>(world: &mut World<'a>, command: &Command<'a>) -> Result<(), Refusal> {
    match *command {
        Command::Join(client) => world.join(client),
        Command::Invoke { client, key, write } => world.invoke(world.place(client), key, write.map(Cow::Borrowed)),
        Command::Send { client, replica } => world.send(world.place(client), replica),
        Command::Deliver(flight) => world.deliver(flight),
        Command::Lose(flight) => world.lose(flight),
        Command::Repeat(flight) => world.repeat(flight),
        Command::Respond(client) => world.respond(world.place(client)),
        Command::StopClient(client) => world.stop_client(world.place(client)),
        Command::StopReplica(replica) => world.stop_replica(replica),
        Command::StartReplica(replica) => world.start_replica(replica),
        Command::Finish(_) | Command::Random { .. } => Ok(()),
    }
}

/// What a command has to say of itself.
fn message_of<'a>(world: &mut World<'a>, command: &Command<'a>) -> Option<String> {
    match *command {
        Command::Finish(client) => {
            let refusal = world.settle(world.place(client)).err()?;
            Some(format!("finish refused {} {refusal:?}", refusal as u8))
        }
        Command::Random { seed, count } => Some(format!("random took {} of {count}", random_steps(world, seed, count))),
        _ => {
            let refusal = step(world, command).err()?;
            Some(format!("refused {} {refusal:?}", refusal as u8))
        }
    }
}

/// The text of the script's history, and of its messages.
pub fn run<'a>(config: Config, commands: &[(usize, Command<'a>)]) -> (Vec<u8>, Vec<u8>) {
    let mut world = World::new(config);
    let mut messages = Vec::new();
    for (line, command) in commands {
        if let Some(message) = message_of(&mut world, command) {
            writeln!(messages, "line {line}: {message}").expect("a vector takes what is written");
        }
    }
    (world.history(), messages)
}
