//! Replicas, clients and the network between them, and the steps they take.
use crate::record::{Record, Tag};
use crate::script::Config;
use std::borrow::Cow;
use std::collections::{HashMap, VecDeque};

const MOST_COPIES: u16 = 1_000;

#[derive(Clone, Copy, Debug, PartialEq, Eq)]
pub enum Refusal {
    NoSuchReplica = 1,
    NoSuchClient = 2,
    ClientTaken = 3,
    ClientStopped = 4,
    ClientBusy = 5,
    NothingToSend = 6,
    NotInFlight = 7,
    NotReady = 8,
    ReplicaDown = 9,
    ReplicaUp = 10,
    CopiesFull = 11,
    OpsFull = 12,
    FlightsFull = 13,
}

#[derive(Clone, Copy, Debug, PartialEq, Eq)]
pub enum SettleRefusal {
    NoMajority = 1,
    NotPending = 2,
    Room = 3,
}

/// A tag with the place of a value, or none.
#[derive(Clone, Copy, Default)]
struct Pair {
    tag: Tag,
    value: Option<u32>,
}

#[derive(Clone, Copy)]
struct Call {
    number: u32,
    key: u32,
    write: Option<u32>,
}

/// The replicas that a client counted in this phase, a bit each, and their votes together.
#[derive(Clone, Copy, Default)]
struct Counted {
    replicas: u16,
    votes: u32,
}

impl Counted {
    fn has(self, replica: usize) -> bool {
        self.replicas >> replica & 1 == 1
    }

    fn with(self, replica: usize, votes: u32) -> Counted {
        Counted { replicas: self.replicas | 1 << replica, votes: self.votes + votes }
    }
}

#[derive(Clone, Copy)]
enum State {
    Idle,
    /// The greatest pair that was told so far, and the least tag.
    Ask { call: Call, counted: Counted, best: Pair, least: Option<Tag> },
    Put { call: Call, counted: Counted, pair: Pair },
    Ready { call: Call, pair: Pair },
    Stopped,
}

struct Client {
    name: u32,
    state: State,
}

struct Replica {
    is_up: bool,
    /// By the key's place; a key behind the end has no pair yet.
    pairs: Vec<Pair>,
}

#[derive(Clone, Copy)]
enum Message {
    Query { key: u32 },
    Put { key: u32, pair: Pair },
    Held { pair: Pair },
    Kept,
}

/// A message between a client, by its place, and a replica, for that call.
#[derive(Clone, Copy)]
struct Flight {
    message: Message,
    call: u32,
    client: u16,
    replica: u8,
    copies: u16,
}

pub struct World<'a> {
    config: Config,
    places: HashMap<u32, usize>,
    clients: Vec<Client>,
    replicas: Vec<Replica>,
    /// The flights from number `first` on; the earlier ones are spent.
    flights: VecDeque<Flight>,
    first: u32,
    keys: HashMap<&'a str, u32>,
    values: Vec<Cow<'a, str>>,
    record: Record,
}

/// Where a client stands among those that joined, if it did.
pub type Place = Option<usize>;

impl<'a> World<'a> {
    pub fn new(config: Config) -> World<'a> {
        let replicas = config.votes.iter().map(|_| Replica { is_up: true, pairs: Vec::new() }).collect();
        World {
            config,
            places: HashMap::new(),
            clients: Vec::new(),
            replicas,
            flights: VecDeque::new(),
            first: 0,
            keys: HashMap::new(),
            values: Vec::new(),
            record: Record::new(),
        }
    }

    pub fn history(self) -> Vec<u8> {
        self.record.text
    }

    pub fn place(&self, name: u32) -> Place {
        self.places.get(&name).copied()
    }

    pub fn joined(&self) -> usize {
        self.clients.len()
    }

    pub fn replicas(&self) -> usize {
        self.replicas.len()
    }

    /// How many flights were ever sent.
    pub fn sent(&self) -> u32 {
        self.first + self.flights.len() as u32
    }

    /// A client that joined and hasn't stopped.
    fn client(&mut self, place: Place) -> Result<&mut Client, Refusal> {
        let client = &mut self.clients[place.ok_or(Refusal::NoSuchClient)?];
        match client.state {
            State::Stopped => Err(Refusal::ClientStopped),
            _ => Ok(client),
        }
    }

    fn flight(&mut self, number: u32) -> Result<&mut Flight, Refusal> {
        let index = number.checked_sub(self.first).ok_or(Refusal::NotInFlight)?;
        self.flights.get_mut(index as usize).filter(|flight| flight.copies > 0).ok_or(Refusal::NotInFlight)
    }

    fn room(&self) -> Result<(), Refusal> {
        if self.sent() < self.config.flights { Ok(()) } else { Err(Refusal::FlightsFull) }
    }

    pub fn join(&mut self, name: u32) -> Result<(), Refusal> {
        if self.places.contains_key(&name) {
            return Err(Refusal::ClientTaken);
        }
        self.places.insert(name, self.clients.len());
        self.clients.push(Client { name, state: State::Idle });
        Ok(())
    }

    pub fn invoke(&mut self, place: Place, key: &'a str, write: Option<Cow<'a, str>>) -> Result<(), Refusal> {
        let client = self.client(place)?;
        let (name, State::Idle) = (client.name, client.state) else { return Err(Refusal::ClientBusy) };
        if self.record.calls == self.config.calls {
            return Err(Refusal::OpsFull);
        }
        let number = self.record.invoke(name, key, write.as_deref());
        let next = self.keys.len() as u32;
        let key = *self.keys.entry(key).or_insert(next);
        let write = write.map(|value| {
            self.values.push(value);
            self.values.len() as u32 - 1
        });
        let call = Call { number, key, write };
        self.client(place)?.state = State::Ask { call, counted: Counted::default(), best: Pair::default(), least: None };
        Ok(())
    }

    pub fn send(&mut self, place: Place, replica: usize) -> Result<(), Refusal> {
        if replica >= self.replicas.len() {
            return Err(Refusal::NoSuchReplica);
        }
        let (call, message) = match self.client(place)?.state {
            State::Ask { call, .. } => (call.number, Message::Query { key: call.key }),
            State::Put { call, pair, .. } => (call.number, Message::Put { key: call.key, pair }),
            _ => return Err(Refusal::NothingToSend),
        };
        self.room()?;
        let client = place.ok_or(Refusal::NoSuchClient)? as u16;
        self.flights.push_back(Flight { message, call, client, replica: replica as u8, copies: 1 });
        Ok(())
    }

    pub fn deliver(&mut self, number: u32) -> Result<(), Refusal> {
        let flight = *self.flight(number)?;
        match flight.message {
            Message::Query { key } => {
                self.reach(flight)?;
                let pair = self.replicas[flight.replica as usize].pairs.get(key as usize).copied().unwrap_or_default();
                self.reply(flight, Message::Held { pair });
            }
            Message::Put { key, pair } => {
                self.reach(flight)?;
                self.replicas[flight.replica as usize].adopt(key as usize, pair);
                self.reply(flight, Message::Kept);
            }
            Message::Held { pair } => self.hear_held(flight, pair)?,
            Message::Kept => self.hear_kept(flight)?,
        }
        self.lose(number)
    }

    /// The request's replica is up, and there is room for its reply.
    fn reach(&self, flight: Flight) -> Result<(), Refusal> {
        if !self.replicas[flight.replica as usize].is_up {
            return Err(Refusal::ReplicaDown);
        }
        self.room()
    }

    fn reply(&mut self, request: Flight, message: Message) {
        self.flights.push_back(Flight { message, copies: 1, ..request });
    }

    fn hear_held(&mut self, flight: Flight, told: Pair) -> Result<(), Refusal> {
        let replica = flight.replica as usize;
        let votes = self.config.votes[replica];
        let (ask, put, is_short) = (self.config.ask, self.config.put, self.config.has_short_reads);
        let client = self.client(Some(flight.client as usize))?;
        let State::Ask { call, counted, best, least } = client.state else { return Ok(()) };
        if call.number != flight.call || counted.has(replica) {
            return Ok(());
        }
        let counted = counted.with(replica, votes);
        let best = if told.tag > best.tag { told } else { best };
        let least = least.map_or(told.tag, |least| least.min(told.tag));
        if counted.votes < ask {
            client.state = State::Ask { call, counted, best, least: Some(least) };
            return Ok(());
        }
        let pair = match call.write {
            Some(_) => Pair { tag: (best.tag.0 + 1, client.name), value: call.write },
            None => best,
        };
        let is_agreed = is_short && call.write.is_none() && least == best.tag && counted.votes >= put;
        client.state = if is_agreed { State::Ready { call, pair } } else { State::Put { call, counted: Counted::default(), pair } };
        self.record.note(call.number, pair.tag);
        Ok(())
    }

    fn hear_kept(&mut self, flight: Flight) -> Result<(), Refusal> {
        let replica = flight.replica as usize;
        let (votes, put) = (self.config.votes[replica], self.config.put);
        let client = self.client(Some(flight.client as usize))?;
        let State::Put { call, counted, pair } = client.state else { return Ok(()) };
        if call.number != flight.call || counted.has(replica) {
            return Ok(());
        }
        let counted = counted.with(replica, votes);
        client.state = if counted.votes < put { State::Put { call, counted, pair } } else { State::Ready { call, pair } };
        Ok(())
    }

    pub fn lose(&mut self, number: u32) -> Result<(), Refusal> {
        self.flight(number)?.copies -= 1;
        while self.flights.front().is_some_and(|flight| flight.copies == 0) {
            self.flights.pop_front();
            self.first += 1;
        }
        Ok(())
    }

    pub fn repeat(&mut self, number: u32) -> Result<(), Refusal> {
        let flight = self.flight(number)?;
        if flight.copies == MOST_COPIES {
            return Err(Refusal::CopiesFull);
        }
        flight.copies += 1;
        Ok(())
    }

    pub fn respond(&mut self, place: Place) -> Result<(), Refusal> {
        let client = self.client(place)?;
        let State::Ready { call, pair } = client.state else { return Err(Refusal::NotReady) };
        client.state = State::Idle;
        match call.write {
            Some(_) => self.record.written(call.number),
            None => self.record.answer(call.number, pair.value.map(|value| &*self.values[value as usize])),
        }
        Ok(())
    }

    pub fn stop_client(&mut self, place: Place) -> Result<(), Refusal> {
        self.client(place)?.state = State::Stopped;
        Ok(())
    }

    pub fn stop_replica(&mut self, replica: usize) -> Result<(), Refusal> {
        let replica = self.replicas.get_mut(replica).ok_or(Refusal::NoSuchReplica)?;
        if !replica.is_up {
            return Err(Refusal::ReplicaDown);
        }
        replica.is_up = false;
        Ok(())
    }

    pub fn start_replica(&mut self, replica: usize) -> Result<(), Refusal> {
        let replica = self.replicas.get_mut(replica).ok_or(Refusal::NoSuchReplica)?;
        if replica.is_up {
            return Err(Refusal::ReplicaUp);
        }
        replica.is_up = true;
        Ok(())
    }

    fn is_candidate(&self, replica: usize, counted: Counted) -> bool {
        self.replicas[replica].is_up && !counted.has(replica)
    }

    /// How many further replicas, the least first, give so many votes.
    fn needed(&self, counted: Counted, votes: u32) -> u32 {
        let (mut sum, mut count) = (counted.votes, 0);
        for replica in 0..self.replicas.len() {
            if sum < votes && self.is_candidate(replica, counted) {
                sum += self.config.votes[replica];
                count += 1;
            }
        }
        count
    }

    /// Completes a client's pending call at the least replicas that are up.
    pub fn settle(&mut self, place: Place) -> Result<(), SettleRefusal> {
        if self.votes_up() < self.config.ask.max(self.config.put) {
            return Err(SettleRefusal::NoMajority);
        }
        let client = self.client(place).map_err(|_| SettleRefusal::NotPending)?;
        let rounds = match client.state {
            State::Ask { counted, .. } => {
                self.needed(counted, self.config.ask) + self.needed(Counted::default(), self.config.put)
            }
            State::Put { counted, .. } => self.needed(counted, self.config.put),
            State::Ready { .. } => 0,
            State::Idle | State::Stopped => return Err(SettleRefusal::NotPending),
        };
        if self.config.flights - self.sent() < 2 * rounds {
            return Err(SettleRefusal::Room);
        }
        self.take_rounds(place).expect("each of these steps may be taken");
        Ok(())
    }

    fn votes_up(&self) -> u32 {
        self.replicas.iter().zip(&self.config.votes).filter(|(replica, _)| replica.is_up).map(|(_, votes)| votes).sum()
    }

    fn take_rounds(&mut self, place: Place) -> Result<(), Refusal> {
        while let State::Ask { counted, .. } | State::Put { counted, .. } = self.client(place)?.state {
            let mut replicas = 0..self.replicas.len();
            let replica = replicas.find(|replica| self.is_candidate(*replica, counted)).ok_or(Refusal::ReplicaDown)?;
            let request = self.sent();
            self.send(place, replica)?;
            self.deliver(request)?;
            self.deliver(request + 1)?;
        }
        self.respond(place)
    }
}

impl Replica {
    /// Takes a pair where its tag is above the key's own.
    fn adopt(&mut self, key: usize, pair: Pair) {
        if self.pairs.len() <= key {
            self.pairs.resize(key + 1, Pair::default());
        }
        if pair.tag > self.pairs[key].tag {
            self.pairs[key] = pair;
        }
    }
}
