"""random_script.py --seed S --lines N

Prints a random script for `abd simulate`, the same for the same seed: a configuration and
about N commands, most of which aren't refused. About one script in twelve has a line with a
fault, or has no end of its last line.  It serves to compare two programs that run scripts.
"""
import argparse
import random
import sys

KEYS = ['x', 'k0', 'k1', 'a.B-c_9', 'k' * 64]
VALUES = ['', 'a', 'b', 'r7', 'null', '#', 'say "hi"', ' two  spaces ', 'tab\tand \\', 'é€😀', '\x01\x08\x0c\x1f\x7f', 'a\rb',
          'x' * 256]
FAULTS = [b'jump 1', b'replicas 3', b'reads full', b'votes 1 ask 1 put 1', b'join 0', b'join 65536', b'join 1 2', b'join one',
          b'send 1', b'send 1 15', b'deliver 4294967296', b'lose -1', b'repeat 99999999999999999999', b'invoke 1 read',
          b'invoke 1 read x y', b'invoke 1 read x/y', b'invoke 1 ask x', b'invoke 1 write ' + b'k' * 65,
          b'invoke 1 write x ' + b'v' * 257, b'stop 1', b'stop replica 99', b'start client 1', b'random 1 1000001',
          b'random 18446744073709551616 1', b'# \xff', b'invoke 1 write x \xc3', b'#' + b'x' * 65536, b'\xef\xbb\xbfjoin 1']


class Client:
    def __init__(self, name):
        self.name, self.state = name, 'idle'

    def invoke(self, call, key, is_write):
        self.state, self.call, self.key, self.is_write = 'ask', call, key, is_write
        self.counted, self.told = set(), []


class World:
    """What runs of scripts come to, but for the values: it tells the steps that will be taken."""

    def __init__(self, votes, ask, put, is_short, calls, flights):
        self.votes, self.ask, self.put, self.is_short = votes, ask, put, is_short
        self.most_calls, self.most_flights = calls, flights
        self.tags, self.up = [{} for _ in votes], [True] * len(votes)
        self.clients, self.flights = {}, {}     # by name; by number [message, copies]
        self.calls = self.sent = 0

    def state(self, name):
        return self.clients[name].state if name in self.clients else None

    def join(self, name):
        if name in self.clients:
            return False
        self.clients[name] = Client(name)
        return True

    def invoke(self, name, key, is_write):
        if self.state(name) != 'idle' or self.calls >= self.most_calls:
            return False
        self.clients[name].invoke(self.calls, key, is_write)
        self.calls += 1
        return True

    def post(self, message):
        self.flights[self.sent] = [message, 1]
        self.sent += 1
        return True

    def send(self, name, replica):
        if replica >= len(self.up) or self.state(name) not in ('ask', 'put') or self.sent >= self.most_flights:
            return False
        client = self.clients[name]
        tag = client.tag if client.state == 'put' else (0, 0)
        return self.post((client.state, name, client.call, replica, client.key, tag))

    def deliver(self, number):
        if number not in self.flights:
            return False
        kind, name, call, replica, key, tag = self.flights[number][0]
        if kind in ('ask', 'put'):
            if not self.up[replica] or self.sent >= self.most_flights:
                return False
            held = self.tags[replica][key] = max(tag, self.tags[replica].get(key, (0, 0)))
            self.post(('held' if kind == 'ask' else 'kept', name, call, replica, key, held))
        elif self.state(name) == 'stopped':
            return False
        elif (kind, self.state(name)) in (('held', 'ask'), ('kept', 'put')) and self.clients[name].call == call:
            self.hear(self.clients[name], replica, tag)
        return self.lose(number)

    def hear(self, client, replica, tag):
        if replica in client.counted:
            return
        client.counted.add(replica)
        votes = sum(self.votes[r] for r in client.counted)
        if client.state == 'put':
            client.state = 'ready' if votes >= self.put else 'put'
            return
        client.told.append(tag)
        if votes >= self.ask:
            found = max(client.told)
            agreed = self.is_short and not client.is_write and found == min(client.told) and votes >= self.put
            client.tag = (found[0] + 1, client.name) if client.is_write else found
            client.state, client.counted = 'ready' if agreed else 'put', set()

    def lose(self, number):
        if number not in self.flights:
            return False
        self.flights[number][1] -= 1
        if not self.flights[number][1]:
            del self.flights[number]
        return True

    def repeat(self, number):
        if number not in self.flights or self.flights[number][1] == 1000:
            return False
        self.flights[number][1] += 1
        return True

    def respond(self, name):
        if self.state(name) != 'ready':
            return False
        self.clients[name].state = 'idle'
        return True

    def stop_client(self, name):
        if self.state(name) in (None, 'stopped'):
            return False
        self.clients[name].state = 'stopped'
        return True

    def stop_replica(self, replica):
        return self.turn(replica, False)

    def start_replica(self, replica):
        return self.turn(replica, True)

    def turn(self, replica, is_up):
        if replica >= len(self.up) or self.up[replica] == is_up:
            return False
        self.up[replica] = is_up
        return True

    def candidates(self, counted):
        return [r for r, is_up in enumerate(self.up) if is_up and r not in counted]

    def needed(self, counted, votes):
        have, count = sum(self.votes[r] for r in counted), 0
        for replica in self.candidates(counted):
            if have < votes:
                have, count = have + self.votes[replica], count + 1
        return count

    def finish(self, name):
        if sum(self.votes[r] for r in self.candidates(())) < max(self.ask, self.put):
            return False
        if self.state(name) not in ('ask', 'put', 'ready'):
            return False
        client, rounds = self.clients[name], 0
        if client.state == 'ask':
            rounds = self.needed(client.counted, self.ask) + self.needed((), self.put)
        elif client.state == 'put':
            rounds = self.needed(client.counted, self.put)
        if self.most_flights - self.sent < 2 * rounds:
            return False
        while client.state != 'ready':
            first = self.sent
            self.send(name, self.candidates(client.counted)[0])
            self.deliver(first)
            self.deliver(first + 1)
        return self.respond(name)

    def random(self, seed, count):
        words, names = pcg(seed), list(self.clients) or [1]
        for _ in range(count):
            kind, second, third = next(words) % 16, next(words), next(words)
            name = names[second % len(names)]
            flight = self.sent - 1 - second % min(self.sent, 32) if self.sent else 0
            if kind < 2:
                (self.repeat if kind else self.lose)(flight)
            elif kind < 4:
                self.respond(name)
            elif kind < 6:
                self.invoke(name, 'k%d' % (third % 4), third // 4 % 2 == 1)
            elif kind < 10:
                self.send(name, third % len(self.up))
            else:
                self.deliver(flight)


def pcg(seed):
    """The words of PCG XSH RR 64/32 on stream 54."""
    state = seed + 109
    while True:
        state = (state * 6364136223846793005 + 109) % 2 ** 64
        word, turn = (state >> 18 ^ state) >> 27 & 0xffffffff, state >> 59
        yield (word >> turn | word << 32 - turn) & 0xffffffff


FORMS = {
    'join': 'join %d', 'send': 'send %d %d', 'deliver': 'deliver %d', 'lose': 'lose %d', 'repeat': 'repeat %d',
    'respond': 'respond %d', 'finish': 'finish %d', 'stop_client': 'stop client %d', 'stop_replica': 'stop replica %d',
    'start_replica': 'start replica %d', 'random': 'random %d %d',
}
WEIGHTS = {
    'join': 4, 'invoke': 20, 'send': 24, 'deliver': 36, 'lose': 2, 'repeat': 3, 'flood': 0.02, 'respond': 12, 'finish': 4,
    'stop_client': 0.3, 'stop_replica': 1.5, 'start_replica': 2.5, 'random': 0.5,
}


class Writer:
    """Draws commands that the world takes, but for some."""

    def __init__(self, draw, world):
        self.draw, self.world = draw, world
        self.names = draw.sample(range(1, 10), draw.randint(1, 4)) + draw.sample([65535, 300, 20000], draw.randint(0, 1))
        self.keys = draw.sample(KEYS, draw.randint(1, 3))

    def named(self, *states):
        return [(name,) for name in self.names if self.world.state(name) in states]

    def has_room(self):
        return self.world.sent < self.world.most_flights

    def idle(self):
        return self.named('idle') if self.world.calls < self.world.most_calls else []

    def sends(self):
        asking = [self.world.clients[name] for name, in self.named('ask', 'put')]
        return [(client.name, replica) for client in asking for replica in self.world.candidates(client.counted)
                if self.has_room()]

    def is_deliverable(self, number):
        kind, name, _, replica, _, _ = self.world.flights[number][0]
        if kind in ('ask', 'put'):
            return self.world.up[replica] and self.has_room()
        return self.world.state(name) != 'stopped'

    def lawful(self):
        """For each verb what it may be said of, as the world stands."""
        recent = sorted(self.world.flights)[-12:]
        flying = [(number,) for number in recent]
        deliverable = [(number,) for number in recent if self.is_deliverable(number)]
        up = [(replica,) for replica in self.world.candidates(())]
        down = [(replica,) for replica, is_up in enumerate(self.world.up) if not is_up]
        pending = self.named('ask', 'put', 'ready')
        seed = self.draw.choice([self.draw.randrange(100), self.draw.randrange(2 ** 64)])
        return {
            'join': self.named(None), 'invoke': self.idle(), 'send': self.sends(), 'deliver': deliverable, 'lose': flying,
            'repeat': flying, 'flood': flying, 'respond': self.named('ready'), 'finish': pending,
            'stop_client': self.named('idle') + pending, 'stop_replica': up, 'start_replica': down,
            'random': [(seed, count) for count in (0, 1, 10, 100, 1000)],
        }

    def wild(self):
        """For each verb what it may be said of in whatever world."""
        names = [(name,) for name in self.names + [77]]
        replicas = [(replica,) for replica in range(len(self.world.up) + 1)]
        flights = [(number,) for number in range(max(0, self.world.sent - 40), self.world.sent + 2)]
        of_names = dict.fromkeys(['join', 'invoke', 'respond', 'finish', 'stop_client'], names)
        of_flights = dict.fromkeys(['deliver', 'lose', 'repeat'], flights)
        sends = [name + replica for name in names for replica in replicas]
        return {**of_names, **of_flights, 'send': sends, 'stop_replica': replicas, 'start_replica': replicas}

    def weights(self):
        """Where few flights are left it is asked oftener whether a call has room, and where few replicas are up some start."""
        near = 0 < self.world.most_flights - self.world.sent < 4 * len(self.world.up)
        few = len(self.world.candidates(())) <= len(self.world.up) / 2
        return {**WEIGHTS, 'finish': 12 if near else WEIGHTS['finish'], 'start_replica': 20 if few else WEIGHTS['start_replica']}

    def command(self):
        choices = self.lawful() if self.draw.random() < 0.93 else self.wild()
        verbs = [verb for verb, places in choices.items() if places]
        weights = self.weights()
        verb = self.draw.choices(verbs, [weights[verb] for verb in verbs])[0]
        place = self.draw.choice(choices[verb])
        if verb == 'invoke':
            return self.invoke(*place)
        if verb == 'flood':
            return '\n'.join(self.said('repeat', place) for _ in range(1000))
        return self.said(verb, place)

    def said(self, verb, place):
        getattr(self.world, verb)(*place)
        return FORMS[verb] % place

    def invoke(self, name):
        key, value = self.draw.choice(self.keys), self.draw.choice(VALUES)
        is_write = self.draw.random() < 0.5
        self.world.invoke(name, key, is_write)
        if not is_write:
            return 'invoke %d read %s' % (name, key)
        return 'invoke %d write %s%s%s' % (name, key, ' ' if value else self.draw.choice(['', '\t', ' ']), value)


def configuration(draw):
    """The lines of a configuration, and its world."""
    count = draw.choice([1, 2, 3, 3, 3, 4, 5, 5, 6, 7])
    calls = draw.choice([1_000_000, 1_000_000, draw.randint(1, 30)])
    flights = draw.choice([4_000_000, 4_000_000, 4_000_000, draw.randint(1, 100)])
    lines = ['replicas %d' % count]
    if flights != 4_000_000:
        lines[0] += ' %d %d' % (calls, flights)
    elif calls != 1_000_000:
        lines[0] += ' %d' % calls
    votes, ask, put, mode = [1] * count, count // 2 + 1, count // 2 + 1, 'full'
    if draw.random() < 0.6:
        mode = draw.choice(['full', 'short', 'short'])
        lines.append('reads ' + mode)
    if draw.random() < 0.4:
        votes = [draw.choice([1, 1, 1, 2, 3, 9]) for _ in votes]
        ask = draw.randint(1, sum(votes))
        put = draw.randint(sum(votes) - ask + 1, sum(votes))
        lines.append('votes %s ask %d put %d' % (' '.join(map(str, votes)), ask, put))
    return lines, World(votes, ask, put, mode == 'short', calls, flights)


def disguised(draw, line):
    """The line, written otherwise at times."""
    if draw.random() < 0.9:
        return line
    if ' write ' not in line:
        line = draw.choice([' ', '\t', '  ', ' \t ']).join(line.split(' ')) + draw.choice(['', ' ', '\t'])
    line = draw.choice(['', ' ', '\t']) + line + draw.choice(['', '\r'])
    return draw.choice(['', '', '\n', ' \t\n', '# a comment\n', '\t#\r\n', '#\u00e9 join 1\n']) + line


def script(seed, count):
    draw = random.Random(seed)
    lines, world = configuration(draw)
    writer = Writer(draw, world)
    lines += [writer.command() for _ in range(count)]
    texts = [disguised(draw, line).encode() for line in lines]
    if draw.random() < 0.08:
        texts.insert(draw.randint(0, len(texts)), draw.choice(FAULTS))
    return b'\n'.join(texts) + draw.choice([b'\n'] * 11 + [b''])


def main():
    parser = argparse.ArgumentParser()
    parser.add_argument('--seed', type=int, required=True)
    parser.add_argument('--lines', type=int, default=100)
    args = parser.parse_args()
    sys.stdout.buffer.write(script(args.seed, args.lines))


if __name__ == '__main__':
    main()
