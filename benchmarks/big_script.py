"""big_script.py --load random|pairs [--steps N]

Prints the script of a load for `abd simulate`, to be timed:
  random  5 replicas, 4 clients and 1,000,000 random steps
  pairs   3 replicas and one client whose 100,000 calls, a write and a read in turn,
          are each finished before the next
--steps N is the number of random steps, or of calls.
"""
import argparse
import sys


def random_load(steps):
    yield 'replicas 5\n'
    for client in range(1, 5):
        yield 'join %d\n' % client
    yield 'random 1 %d\n' % steps


def pairs_load(calls):
    yield 'replicas 3\njoin 1\n'
    for call in range(calls):
        yield 'invoke 1 read x\nfinish 1\n' if call % 2 else 'invoke 1 write x v%d\nfinish 1\n' % call


def main():
    loads = {'random': (random_load, 1_000_000), 'pairs': (pairs_load, 100_000)}
    parser = argparse.ArgumentParser()
    parser.add_argument('--load', choices=sorted(loads), required=True)
    parser.add_argument('--steps', type=int)
    args = parser.parse_args()
    make, default = loads[args.load]
    sys.stdout.writelines(make(default if args.steps is None else args.steps))


if __name__ == '__main__':
    main()
