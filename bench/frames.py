#!/usr/bin/env python3
# Writes N lawful report frames (a million unless told) to standard output or a file:
# sixteen addresses, accounts of 1 to 10,000 reports and 1 to 16 tariffs, switches with
# and without interval, repeats, closings and reopenings. The same N and seed give the same bytes.
import argparse
import struct
import sys

FRAME = struct.Struct("<HHBBHBBHIII")
ADDRESSES = [(kind, number) for kind in (1, 2) for number in (1, 2, 9, 10, 64, 99, 100, 127)]
TICK_LIMIT, NUMBER_LIMIT, TARIFFS = 2_000_000_000, 10_000, 16
ACTIVE, SWITCH, INTERVAL, RELEASED = 1, 2, 4, 8


class Chance:
    """A fixed 64-bit linear congruential generator; its upper bits are given out."""

    def __init__(self, seed):
        self.state = (seed * 2 + 1) * 0x9E3779B97F4A7C15 & (1 << 64) - 1

    def unit(self):
        self.state = self.state * 6364136223846793005 + 1442695040888963407 & (1 << 64) - 1
        return (self.state >> 11) / (1 << 53)

    def below(self, limit):
        return int(self.unit() * limit)


class Account:
    def __init__(self, chance, life):
        self.number = 0
        self.current = 1
        self.ticks = [0] * (TARIFFS + 1)
        self.elapsed = 0
        self.life = life or int(10 ** (4 * chance.unit()))
        self.switching = 24 * chance.unit() / self.life
        self.stride = 10 ** (1 + 5 * chance.unit())

    def next_frame(self, chance, address):
        """One more lawful report, read into the account."""
        self.number += 1
        room = TICK_LIMIT - self.elapsed
        pace = min(int(self.stride * chance.unit()), room)
        flags, interval = 0, 0
        if self.current < TARIFFS and chance.unit() < self.switching:
            flags = SWITCH
            if self.current == 1 and self.ticks[1] == 0 and chance.unit() < 0.5:
                self.current = 2
            elif self.ticks[self.current] + pace > 0:
                flags |= INTERVAL
                self.elapsed += pace
                self.ticks[self.current] += pace
                interval = self.ticks[self.current]
                self.current += 1
                pace = min(pace >> 1, TICK_LIMIT - self.elapsed)
            elif self.current == 1:
                flags = 0
        elif self.current > 1:
            flags = SWITCH
        self.elapsed += pace
        self.ticks[self.current] += pace
        if self.number < min(self.life, NUMBER_LIMIT):
            flags |= ACTIVE
        elif chance.unit() < 0.5:
            flags |= RELEASED
        self.last = FRAME.pack(24, 1, *address, self.number, flags, 1 + chance.below(2), 0,
                               self.elapsed, self.ticks[self.current], interval)
        return self.last, flags & ACTIVE


def frames(count, seed, life=None, addresses=ADDRESSES):
    """Yields `count` frames; `life` fixes the number of reports of every account."""
    chance, accounts = Chance(seed), {}
    for _ in range(count):
        address = addresses[chance.below(len(addresses))]
        account = accounts.get(address)
        if account and chance.unit() < 0.06:
            yield account.last
            continue
        if not account:
            account = accounts[address] = Account(chance, life)
        frame, active = account.next_frame(chance, address)
        if not active:
            del accounts[address]
        yield frame


if __name__ == "__main__":
    options = argparse.ArgumentParser()
    options.add_argument("-n", type=int, default=1_000_000, help="how many frames")
    options.add_argument("-s", type=int, default=1, help="seed")
    options.add_argument("-o", help="file to write (standard output unless given)")
    options = options.parse_args()
    with open(options.o, "wb") if options.o else sys.stdout.buffer as out:
        out.writelines(frames(options.n, options.s))
