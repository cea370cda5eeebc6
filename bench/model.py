# A slow, simple model of what `tally` prints, written from the rules alone.
# lines(data) gives one line for each frame of `data`, up to and with a fault.
import sys

LENGTH = 24


class Fault(Exception):
    pass


def field(frame, at, size):
    return int.from_bytes(frame[at:at + size], "little")


def frame_fault(frame):
    """The place of the first broken field, or None."""
    flags = frame[8]
    switch, interval_present = flags >> 1 & 1, flags >> 2 & 1
    active, released = flags & 1, flags >> 3 & 1
    tick, time, interval = field(frame, 12, 4), field(frame, 16, 4), field(frame, 20, 4)
    checks = [
        (0, field(frame, 0, 2) == 24),
        (2, field(frame, 2, 2) == 1),
        (4, frame[4] in (1, 2)),
        (5, 1 <= frame[5] <= 127),
        (6, 1 <= field(frame, 6, 2) <= 10_000),
        (8, flags < 16 and not (interval_present and not switch) and not (released and active)),
        (9, frame[9] in (1, 2)),
        (10, field(frame, 10, 2) == 0),
        (12, tick <= 2_000_000_000),
        (20, (interval != 0) == (interval_present == 1)),
        (20, time + interval <= tick),
    ]
    return next((place for place, right in checks if not right), None)


class Account:
    def __init__(self):
        self.last = 0
        self.current = 1
        self.ticks = {tariff: 0 for tariff in range(1, 17)}

    def become(self, ticks):
        if ticks < self.ticks[self.current]:
            raise Fault(16)
        self.ticks[self.current] = ticks

    def read(self, frame):
        switch, interval_present = frame[8] >> 1 & 1, frame[8] >> 2 & 1
        time, interval = field(frame, 16, 4), field(frame, 20, 4)
        if not switch:
            if self.current != 1:
                raise Fault(16)
        elif interval_present:
            self.become(interval)
            if self.current == 16:
                raise Fault(16)
            self.current += 1
        elif self.current == 1:
            if self.ticks[1] != 0:
                raise Fault(16)
            self.current = 2
        self.become(time)
        self.last = field(frame, 6, 2)

    def text(self):
        return " ".join(f"{t}:{self.ticks[t]}" for t in range(1, self.current + 1))


def step(accounts, frame):
    """Reads a right frame into the open accounts; gives its line."""
    address, number = (frame[4], frame[5]), field(frame, 6, 2)
    active = frame[8] & 1
    if address in accounts:
        account = accounts[address]
        if number == account.last:
            return f"{address[0]}.{address[1]} #{number} repeat {account.text()}"
        if number != account.last + 1:
            raise Fault(16)
        account.read(frame)
    else:
        if number != 1:
            raise Fault(16)
        account = Account()
        account.read(frame)
        if len(accounts) == 16:
            raise Fault(17)
        accounts[address] = account
    if not active:
        del accounts[address]
    state = "open" if active else "closed"
    return f"{address[0]}.{address[1]} #{number} {state} {account.text()}"


def lines(data):
    accounts, told = {}, []
    for start in range(0, len(data), LENGTH):
        frame = data[start:start + LENGTH]
        if len(frame) < LENGTH:
            return told + [f"fault frame 15 {len(data)}"]
        place = frame_fault(frame)
        if place is not None:
            return told + [f"fault frame 15 {start + place}"]
        try:
            told.append(step(accounts, frame))
        except Fault as fault:
            return told + [f"fault account {fault.args[0]} {start}"]
    return told


def output(data):
    return "".join(line + "\n" for line in lines(data)).encode()


if __name__ == "__main__":
    sys.stdout.buffer.write(output(sys.stdin.buffer.read()))
