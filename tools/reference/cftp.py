#!/usr/bin/env python3
"""A plain second implementation of docs/TASKS.md, to get expected outputs from: cftp.py [--progress] [FILE].

It shares no code with the program. Nothing here is proved, and nothing in the gate runs it.
"""
import sys

MASK = 2**64 - 1


class Refused(Exception):
    pass


class Stop(Exception):
    pass


class Counter:
    depth = 2**40

    def __init__(self, seed):
        self.seed = seed

    def at(self, place):
        z = (self.seed + place * 0x9E3779B97F4A7C15) & MASK
        z = ((z ^ (z >> 30)) * 0xBF58476D1CE4E5B9) & MASK
        z = ((z ^ (z >> 27)) * 0x94D049BB133111EB) & MASK
        return z ^ (z >> 31)


class Recording:
    def __init__(self, data):
        if len(data) == 0 or len(data) > 8388608 or len(data) % 8:
            raise Refused(11, len(data))
        self.data = data
        self.depth = len(data) // 8

    def at(self, place):
        return int.from_bytes(self.data[8 * place - 8 : 8 * place], "big")


def word(source, place):
    if not 1 <= place <= source.depth:
        raise Refused(12, place, source.depth)
    return source.at(place)


class Grid:
    def __init__(self, rows, columns, cap, most):
        if not (1 <= rows <= 32 and 1 <= columns <= 32):
            raise Refused(1)
        if not 1 <= cap <= most:
            raise Refused(2)
        self.rows, self.columns, self.cap = rows, columns, cap
        self.n = rows * columns

    def neighbours(self, i):
        r, c = divmod(i, self.columns)
        for r2, c2 in ((r - 1, c), (r + 1, c), (r, c - 1), (r, c + 1)):
            if 0 <= r2 < self.rows and 0 <= c2 < self.columns:
                yield r2 * self.columns + c2


class Spins(Grid):
    code = 1

    def __init__(self, rows, columns, table):
        super().__init__(rows, columns, 1, 1)
        for i, t in enumerate(table):
            if t > 2**32:
                raise Refused(3, i)
            if i and t < table[i - 1]:
                raise Refused(4, i)
        self.table = table

    def bottom(self):
        return [0] * self.n

    def top(self):
        return [1] * self.n

    def move(self, x, site, level):
        s = sum(1 if x[j] else -1 for j in self.neighbours(site))
        x[site] = int(level < self.table[s + 4])


class Partitions(Grid):
    code = 2

    def __init__(self, rows, columns, cap):
        super().__init__(rows, columns, cap, 255)

    def bottom(self):
        return [0] * self.n

    def top(self):
        return [self.cap] * self.n

    def move(self, x, site, level):
        r, c = divmod(site, self.columns)
        if level < 2**31:
            before = []
            if r > 0:
                before.append(x[site - self.columns])
            if c > 0:
                before.append(x[site - 1])
            if x[site] < self.cap and all(h > x[site] for h in before):
                x[site] += 1
        else:
            after = []
            if r + 1 < self.rows:
                after.append(x[site + self.columns])
            if c + 1 < self.columns:
                after.append(x[site + 1])
            if x[site] > 0 and all(h < x[site] for h in after):
                x[site] -= 1


class Sets(Grid):
    code = 3

    def __init__(self, rows, columns):
        super().__init__(rows, columns, 1, 1)

    def bottom(self):
        return [(i // self.columns + i % self.columns) % 2 for i in range(self.n)]

    def top(self):
        return [1 - cell for cell in self.bottom()]

    def move(self, x, site, level):
        x[site] = int(level < 2**31 and not any(x[j] for j in self.neighbours(site)))


def split(w, n):
    return (w >> 32) * n >> 32, w & 0xFFFFFFFF


def number(text):
    if not text.isdigit() or not text.isascii() or int(text) > MASK:
        raise Stop("expected a number below 2^64")
    return int(text)


def numbers(words, n):
    if len(words) < n:
        raise Stop("expected a number below 2^64")
    out = [number(w) for w in words[:n]]
    if len(words) > n:
        raise Stop("expected the end of the line")
    return out


def hexed(words):
    if not words:
        raise Stop("expected bytes in hex, or -")
    w = words[0]
    if w != "-" and (len(w) % 2 or any(c not in "0123456789abcdefABCDEF" for c in w)):
        raise Stop("expected bytes in hex, or -")
    if len(words) > 1:
        raise Stop("expected the end of the line")
    return b"" if w == "-" else bytes.fromhex(w)


class Batch:
    def __init__(self, stretch):
        if not 1 <= stretch <= 2**20:
            raise Refused(21)
        self.stretch = stretch
        self.opened = self.met = self.given_up = 0
        self.stage = "idle"
        self.tried = 0  # the largest window tried on the draw that is out

    def number(self):
        """The number of the draw that is out."""
        return self.opened - 1


RULES = {"spins": 11, "partitions": 3, "sets": 2}
SOURCES = ("seed", "recording", "recording-file")
ONE_NUMBER = ("seed", "trace", "stretch", "try", "draws")
BARE = ("open", "run", "close", "give-up", "states", "tally")
DIRECTIVES = (*RULES, *SOURCES, *ONE_NUMBER, *BARE)
ONCE = (*RULES, *SOURCES, "stretch")  # a refusal of one of these ends the task


def arguments(name, rest, path):
    """A line is read whole before its place in the task matters."""
    if name not in DIRECTIVES:
        raise Stop("expected a directive")
    if name in RULES:
        return numbers(rest, RULES[name])
    if name in ONE_NUMBER:
        return numbers(rest, 1)[0]
    if name in BARE:
        return numbers(rest, 0)
    if name == "recording":
        return hexed(rest)
    if not rest:
        raise Stop("expected a path")
    return path


class Task:
    def __init__(self, progress):
        self.progress = progress
        self.rule = self.source = self.batch = None

    def allowed(self, name):
        stage = self.batch.stage if self.batch else None
        if name in RULES:
            return not self.rule
        if name in SOURCES:
            return self.rule and not self.source
        if name == "stretch":
            return self.source and not self.batch
        if name == "states":
            return self.rule
        if name == "trace":
            return self.source
        if name == "tally":
            return self.batch
        if name in ("open", "draws"):
            return stage == "idle"
        if name in ("try", "run", "give-up"):
            return stage == "open"
        return stage == "met"

    def carry_out(self, name, given):
        if not self.allowed(name):
            raise Stop("this directive is not allowed here")
        if name in RULES:
            self.set_rule(name, given)
        elif name in SOURCES:
            self.set_source(name, given)
        elif name == "trace":
            trace(self.rule, self.source, given)
        elif name == "stretch":
            self.batch = Batch(given)
            print("batch", given)
        elif name == "open":
            self.open()
        elif name == "try":
            self.attempt(given)
            self.say_outcome()
        elif name == "run":
            self.run()
        elif name == "close":
            self.close()
        elif name == "give-up":
            self.give_up()
        elif name == "draws":
            self.draws(given)
        elif name == "states":
            self.say_states()
        else:
            self.say_tally()

    def set_rule(self, name, given):
        if name == "spins":
            self.rule = Spins(given[0], given[1], given[2:])
        else:
            self.rule = (Partitions if name == "partitions" else Sets)(*given)
        self.low, self.high = self.rule.bottom(), self.rule.bottom()
        print("rule", self.rule.code, self.rule.rows, self.rule.columns, self.rule.cap)

    def set_source(self, name, given):
        if name == "seed":
            self.source = Counter(given)
        elif name == "recording":
            self.source = Recording(given)
        else:
            self.source = Recording(read(given))
        print("source", self.source.depth)

    def open(self):
        batch = self.batch
        if batch.opened == 2**20:
            raise Refused(22)
        batch.opened += 1
        batch.stage, batch.tried = "open", 0
        print("opened", batch.number())

    def attempt(self, window):
        """One window, or a refusal that leaves all as it was."""
        batch = self.batch
        if not 1 <= window <= batch.stretch:
            raise Refused(23)
        if window <= batch.tried:
            raise Refused(24)
        before = batch.number() * batch.stretch
        if before + window > self.source.depth:
            raise Refused(25, batch.number(), window, 12, before + window, self.source.depth)
        self.low, self.high = self.rule.bottom(), self.rule.top()
        for place in range(window, 0, -1):
            site, level = split(word(self.source, before + place), self.rule.n)
            self.rule.move(self.low, site, level)
            self.rule.move(self.high, site, level)
        batch.tried = window
        if self.low == self.high:
            batch.stage = "met"

    def run(self):
        batch = self.batch
        if batch.tried == batch.stretch:
            raise Refused(24)
        windows = [2**k for k in range(20) if 2**k < batch.stretch] + [batch.stretch]
        for window in windows:
            if window > batch.tried:
                self.attempt(window)
                if batch.stage == "met":
                    break
        self.say_outcome()

    def close(self):
        self.batch.met += 1
        self.batch.stage = "idle"
        print("closed", self.batch.number())

    def give_up(self):
        self.batch.given_up += 1
        self.batch.stage = "idle"
        print("given up", self.batch.number())

    def end_draw(self):
        """Closes the draw that is out, if it met, or else gives it up."""
        if self.batch.stage == "met":
            self.close()
        elif self.batch.stage == "open":
            self.give_up()

    def draws(self, count):
        try:
            for done in range(1, count + 1):
                self.open()
                try:
                    self.run()
                except Refused as r:
                    print("refused", *r.args)
                self.end_draw()
                if self.progress:
                    print(f"\r{done} of {count} draws", end="", file=sys.stderr, flush=True)
        finally:
            if self.progress:
                print(file=sys.stderr)

    def say_outcome(self):
        batch = self.batch
        if batch.stage == "met":
            print("met", batch.number(), batch.tried)
            print("state", *self.low)
        else:
            print("apart", batch.number(), batch.tried)
            self.say_states()

    def say_states(self):
        print("low", *self.low)
        print("high", *self.high)

    def say_tally(self):
        print("tally", self.batch.opened, self.batch.met, self.batch.given_up)

    def end(self):
        if self.batch:
            self.end_draw()
            self.say_tally()


def trace(rule, source, back):
    word(source, back)
    x = rule.bottom()
    for place in range(back, 0, -1):
        w = word(source, place)
        site, level = split(w, rule.n)
        rule.move(x, site, level)
        print(f"place {place} word {w:016x} site {site} level {level}")
        print("state", *x)


def read(path):
    try:
        path.encode()
    except UnicodeEncodeError:
        raise Stop("the path is not valid UTF-8")
    with open(path, "rb") as file:
        return file.read()


def perform(text, task):
    """Carries out the lines. The answer is what went wrong, if anything did."""
    for count, row in enumerate(text.split("\n"), 1):
        stripped = row.strip(" \t\r")
        words = [w for w in stripped.replace("\t", " ").replace("\r", " ").split(" ") if w]
        if not words or words[0].startswith("#"):
            continue
        name, rest = words[0], words[1:]
        try:
            task.carry_out(name, arguments(name, rest, stripped[len(name) :].strip(" \t\r")))
        except Refused as r:
            print("refused", *r.args)
            if name in ONCE:
                return None
        except Stop as s:
            return f"line {count}: {s}"
        except OSError as e:
            return f"line {count}: {e.strerror} (os error {e.errno})"
    return None


def main():
    words = sys.argv[1:]
    progress = words[:1] == ["--progress"]
    paths = words[1:] if progress else words
    text = read(paths[0]) if paths else sys.stdin.buffer.read()
    task = Task(progress)
    wrong = perform(text.decode(errors="surrogateescape"), task)
    task.end()
    if wrong:
        print(wrong, file=sys.stderr)
    return 1 if wrong else 0


if __name__ == "__main__":
    sys.exit(main())
