#!/usr/bin/env python3
"""A plain model of a store over four devices, which makes the lives in data/ and plays those that were written by hand.

    ./model.py          writes the lives that are made at random, each file from its own seed
    ./model.py check    says which of these files are not as the model makes them, and which answers of the rows by hand differ

It knows the bytes of logs and slots and the order of the device calls, and uses no code of this repository. What stands on a
device, where the groups of a log end and which slot counts it reads anew from the bytes, whenever a job is to begin.
"""
import random
import sys

LAST = 2**64 - 1
STOP = 7  # a group ends before an entry of so many bytes


class Device:
    """A device that makes its writes sure at a sync. It fails at the calls of these numbers, from 1."""

    def __init__(self, now=b"", failing=()):
        self.now, self.failing, self.made = now, failing, 0
        self.settle()

    def settle(self):
        self.sure, self.log, self.touched = self.now, [], set()
        self.least = self.most = len(self.now)

    def call(self, kind, *what):
        """Makes a call. One that fails leaves what is read as it was; any part of it may be there after a crash."""
        self.made += 1
        is_failing = self.made in self.failing
        if kind == "sync":
            if not is_failing:
                self.settle()
        elif kind == "cut":
            self.least = min(self.least, what[0])
            if not is_failing:
                self.now = self.now[: what[0]]
        else:
            at, data = what
            self.touched |= set(range(at, at + len(data)))
            self.most = max(self.most, at + len(data))
            if not is_failing:
                self.now = put(self.now, at, data)
        if kind != "sync":
            self.log.append((kind, *what))
        return not is_failing

    def image(self, draw):
        """Some bytes that a crash now may leave."""
        form = draw.randrange(8)
        if form == 0 or not self.log:
            return self.sure
        if form == 1:
            return self.now
        # so many of the writes since the last sync, and a front of the next one
        count = draw.randrange(len(self.log))
        image = self.sure
        for kind, *what in self.log[:count]:
            image = image[: what[0]] if kind == "cut" else put(image, *what)
        kind, *what = self.log[count]
        if kind == "write":
            image = put(image, what[0], what[1][: draw.randint(0, len(what[1]))])
        if form < 5:
            return image
        # any bytes where the writes are, and past the least length, up to the greatest
        length = draw.randint(self.least, self.most)
        image = bytearray(put(image, len(image), bytes(max(0, length - len(image))))[:length])
        free = [i for i in range(length) if i in self.touched or i >= self.least]
        for i in draw.sample(free, min(len(free), draw.randint(1, 4))):
            image[i] = draw.choice([0, 1, 1, 7, 255, draw.randrange(256)])
        return bytes(image)


def put(old, at, data):
    assert at <= len(old)
    return old[:at] + data + old[at + len(data) :]


def number(value, size):
    return value.to_bytes(size, "big")


def payload(entries):
    return number(len(entries), 8) + b"".join(number(len(it), 4) + it for it in entries)


def body(entries):
    """A group behind its gate: length and payload."""
    return number(len(payload(entries)), 8) + payload(entries)


def group_at(log, at):
    """The entries of the group at an index, and where it ends; None where there is no whole one."""
    size = int.from_bytes(log[at + 1 : at + 9], "big")
    data = log[at + 9 : at + 9 + size]
    if log[at : at + 1] != b"\1" or len(log) < at + 9 or len(data) < size or size < 8:
        return None
    entries, left = [], data[8:]
    for _ in range(int.from_bytes(data[:8], "big")):
        length = int.from_bytes(left[:4], "big")
        if len(left) < 4 + length:
            return None
        entries.append(left[4 : 4 + length])
        left = left[4 + length :]
    return None if left else (entries, at + 9 + size)


def read_log(log):
    """The entries of a log, and the index at which its groups end."""
    entries, at = [], 0
    while found := group_at(log, at):
        entries, at = entries + found[0], found[1]
    return entries, at


def read_slot(slot, side):
    """The generation and the snapshot of a slot that counts, else None."""
    generation, size = int.from_bytes(slot[1:9], "big"), int.from_bytes(slot[9:13], "big")
    is_whole = len(slot) >= 13 + size
    if slot[:1] != b"\1" or not is_whole or generation == 0 or generation % 2 != side:
        return None
    return generation, slot[13 : 13 + size]


def newest(devices):
    counting = [it for it in (read_slot(devices[2 + side].now, side) for side in (0, 1)) if it]
    return max(counting, default=(0, None))


def stops(entry):
    return len(entry) == STOP


def makes(entry, place):
    """Whether an entry of a book decides or installs a place."""
    at = {6: 5, 7: 1}.get(entry[0])
    return at is not None and entry[at : at + 8] == number(place, 8)


def cut(place, book):
    """What is kept of a book beside a checkpoint: the first opening, the greatest promise before the entry that makes the place,
    the first beginning of that regency, and all from that entry on."""
    upto = next((i for i, it in enumerate(book) if makes(it, place)), None)
    if place == 0 or upto is None:
        return book
    before = book[:upto]
    kept = [it for it in before if it[0] == 1][:1]
    promises = [it for it in before if it[0] == 4]
    if promises:
        greatest = max(promises, key=lambda it: it[1:9])
        kept += [greatest, *[it for it in before if it[0] == 5 and it[1:9] == greatest[1:9]][:1]]
    return kept + book[upto:]


def tail_of(words):
    """A tail: the number of its last entry that was made, and its entries, or the book of which they are the cut."""
    made, words = int(words[0]) if words else 0, words[1:]
    if words[:1] == ["cut"]:
        return made, cut(int(words[1]), [bytes_of(it) for it in words[2:]])
    return made, [bytes_of(it) for it in words]


class Model:
    """Four devices, and the store or the slots that are open over them, if any are."""

    def __init__(self):
        self.devices = [Device() for _ in range(4)]
        self.is_up = self.is_closed = False

    # what a store answers

    def state(self):
        flags = ["due"] * self.is_due() + ["tail"] * self.wants_tail() + ["runs"] * bool(self.running)
        return " ".join([str(self.firm), str(self.generation), *flags])

    def wants_tail(self):
        return bool(self.running) and self.running[0][1] == "tail"

    def is_due(self):
        return bool(self.running) or self.job() is not None

    def open(self):
        self.generation, snapshot = newest(self.devices)
        entries, _ = read_log(self.devices[self.generation % 2].now)
        self.book, self.restored = list(entries), len(entries)
        self.firm, self.waiting = len(entries), []
        self.running, self.asked, self.end = [], None, lambda: None
        self.is_up, self.is_closed = True, False
        return " ".join([str(self.generation), "none" if snapshot is None else spelled(snapshot), *map(spelled, entries)])

    # the jobs

    def job(self):
        """The first job that applies: its calls, and what its end does."""
        for slot in (2, 3):
            now = self.devices[slot].now
            if read_slot(now, slot - 2) is None and now[:1] not in (b"", b"\0"):
                return [(slot, "write", 0, b"\0"), (slot, "sync")], lambda: None
        log = self.generation % 2
        _, at = read_log(self.devices[log].now)
        if self.devices[log].now[at : at + 1] != b"\0":
            return [(log, "write", at, b"\0"), (log, "sync")], lambda: None
        if self.asked is not None and self.generation < LAST:
            return self.switch_job()
        count = next((i for i, it in enumerate(self.waiting) if stops(it)), len(self.waiting))
        if count:
            return self.group_job(log, at, count)
        return None

    def group_job(self, log, at, count):
        calls = [(log, "write", at + 1, body(self.waiting[:count]) + b"\0"), (log, "sync")]
        calls += [(log, "write", at, b"\1"), (log, "sync")]

        def begin():
            self.waiting = self.waiting[count:]

        def end():
            self.firm += count

        return calls, end, begin

    def switch_job(self):
        generation, snapshot = self.generation + 1, self.asked
        log, slot = generation % 2, 2 + generation % 2
        calls = []
        if self.devices[slot].now[:1] != b"\0":
            calls += [(slot, "write", 0, b"\0"), (slot, "sync")]
        calls += [(slot, "write", 1, number(generation, 8) + number(len(snapshot), 4) + snapshot), (slot, "sync")]
        calls += [(log, "cut", 0), (log, "tail"), (log, "sync")]
        calls += [(slot, "write", 0, b"\1"), (slot, "sync")]

        def begin():
            self.asked = None

        def end():
            firm = max(self.firm, self.restored + self.made)
            self.waiting = self.waiting[firm - self.firm :]
            self.firm, self.generation = firm, generation

        return calls, end, begin

    # the calls of a store

    def start(self, entries):
        if self.is_closed:
            return "closed"
        self.waiting, self.book = self.waiting + entries, self.book + entries
        return "ok"

    def ask(self, snapshot):
        if self.is_closed:
            return "closed"
        self.asked = snapshot
        return "ok"

    def call(self, made, tail):
        if self.is_closed:
            return "closed"
        if not self.running:
            job = self.job()
            if job is None:
                return "done"
            self.running, self.end, *begin = job
            for it in begin:
                it()
        device, kind, *what = self.running[0]
        if kind == "tail":
            self.made = made
            kind, what = "write", [0, b"\1" + body(tail) + b"\0"]
            self.running[0] = (device, kind, *what)
        if not self.devices[device].call(kind, *what):
            self.is_closed = True
            return "failed"
        self.running = self.running[1:]
        if self.running:
            return "more"
        self.end()
        return "done"

    def calls(self, is_to_go, made, tail):
        while is_to_go():
            answer = self.call(made, tail)
            if answer in ("failed", "closed"):
                return answer
        return "closed" if self.is_closed else "ok"

    def is_plain(self):
        """Whether no job runs and no switch waits."""
        return not self.running and self.asked is None

    # the calls of the two slots

    def slot_calls(self, generation, *calls):
        slot = 2 + generation % 2
        for it in calls:
            if self.is_closed:
                return "closed"
            if not self.devices[slot].call(*it):
                self.is_closed = True
                return "failed"
        return "ok"

    # the steps of a life

    def play(self, step):
        """The answer to a step; None where it has none."""
        verb, *words = step.split()
        if verb == "put":
            self.devices[int(words[0])] = Device(bytes_of(words[1]), tuple(map(int, words[2:])))
            return None
        if verb == "crash":
            images = [self.image_of(it, word) for it, word in zip(self.devices, words)]
            self.devices = [Device(it) for it in images]
            self.is_up = False
            return None
        if verb in ("open", "slots"):
            told = self.open()
            return f"{told}, {self.state()}" if verb == "open" else " ".join(told.split()[:2])
        if verb == "sum":
            return str(self.sum())
        if verb == "reads":
            return f"{words[0]} {spelled(self.devices[int(words[0])].now)}"
        if verb == "decide":
            self.decide(*step.split(" | "))
            return f"{self.state()}, {len(self.devices[self.generation % 2].now)}"
        if verb == "newest":
            if self.is_closed:
                return "closed"
            generation, snapshot = newest(self.devices)
            return f"{generation} " + ("none" if snapshot is None else spelled(snapshot))
        if verb == "close":
            return self.slot_calls(int(words[0]), ("write", 0, b"\0"), ("sync",))
        if verb == "fill":
            generation, snapshot = int(words[0]), bytes_of(words[1])
            return self.slot_calls(generation, ("write", 1, number(generation, 8) + number(len(snapshot), 4) + snapshot), ("sync",))
        if verb == "gate":
            return self.slot_calls(int(words[0]), ("write", 0, b"\1"), ("sync",))
        return f"{self.answer(verb, words)} {self.state()}"

    def answer(self, verb, words):
        if verb == "start":
            return self.start([bytes_of(it) for it in words])
        if verb == "ask":
            return self.ask(bytes_of(words[0]))
        if verb == "call":
            return self.call(*tail_of(words))
        assert self.is_plain() or self.is_closed and verb == "append"
        if verb == "append":
            answer = self.start([bytes_of(it) for it in words])
            return answer if answer != "ok" else self.calls(self.is_due, 0, [])
        assert verb == "switch"
        tail, generation = tail_of(words[1:]), self.generation + 1
        answer = self.ask(bytes_of(words[0]))
        return answer if answer != "ok" else self.calls(lambda: self.generation != generation, *tail)

    def decide(self, head, first, each, mark):
        """Makes a book's entries firm, those of each place and of the marks, and switches at the end of each period."""
        last, period = map(int, head.split()[1:])
        book = []

        def add(words, place):
            added = words.replace("@", f"{place:016x}").split()
            book.extend(added)
            self.answer("append", added)

        add(first, 0)
        for place in range(1, last + 1):
            add(each, place)
            if place % period == 0:
                add(mark, place)
                self.answer("switch", ["-", str(self.firm), "cut", str(place), *book])

    def sum(self):
        """One number of all that the devices hold, and held at their last syncs."""
        total = 0
        for device in self.devices:
            for data in (device.now, device.sure):
                for byte in data:
                    total = (total * 257 + byte + 1) % 2**32
                total = total * 257 % 2**32
        return total

    @staticmethod
    def image_of(device, word):
        image = b""
        for piece in word.split(","):
            if piece[0] in "rs":
                start, _, end = piece[1:].partition("-")
                image += (device.now if piece[0] == "r" else device.sure)[int(start) : int(end)]
            else:
                image += bytes_of(piece)
        return image


def spelled(data):
    return data.hex() or "-"


def bytes_of(word):
    return b"" if word == "-" else bytes.fromhex(word)


def pieces(device, image):
    """The word of an image: parts as read, parts as at the last sync, and bytes."""
    words, at = [], 0
    while at < len(image):
        runs = []
        for letter, data in (("r", device.now), ("s", device.sure)):
            size = 0
            while at + size < min(len(image), len(data)) and image[at + size] == data[at + size]:
                size += 1
            runs.append((size, letter))
        size, letter = max(runs)
        if size < 3:
            size, letter = max(size, 1), ""
        if letter:
            words.append(f"{letter}{at}-{at + size}")
        elif words and words[-1][0] not in "rs":
            words[-1] += image[at : at + size].hex()
        else:
            words.append(image[at : at + size].hex())
        at += size
    return ",".join(words) or "-"


class Maker:
    """Makes lives at random. The weights say how often each step comes."""

    def __init__(self, seed, weights):
        self.draw, self.weights, self.lines = random.Random(seed), weights, []

    def step(self, step):
        answer = self.model.play(step)
        self.lines.append(step if answer is None else f"{step} = {answer}")
        return answer

    def blob(self):
        size = self.draw.choice([0, 1, 1, 2, 3, 5, 8, 9, 20, self.draw.randrange(300) if self.draw.random() < 0.2 else 13])
        return self.draw.randbytes(size)

    def entry(self):
        if self.draw.random() < self.weights["stop"]:
            return self.draw.randbytes(STOP)
        return self.blob()

    def entries(self, least=1):
        return [self.entry() for _ in range(self.draw.choice([least, 1, 1, 2, 3]))]

    def tail(self):
        """A tail, and the number of its last entry that was made: to the end of the book, or to the first that waits."""
        model = self.model
        upto = len(model.book)
        waits = [i for i in range(model.firm, upto) if stops(model.book[i])]
        if waits and self.draw.random() < 0.5:
            upto = waits[0]
        begin = self.draw.randint(max(0, upto - 6), upto)
        made = max(0, upto - model.restored) if begin < upto else 0
        return " ".join([str(made), *map(spelled, model.book[begin:upto])])

    def crash(self):
        words = []
        for device in self.model.devices:
            words.append(pieces(device, device.image(self.draw)))
        self.step("crash " + " ".join(words))
        self.step("open")

    def live(self, name, steps):
        self.model = Model()
        self.lines += ["", f"life {name}"]
        for device in range(4):
            if self.draw.random() < self.weights["put"]:
                data = self.draw.randbytes(1)[:1] if self.draw.random() < 0.3 else self.start_bytes(device)
                fails = sorted(self.draw.sample(range(1, 12), 1)) if self.draw.random() < self.weights["fail"] else []
                self.step(" ".join(["put", str(device), spelled(data), *map(str, fails)]))
        self.step("open")
        for _ in range(steps):
            self.random_step()
        self.crash()

    def start_bytes(self, device):
        """Bytes with which a device begins: a log or a slot, whole or not."""
        draw = self.draw
        if device < 2:
            data = b"".join(bytes([draw.choice([1, 1, 1, 1, 7])]) + body(self.entries(0)) for _ in range(draw.randrange(3)))
            data += bytes(draw.randrange(2))
        else:
            snapshot = self.blob()
            generation = draw.choice([0, device % 2, device % 2 + 2, device % 2 + 4, 3])
            data = bytes([draw.choice([1, 1, 1, 1, 0, 7])]) + number(generation, 8) + number(len(snapshot), 4) + snapshot + bytes(draw.randrange(2))
        if data and draw.random() < 0.4:
            at = draw.randrange(len(data))
            data = data[:at] if draw.random() < 0.5 else put(data, at, draw.randbytes(1))
        return data

    def random_step(self):
        model, weights = self.model, dict(self.weights)
        if not model.is_due():
            weights["call"] = 1
        if not model.is_plain():
            weights["switch"] = 0
            weights["append"] *= model.is_closed
        if model.generation == LAST:
            weights["ask"] = weights["switch"] = 0
        steps = ["start", "ask", "call", "append", "switch", "crash"]
        getattr(self, self.draw.choices(steps, [weights[it] for it in steps])[0])()

    def start(self):
        self.step(" ".join(["start", *map(spelled, self.entries())]))

    def ask(self):
        self.step("ask " + spelled(self.blob()))

    def append(self):
        self.step(" ".join(["append", *map(spelled, self.entries())]))
        self.step("sum")

    def switch(self):
        self.step(f"switch {spelled(self.blob())} {self.tail()}")
        self.step("sum")

    def call(self):
        """Some calls, up to a crash after one that is not sure."""
        model, draw = self.model, self.draw
        for _ in range(draw.choice([1, 2, 3, 5, 8]) if model.is_due() else 1):
            if model.wants_tail() and draw.random() < 0.5:
                self.start()
            gives = model.wants_tail() or draw.random() < 0.04
            self.step("call " + self.tail() if gives else "call")
            # a gate is one byte
            gates = [len(what[-1]) == 1 for it in model.devices for kind, *what in it.log if kind == "write"]
            weight = self.weights["torn"] * (2 if any(gates) else 1)
            if any(it.log for it in model.devices) and draw.random() < weight:
                self.step("sum")
                return self.crash()
        self.step("sum")


GROUPS = {"start": 6, "ask": 0, "call": 12, "append": 1, "switch": 0, "crash": 0.5, "torn": 0.2, "put": 0, "fail": 0, "stop": 0.15}
SWITCHES = {"start": 8, "ask": 4, "call": 14, "append": 1, "switch": 1, "crash": 0.4, "torn": 0.15, "put": 0, "fail": 0, "stop": 0.15}
OPENINGS = {"start": 1, "ask": 1, "call": 3, "append": 1, "switch": 1, "crash": 0.5, "torn": 0.2, "put": 0.8, "fail": 0, "stop": 0.1}
FAILURES = {"start": 3, "ask": 3, "call": 10, "append": 1, "switch": 1, "crash": 1, "torn": 0, "put": 0.6, "fail": 0.7, "stop": 0.1}

# a file: its seed, the number of its lives, the steps of each, and what it is about
FILES = {
    "groups": (220, 7, 13, GROUPS, "groups of entries, and crashes"),
    "switches": (59, 10, 16, SWITCHES, "switches among groups of entries, and crashes"),
    "openings": (24, 20, 2, OPENINGS, "stores over bytes that no store has left"),
    "failures": (23, 10, 6, FAILURES, "devices that fail"),
}

# the files that were written by hand
ROWS = ["rows", "faults", "promises", "lengths"]


def made(name):
    seed, lives, steps, weights, about = FILES[name]
    maker = Maker(seed, weights)
    for i in range(1, lives + 1):
        maker.live(f"{name} {i}", steps)
    head = [f"# Lives made at random: {about}.", "# model.py makes this file."]
    return "\n".join([*head, *maker.lines, ""])


def differences(name, text):
    """Where the model answers otherwise than a file that was written by hand."""
    model, names, said = None, [], open("stdout").read().split("\n")
    for number, line in enumerate(text.split("\n"), 1):
        if line.startswith("life "):
            model = Model()
        elif line.startswith("let "):
            names.append(line.split(" ", 2)[1:])
        elif line and not line.startswith("#"):
            for word, words in reversed(names):
                line = line.replace(word, words)
            step, _, wanted = line.partition(" = ")
            told = model.play(step)
            if wanted == "?":
                if f"{name}.lives, line {number}: {told}" not in said:
                    yield f"{name}.lives, line {number}: {told} is not in stdout"
            elif (told or "") != wanted:
                yield f"{name}.lives, line {number}: {told} in place of {wanted}"


def main():
    if sys.argv[1:] == ["check"]:
        said = [f"{it}.lives is not as the model makes it" for it in FILES if open(f"data/{it}.lives").read() != made(it)]
        for name in ROWS:
            said += differences(name, open(f"data/{name}.lives").read())
        print(*(said or ["all is as the model says"]), sep="\n")
        return
    for name in FILES:
        with open(f"data/{name}.lives", "w") as file:
            file.write(made(name))


main()
