#!/usr/bin/env python3
"""Makes the tables in data/. Run it in crates/tables: `./rows.py` writes them, and `./rows.py check` compares them.

Nothing of the repository's code or definitions is used. The reader below finds where a spelling is faulty. Tags and digests
are those of Python's library. What votes, marks, reports and books come to is written by hand, row by row.
"""
import hashlib, hmac, math, sys, textwrap

FINE = "fine"
LAST_PLACE = 2**63 - 1


class Fault(Exception):
    """The offset of the first field that cannot be read, or is out of its range."""


class Reader:
    """Passes over bytes field by field."""

    def __init__(self, data, most=None):
        self.data, self.at, self.end = data, 0, min(len(data), most or len(data))

    def number(self, width, least=0, most=2**64):
        if self.end - self.at < width:
            raise Fault(self.at)
        number = int.from_bytes(self.data[self.at:self.at + width], "big")
        if not least <= number <= most:
            raise Fault(self.at)
        self.at += width
        return number

    def text(self, width, least=0, most=2**64):
        at = self.at
        length = self.number(width, least, most)
        if self.end - self.at < length:
            raise Fault(at)
        self.at += length

    def digest(self):
        if self.end - self.at < 32:
            raise Fault(self.at)
        self.at += 32

    def place(self):
        self.number(8, 1, LAST_PLACE)

    def slot(self):
        self.number(4)
        self.place()
        self.number(4)

    def optional(self, read):
        if self.number(1, 0, 1) == 1:
            read()

    def view(self):
        self.number(4, 0, 1023)
        self.number(8, 1, 2**63)
        faulty = self.number(1, 0, 10)
        last = 0
        for _ in range(self.number(2, 3 * faulty + 1, 31)):
            last = self.number(2, last + 1)

    def signed(self, client, read):
        """A signer, a statement of so many bytes, and a tag. `read` reads the statement, given the signer."""
        self.number(1, 2 if client else 1, 2 if client else 1)
        signer = self.number(2, 0 if client else 1)
        begin, outer = self.at, self.end
        self.text(4)
        self.at, self.end = begin + 4, self.at
        read(signer)
        if self.at != self.end:
            raise Fault(self.at)
        self.end = outer
        self.text(2, 1, 4096)

    def request(self, signer):
        self.number(1, 9, 9)
        self.number(2, signer, signer)
        self.place()
        self.number(8)
        self.text(4, 0, 4096)

    def slotted(self, first, last):
        def read(_signer):
            self.number(1, first, last)
            self.slot()
            self.digest()
        return read

    def reply(self, _signer):
        self.number(1, 8, 8)
        self.number(4)
        self.place()
        self.number(2)
        self.number(2)
        self.place()
        self.text(4, 0, 4096)

    def stop(self, _signer):
        self.number(1, 4, 4)
        self.number(4)
        self.number(4)

    def mark(self, _signer):
        self.number(1, 7, 7)
        self.place()
        self.digest()

    def told_view(self, _signer):
        self.number(1, 10, 10)
        self.view()

    def signed_list(self, read):
        for _ in range(self.number(2)):
            self.signed(False, read)

    def decided(self):
        self.number(4)
        self.number(4)
        self.digest()
        self.signed_list(self.slotted(3, 3))

    def marked(self):
        self.number(4)
        self.digest()
        self.signed_list(self.mark)

    def lock(self):
        self.number(4)
        self.digest()
        self.signed_list(self.slotted(2, 2))

    def report(self, _signer):
        self.number(1, 5, 5)
        self.number(4)
        self.number(4)
        last = self.number(8, 0, LAST_PLACE)
        evidence = self.number(1, 0 if last == 0 else 1, 2)
        if evidence == 1:
            self.decided()
        elif evidence == 2:
            self.marked()
        self.optional(self.lock)

    def sync(self, _signer):
        self.number(1, 6, 6)
        self.number(4)
        self.number(4)
        self.signed_list(self.report)

    def batch(self):
        """At most 64 requests, and 262,144 bytes: a field that ends past them cannot be read."""
        outer = self.end
        self.end = min(self.end, self.at + 262144)
        for _ in range(self.number(2, 1, 64)):
            self.signed(True, self.request)
        self.end = outer

    def message(self, any_kind):
        at = self.at
        kind = self.number(1)
        if kind == 1:
            self.signed(True, self.request)
        elif kind == 2:
            self.signed(False, self.slotted(1, 1))
            self.batch()
        elif kind == 3:
            self.signed(False, self.slotted(2, 3))
        elif kind == 8:
            self.signed(False, self.reply)
        elif kind == 4 and any_kind:
            self.signed(False, self.stop)
        elif kind == 5 and any_kind:
            self.signed(False, self.report)
            self.optional(self.batch)
        elif kind == 6 and any_kind:
            self.signed(False, self.sync)
        elif kind == 7 and any_kind:
            self.place()
            self.batch()
            self.signed_list(self.slotted(3, 3))
        elif kind == 9 and any_kind:
            self.signed(False, self.mark)
        elif kind == 10 and any_kind:
            self.number(2, 1)
            self.number(8, 0, LAST_PLACE)
            self.number(8, 0, LAST_PLACE)
        elif kind == 11 and any_kind:
            self.number(2, 1)
            self.number(8, 0, LAST_PLACE)
            self.number(4)
            for _ in range(self.number(2, 0, 64)):
                self.signed(False, self.mark)
        elif kind == 12 and any_kind:
            self.place()
            self.number(4)
            self.number(4)
            self.text(4, 0, 65536)
        elif kind == 13 and any_kind:
            self.signed(False, self.told_view)
        else:
            raise Fault(at)

    def entry(self):
        kind = self.number(1, 1, 8)
        if kind == 1:
            self.number(2, 1)
            self.number(4)
            self.view()
        elif kind == 2:
            self.slot()
            self.digest()
        elif kind == 3:
            self.slot()
            self.digest()
            self.signed_list(self.slotted(2, 2))
            self.batch()
        elif kind == 4:
            self.number(4)
            self.number(4)
        elif kind == 5:
            self.number(4)
            self.number(4)
            self.number(8, 1, 2**63)
            self.optional(self.digest)
        elif kind == 6:
            self.slot()
            self.batch()
            self.signed_list(self.slotted(3, 3))
        elif kind == 7:
            self.place()
            self.digest()
            self.number(4)
            self.signed_list(self.mark)
        else:
            self.place()
            self.digest()


def fault(data, read, most=None):
    """The offset of the first fault of bytes that `read` reads, as a row says it."""
    reader = Reader(data, most)
    try:
        read(reader)
        if reader.at != len(data):
            raise Fault(reader.at)
    except Fault as found:
        return str(found)
    return FINE


def any_message(data):
    return fault(data, lambda r: r.message(True), 2**20)


def entry(data):
    return fault(data, Reader.entry)


def told_view(data):
    return fault(data, lambda r: r.signed(False, r.told_view))


def cases_of(row):
    """How many cases a row has: the numbers that its changes name, or one."""
    _, _, changes = row.partition(";")
    size = lambda span: int(span.rpartition("-")[2]) - int(span.partition("-")[0]) + 1
    return sum(math.prod(size(span) for span in change[1:].split(":")) for change in changes.split()) or 1


def spans(numbers):
    """Ascending numbers as their spans: `3`, `5-9`."""
    found = []
    for number in numbers:
        if found and found[-1][1] == number - 1:
            found[-1][1] = number
        else:
            found.append([number, number])
    return [str(a) if a == b else f"{a}-{b}" for a, b in found]


class Table:
    """A table's text: comments, names and rows."""

    def __init__(self, name, about, call=None):
        self.name, self.call, self.names, self.cases = name, call, {}, 0
        self.lines = [f"# {line}" for line in textwrap.wrap(about, 110)]
        self.lines.append("# rows.py makes this file.")

    def bytes_of(self, words):
        data = b""
        for word in words.split():
            count, _, rest = word.rpartition("*")
            data += int(count or 1) * (self.names[rest] if rest in self.names else bytes.fromhex(rest))
        return data

    def part(self, title):
        self.lines += ["", f"# {title}"]

    def give(self, name, words):
        self.names[name] = self.bytes_of(words)
        self.lines.append(f"{name} = {words}")

    def row(self, wanted, text):
        self.lines.append(f"{wanted} {text}")
        self.cases += cases_of(text)

    def spelled(self, words, wanted=None):
        """A row of bytes. What is wanted, where it is said by hand, is what the reader finds."""
        found = self.call(self.bytes_of(words))
        assert wanted in (None, found), f"{self.name}: {words}: {wanted} by hand, {found} by the reader"
        self.row(found, words)

    def changed(self, name, offset, value, wanted):
        """A row of one change, whose result is said by hand."""
        data = self.names[name]
        found = self.call(data[:offset] + bytes([value]) + data[offset + 1:])
        assert wanted == found, f"{self.name}: {value} at {offset}: {wanted} by hand, {found} by the reader"
        self.row(found, f"{name}; @{offset}:{value}")

    def rows_of(self, name, found):
        """Rows of some changes of a name, by what is wanted: {wanted: [change]}."""
        for wanted in sorted(found, key=lambda w: -1 if w == FINE else int(w)):
            for changes in textwrap.wrap(" ".join(found[wanted]), 100, break_on_hyphens=False):
                self.row(wanted, f"{name}; {changes}")

    def fronts(self, name):
        """Every front of what a name stands for."""
        data, found = self.names[name], {}
        for length in range(len(data)):
            found.setdefault(self.call(data[:length]), []).append(length)
        self.rows_of(name, {wanted: [f"/{span}" for span in spans(lengths)] for wanted, lengths in found.items()})

    def changes(self, name):
        """Every value of every byte. Of a byte whose values all come to the same, the least and the greatest."""
        data, found = self.names[name], {}
        for offset in range(len(data)):
            values = {}
            for value in range(256):
                changed = data[:offset] + bytes([value]) + data[offset + 1:]
                values.setdefault(self.call(changed), []).append(value)
            for wanted, numbers in values.items():
                numbers = [0, 255] if len(values) == 1 else numbers
                found.setdefault(wanted, {}).setdefault(tuple(spans(numbers)), []).append(offset)
        self.rows_of(name, {wanted: [f"@{at}:{span}" for values, offsets in by_values.items()
                                     for at in spans(offsets) for span in values]
                            for wanted, by_values in found.items()})

    def text(self):
        return "\n".join([*self.lines, "", f"cases {self.cases}"]) + "\n"


def hexed(number, width):
    return number.to_bytes(width, "big").hex()


def stated(table, member, statement, tag="0002 0506"):
    """The words of a member's statement, with its length before it and a tag behind it."""
    return f"01 {hexed(member, 2)} {hexed(len(table.bytes_of(statement)), 4)} {statement} {tag}"


def tag(secret, kind, number, statement):
    """The tag of a party under a secret."""
    key = hmac.digest(secret, bytes([kind]) + number.to_bytes(2, "big"), "sha256")
    return f"0020 {hmac.digest(key, statement, 'sha256').hex()}"


def sealed(table, signer, statement, sealer=None, secret=b"world"):
    """The words of a member's statement with the tag of the member that seals it, which need not be the signer."""
    made = tag(secret, 1, sealer or signer, table.bytes_of(statement))
    return stated(table, signer, statement, made)


def give_parts(table):
    """Names that most tables of bytes use."""
    table.part("Place 4 in view 2 at regency 3, a digest, and client 7's request 5, which knew place 3.")
    table.give("place", "0000000000000004")
    table.give("slot", "00000002 place 00000003")
    table.give("digest", bytes(range(1, 33)).hex())
    table.give("request", "02 0007 00000019 09 0007 0000000000000005 0000000000000003 00000002 6869 0002 0708")
    table.give("batch", "0001 request")
    table.part("Member 3's votes and its mark.")
    table.give("write", stated(table, 3, "02 slot digest"))
    table.give("accept", stated(table, 3, "03 slot digest"))
    table.give("mark", stated(table, 3, "07 place digest"))


def give_orders(table):
    table.part("An ask, member 1's proposal of two requests, a vote, and member 2's reply to client 7's request 5.")
    table.give("ask", "01 request")
    table.give("head", "02 " + stated(table, 1, "01 slot digest", "0002 0909"))
    table.give("other", "02 0000 00000018 09 0000 0000000000000001 0000000000000000 00000001 21 0002 0708")
    table.give("propose", "head 0002 request other")
    table.give("vote", "03 accept")
    table.give("reply", "08 " + stated(table, 2, "08 00000002 place 0001 0007 0000000000000005 00000002 6f6b"))


def long_request(op, tag):
    """Client 7's request of an operation and a tag of so many bytes."""
    return (f"02 0007 {hexed(op + 23, 4)} 09 0007 0000000000000005 0000000000000003 {hexed(op, 4)} {op}*68 "
            f"{hexed(tag, 2)} {tag}*07")


def report_words(table, last, evidence, lock, items, behind=""):
    """Member 4's report of view 2 in regency 4, with so many votes or marks in each list, and some words behind it."""
    words = f"05 00000002 00000004 {hexed(last, 8)} {hexed(evidence, 1)}"
    count = hexed(items, 2)
    if evidence == 1:
        words += f" 00000002 00000003 digest {count}" + items * " accept"
    if evidence == 2:
        words += f" 00000002 digest {count}" + items * " mark"
    words += " 01 00000003 digest " + count + items * " write" if lock else " 00"
    return stated(table, 4, words + behind)


def sync_words(table, reports):
    return "06 " + stated(table, 1, f"06 00000002 00000004 {hexed(len(reports), 2)} {' '.join(reports)}".strip())


def messages():
    table = Table("messages", "What decode makes of bytes: the offset of the first fault, or fine where encode "
                  "spells what was read as these bytes again.", any_message)
    give_parts(table)
    give_orders(table)
    table.part("Member 3 asks for regency 4 of view 2. Reports with all that they may have, and with little.")
    table.give("stop", "04 " + stated(table, 3, "04 00000002 00000004", "0002 0708"))
    shapes = []
    for evidence, kind in ((0, "bare"), (1, "decided"), (2, "marked")):
        for lock in (False, True):
            for items in (0, 1):
                name = kind + ("-locked" if lock else "") + ("" if items else "-empty")
                table.give(name, report_words(table, 4 if evidence else 0, evidence, lock, items))
                shapes.append(name)
    table.give("full", "05 decided-locked 01 batch")
    table.give("little", "05 marked 00")
    table.give("sync", sync_words(table, ["decided-locked"]))
    table.give("marking", "09 mark")
    table.part("A decided batch. Member 4 at place 0 asks for state. Member 2 offers a snapshot of 2 bytes and a mark. A part of it.")
    table.give("decision", "07 place batch 0001 accept")
    table.give("stateask", "0a 0004 0000000000000000 0000000000000000")
    table.give("offer", "0b 0002 place 00000002 0001 mark")
    table.give("part", "0c place 00000000 00000001 00000002 6869")
    table.part("Member 3 tells view 1, of members 1 to 4 from place 2 on.")
    table.give("view-told", "0d " + stated(table, 3, "0a 00000001 0000000000000002 01 0004 0001 0002 0003 0004", "0002 0708"))
    table.part("Each message is fine, whatever is in its report.")
    for name in ("ask", "propose", "vote", "reply", "stop", "marking", "decision", "stateask", "offer", "part", "view-told"):
        table.spelled(name, FINE)
    table.spelled("03 write", FINE)
    for name in shapes:
        table.spelled(f"05 {name} 00", FINE)
        table.spelled(f"05 {name} 01 batch", FINE)
        table.spelled(sync_words(table, [name]), FINE)
    table.spelled(sync_words(table, []), FINE)
    table.give("double", report_words(table, 4, 2, True, 2))
    table.spelled(sync_words(table, 3 * ["double"]), FINE)
    table.part("Faults of a report. Its bytes begin at offset 8, its evidence at 25, the lock at 128, and its tag at 227.")
    table.give("plain", "05 decided-locked 00")
    for title, rows in (
        ("No evidence of a place that is decided, and a kind of evidence that there is not.", [(25, 0, 25), (25, 3, 25)]),
        ("A WRITE in a proof, an ACCEPT and a proposal in a lock.", [(75, 2, 75), (174, 3, 174), (174, 1, 174)]),
        ("A vote that a client signs, a member without a number, a place 0, a last place of 2^63 and more.",
         [(68, 2, 68), (70, 0, 69), (87, 0, 80), (17, 128, 17)]),
        ("Flags are 0 or 1. A flag of 0 leaves the lock's bytes over, and one of 1 says that a batch is there.",
         [(128, 2, 128), (231, 2, 231), (128, 0, 129), (231, 1, 232)]),
        ("Lists that go on where they cannot, or end too early.", [(67, 2, 129), (166, 2, 227), (166, 0, 167)]),
    ):
        table.part(title)
        for at, value, found in rows:
            table.changed("plain", at, value, str(found))
    table.part("A byte left over in a report, and one behind the message.")
    table.spelled("05 " + report_words(table, 4, 1, True, 1, " 00") + " 00", "227")
    table.spelled("plain 00", "232")
    table.part("Operations have 4,096 bytes at most, and tags 1 to 4,096.")
    for op, tag_length, found in ((0, 1, FINE), (4096, 32, FINE), (4097, 32, "27"), (2, 4096, FINE), (2, 4097, "33"),
                                  (2, 0, "33"), (4096, 4096, FINE)):
        table.spelled("01 " + long_request(op, tag_length), found)
    table.part("A batch has 64 requests at most, and 262,144 bytes: it ends where the limit is, a byte past it in its tag, a "
               "byte past it in its operation, and earlier.")
    table.give("long", long_request(4096, 32))
    last = 61 + 2 + 63 * len(table.names["long"])
    for op, tag_length, found in ((28, 2, FINE), (28, 3, last + 58), (29, 2, last + 59), (33, 1, last + 3),
                                  (4096, 32, last + 3)):
        table.spelled(f"head 0040 63*long {long_request(op, tag_length)}", str(found))
    table.spelled("head 0040 64*request", FINE)
    table.spelled("head 0041 65*request", "61")
    table.spelled("head 0000", "61")
    table.part("Member 2 at place 7 asks for state: whole, without its last byte, with one more, and another kind alone.")
    table.spelled("0a 0002 0000000000000007 0000000000000000", FINE)
    table.spelled("0a 0002 0000000000000007 00000000000000", "11")
    table.spelled("0a 0002 0000000000000007 0000000000000000 00", "19")
    table.spelled("00", "0")
    table.part("A member at place 0 asks for state. Places of 2^63, and member 0.")
    table.spelled("0a 0004 0000000000000000 8000000000000000", "11")
    table.spelled("0a 0004 8000000000000000 0000000000000000", "3")
    table.spelled("0a 0000 0000000000000000 0000000000000000", "1")
    table.part("An offer has 64 marks at most, and a part 65,536 bytes.")
    table.spelled("0b 0002 place 00000002 0040 64*mark", FINE)
    table.spelled("0b 0002 place 00000002 0041 65*mark", "15")
    table.spelled("0b 0002 0000000000000000 00000000 0000", FINE)
    table.spelled("0c place 00000000 00000002 00010000 65536*68", FINE)
    table.spelled("0c place 00000000 00000002 00010001 65537*68", "17")
    table.spelled("0c place 00000000 00000000 00000000", FINE)
    table.part("A decided batch without ACCEPTs, with a WRITE in their stead, and with no request.")
    table.spelled("07 place batch 0000", FINE)
    table.spelled("07 place batch 0001 write", str(1 + 8 + 2 + 36 + 2 + 7))
    table.spelled("07 place 0000 0001 accept", "9")
    table.part("Each front of a message.")
    for name in ("ask", "propose", "vote", "reply", "stop", "full", "little", "sync", "marking", "decision", "stateask", "offer", "part", "view-told"):
        table.fronts(name)
    table.part("Each value of each byte of a message. Of a byte that may have any value, the least and the greatest.")
    for name in ("ask", "propose", "vote", "reply", "stop", "full", "little", "sync", "marking", "decision", "stateask", "offer", "part", "view-told"):
        table.changes(name)
    return table


def entries():
    table = Table("entries", "What decode_entry makes of bytes: the offset of the first fault, or fine where encode_entry "
                  "spells what was read as these bytes again.", entry)
    give_parts(table)
    table.part("The first view of members 1 to 4, of whom one may be faulty.")
    table.give("view", "00000000 0000000000000001 01 0004 0001 0002 0003 0004")
    table.part("64 requests, the last of which begins 62 bytes before the limit of a batch: its length ends past it.")
    table.give("long-request", long_request(4096, 32))
    table.give("long", "0040 64*long-request")
    table.part("Each kind of entry.")
    shapes = {
        "opened": "01 0001 00000010 view",
        "wrote": "02 slot digest",
        "accepted": "03 slot digest 0002 write write batch",
        "promised": "04 00000002 00000003",
        "synced": "05 00000002 00000003 place 01 digest",
        "decided": "06 slot batch 0002 accept accept",
        "installed": "07 place digest 00000002 0002 mark mark",
        "marked": "08 place digest",
    }
    for name, words in shapes.items():
        table.give(name, words)
    for name in shapes:
        table.spelled(name, FINE)
    table.part("Entries, and bytes that are none.")
    for row in ENTRY_ROWS.strip().splitlines():
        wanted, _, words = row.partition(" ")
        table.spelled(words, wanted)
    table.part("Each front of an entry, and each value of each byte of it.")
    for name in shapes:
        table.fronts(name)
        table.changes(name)
    return table


ENTRY_ROWS = """
fine 02 00000002 0000000000000001 00000003 digest
fine 02 00000002 7fffffffffffffff 00000003 digest
fine 03 slot digest 0000 batch
fine 05 00000002 00000003 0000000000000001 00
fine 05 00000002 00000003 8000000000000000 00
fine 06 slot batch 0000
fine 07 place digest 00000002 0000
0 0*00
0 00 place digest
0 09 place digest
1 01 0000 00000010 view
3 01 0001 000000
7 01 0001 00000010 00000400
30 01 0001 00000010 view 00
5 02 00000002 0000000000000000 00000003 digest
5 02 00000002 8000000000000000 00000003 digest
17 02 slot 0102
49 02 slot digest 00
58 03 slot digest 0001 accept batch
111 03 slot digest 0002 write batch
51 03 slot digest 0000 0000
51 03 slot digest 0000 0041
149 03 slot digest 0001 write batch 00
5 04 00000002 0000
9 04 00000002 00000003 00
9 05 00000002 00000003 0000000000000000 00
9 05 00000002 00000003 8000000000000001 00
17 05 00000002 00000003 place
17 05 00000002 00000003 place 02 digest
18 05 00000002 00000003 place 00 00
18 05 00000002 00000003 place 01 0102
17 06 slot 0000 0000
262102 06 slot long 0000
64 06 slot batch 0001 write
117 06 slot batch 0001 accept 00
1 07 0000000000000000 digest 00000002 0000
54 07 place digest 00000002 0001 write
99 07 place digest 00000002 0001 mark 00
1 08 0000000000000000 digest
1 08 8000000000000000 digest
41 08 place digest 00
"""


def views():
    table = Table("views", "What is read of a view that a member tells a client: the offset of the first fault, or fine "
                  "where what was read is spelled as these bytes again.", told_view)
    table.part("Member 3 tells view 5 of member 1, from place 9 on, and the view of members 1 to 4.")
    table.give("lone", stated(table, 3, "0a 00000005 0000000000000009 00 0001 0001", "0002 0708"))
    table.give("four", stated(table, 3, "0a 000003ff 8000000000000000 01 0004 0001 0002 0003 ffff", "0002 0708"))
    table.spelled("lone", FINE)
    table.spelled("four", FINE)
    table.part("A view of 31 members, of which 10 may be faulty, and one member more.")
    for count, found in ((31, FINE), (32, "21")):
        members = " ".join(hexed(m, 2) for m in range(1, count + 1))
        table.spelled(stated(table, 3, f"0a 00000000 0000000000000001 0a {hexed(count, 2)} {members}"), found)
    table.part("Each front, and each value of each byte.")
    for name in ("lone", "four"):
        table.fronts(name)
        table.changes(name)
    return table


def admission():
    table = Table("admission", "Whether a book admits an entry. The parts of a row are the place of the book's opening, the "
                  "entries that were pushed, and the entry that is asked for. `end` ends what is restored. w and a are "
                  "a write and an accept by view, place, regency and digest, p a promise by view and regency, s the start "
                  "of a regency by view, regency, base and bound (0 if none), d a decision and i an installation by "
                  "place, o the opening and m a mark.")
    table.part("A batch of one request.")
    table.give("batch", "0001 02 0001 00000018 09 0001 0000000000000001 0000000000000000 00000001 31 0001 01")
    table.part("Openings and entries.")
    table.give("end", "0*00")
    for place in (0, 3, 4):
        table.give(f"from{place}", hexed(place, 8))
    words = sorted({word.lstrip("+-") for row in ADMISSION_ROWS.strip().splitlines() for word in row.split()[1:]} - {"/"})
    for word in words:
        table.give(word, entry_words(word))
    table.part("Rows.")
    for row in ADMISSION_ROWS.strip().splitlines():
        if row.startswith("#"):
            table.part(row.lstrip("# "))
            continue
        opening, *pushed, asked = row.split()
        parts = [f"from{opening}"] + ["end" if word == "/" else word for word in pushed] + [asked[1:]]
        table.row("admitted" if asked[0] == "+" else "refused", ", ".join(parts))
    return table


def entry_words(word):
    """The words of the entry that a letter and digits stand for."""
    digits = [int(digit) for digit in word[1:]]
    if word[0] in "wa":
        view, place, regency, digest = digits
        slot = f"{hexed(view, 4)} {hexed(place, 8)} {hexed(regency, 4)} 32*{hexed(digest, 1)}"
        return f"02 {slot}" if word[0] == "w" else f"03 {slot} 0000 batch"
    if word[0] == "p":
        return f"04 {hexed(digits[0], 4)} {hexed(digits[1], 4)}"
    if word[0] == "s":
        view, regency, base, bound = digits
        words = f"05 {hexed(view, 4)} {hexed(regency, 4)} {hexed(base, 8)}"
        return f"{words} 01 32*{hexed(bound, 1)}" if bound else f"{words} 00"
    if word[0] == "d":
        return f"06 00000000 {hexed(digits[0], 8)} 00000000 batch 0000"
    if word[0] == "i":
        return f"07 {hexed(digits[0], 8)} 32*01 00000000 0000"
    return "01 0001 00000001 00000000 0000000000000001 00 0001 0001" if word == "o" else "08 0000000000000001 32*01"


ADMISSION_ROWS = """
0 +w0101
0 +a0101
0 w0101 -w0101
0 w0101 -w0102
0 w0101 +a0101
0 a0101 -a0101
0 a0101 -a0102
0 a0101 +w0101
0 w0101 +w1101
0 d1 w0101 +w0201
0 w0101 s0110 +w0111
0 w0101 w0102 -w0103
0 -w0201
0 -a0201
0 w0101 a0101 -w0201
0 d1 +w0201
0 d1 +a0201
0 i1 +w0201
0 d1 -w0301
0 d1 d2 d3 +w0201
0 d1 d2 d3 +w0401
0 d1 d2 d3 -w0501
0 i5 +w0601
0 i5 -w0501
0 p01 -w0101
0 p01 -a0101
0 p00 +w0101
0 p10 -w0191
0 p10 s0910 -w0191
0 p03 p01 s0210 -w0121
0 p03 s0310 +w0131
0 p03 s0410 +w0141
0 p02 p10 s1110 +w1111
0 p10 p02 -w0101
0 p02 +w1101
0 p10 p02 s0310 -w0131
0 -w0111
0 s0110 +w0111
0 s0110 +a0111
0 s0120 -w0111
0 d1 s0120 +w0211
0 d1 d2 s0120 +w0311
0 s0210 -w0111
0 s1110 -w0111
0 s0113 +w0113
0 s0113 +a0113
0 s0113 -w0114
0 s0113 -a0114
0 d1 s0113 +w0214
0 d1 s0123 -w0214
0 d1 s0123 +w0213
0 s0113 s0114 +w0114
0 s0114 s0113 +w0114
0 s0113 s0114 -w0115
0 s0113 s0110 +w0115
0 s0120 s0110 +w0111
0 s0110 s0120 s0220 +w0111
0 w0101 s0110 p01 -a0101
0 +d1
0 -d2
3 +d1
3 +d4
3 -d5
0 d1 +d2
0 d1 -d1
0 d1 -d3
3 d4 +d5
3 d2 +d3
3 d2 -d5
0 d5 d2 +d3
0 d5 d2 -d6
0 i5 +d6
0 i5 -d1
0 / i5 +d6
0 -i1
0 / +i1
4 +i4
4 +i2
4 -i5
4 / +i5
4 / +i9
4 / / +i9
4 i2 +i3
4 i2 -i2
4 i2 -i1
4 / i7 -i7
4 / i7 +i8
4 d3 +i4
4 d4 -i4
4 d5 -i5
4 / d5 +i6
4 / d5 d2 -i4
4 / d2 d5 -i4
4 o m / +i5
0 o +o
0 +m
0 m +m
0 p10 +p01
0 p01 +p01
0 +s0110
0 s0110 +s0112
"""


def view_words(number, start, first, count, faulty):
    """The view of so many members, from a first one on."""
    members = " ".join(hexed(member, 2) for member in range(first, first + count))
    return f"{hexed(number, 4)} {hexed(start, 8)} {hexed(faulty, 1)} {hexed(count, 2)} {members}"


def items_of(text):
    """The items of a text such as `w1t2 w31`: letters and their signers."""
    return [(item[0], int(item[1:])) for item in text.split()]


class Certified(Table):
    """A table whose names are votes and marks, made where a row needs them first."""

    def made(self, name, words):
        if name not in self.names:
            self.give(name, words)
        return name

    def item(self, prefix, spell, letter, signer):
        """A statement as it is wanted (`w`), or with another view, place, regency, digest or tag (`v`, `p`, `r`, `d`, `t`), or
        place and tag (`x`). `u` is sealed by another group's secret."""
        sealer = signer + 1 if letter in "tx" else signer
        secret = b"worlds" if letter == "u" else b"world"
        name = f"{prefix}{'' if letter == 'w' else letter}{signer}"
        return self.made(name, sealed(self, signer, spell(letter), sealer, secret))

    def ballots(self, prefix, kind, view, place, regency, digest, text):
        """A count and the votes of a text, for a digest in a slot."""
        def spell(letter):
            return " ".join((
                kind,
                hexed(77 if letter == "v" else view, 4),
                hexed(77 if letter in "px" else place, 8),
                hexed(77 if letter == "r" else regency, 4),
                "other" if letter == "d" else digest,
            ))
        items = items_of(text)
        return " ".join([hexed(len(items), 2)] + [self.item(prefix, spell, *item) for item in items])

    def marks(self, prefix, place, text):
        """A count and the marks of a text, of a digest at a place."""
        def spell(letter):
            return f"07 {hexed(77 if letter in 'px' else place, 8)} {'other' if letter == 'd' else 'digest'}"
        items = items_of(text)
        return " ".join([hexed(len(items), 2)] + [self.item(prefix, spell, *item) for item in items])


def give_digests(table):
    table.part("A digest and another one, and a batch of one request with its digest.")
    table.give("digest", "32*07")
    table.give("other", "31*07 08")
    table.give("batch", "0001 02 0001 00000018 09 0001 0000000000000001 0000000000000000 00000001 31 0001 01")
    table.give("batch-digest", hashlib.sha256(table.names["batch"]).hexdigest())


def votes():
    table = Certified("votes", "The first fault of the votes or the marks in an entry, in a view. The parts of a row are the "
                      "view and the entry. A name is w for a WRITE, a for an ACCEPT and m for a mark, with the signer's number, "
                      "and between them a letter for what is not as it has to be: the view (v), the place (p), the regency (r), "
                      "the digest (d), the tag (t), the place and the tag (x), or the secret of the group (u).")
    give_digests(table)
    table.part("The slot of the votes, and the views of members 1 to 4, 1 to 5, and 1 to 31, and of member 1 alone.")
    table.give("slot", "00000000 0000000000000003 00000002")
    table.give("four", view_words(0, 1, 1, 4, 1))
    table.give("five", view_words(0, 1, 1, 5, 1))
    table.give("largest", view_words(0, 1, 1, 31, 10))
    table.give("lone", view_words(0, 1, 1, 1, 0))

    def row(kind, wanted, view, text):
        if kind == "w":
            words = "03 slot digest " + table.ballots("w", "02", 0, 3, 2, "digest", text) + " batch"
        elif kind == "a":
            words = "06 slot batch " + table.ballots("a", "03", 0, 3, 2, "batch-digest", text)
        else:
            words = "07 0000000000000003 digest 00000000 " + table.marks("m", 3, text)
        table.row(wanted, f"{view}, {words}")

    def rows(kinds, text):
        for line in text.strip().splitlines():
            if line.startswith("#"):
                table.part(line.lstrip("# "))
                continue
            wanted, view, *items = line.split()
            for kind in kinds:
                row(kind, wanted, view, " ".join(items))

    rows("wa", VOTE_ROWS)
    table.part("The largest view: 21 of 31 are a quorum.")
    signers = list(range(31, 0, -1))
    for count, wanted in ((20, "too-few"), (21, FINE), (31, FINE)):
        row("w", wanted, "largest", " ".join(f"w{m}" for m in signers[:count]))
    for signer, wanted in ((31, "twice"), (1, "twice"), (32, "stranger")):
        row("w", wanted, "largest", " ".join(f"w{m}" for m in signers + [signer]))
    rows("m", MARK_ROWS)
    table.part("In the largest view 11 marks are more than may be faulty.")
    for count, wanted in ((10, "too-few"), (11, FINE)):
        row("m", wanted, "largest", " ".join(f"w{m}" for m in signers[:count]))
    return table


VOTE_ROWS = """
# Three of four are a quorum, whoever they are, and so are more. Four of five are.
fine four w1 w2 w3
fine four w4 w1 w3
fine four w2 w1 w4 w3
fine five w1 w2 w3 w5
too-few five w1 w2 w3
too-few four w1 w2
too-few four
# One fault.
twice four w1 w2 w1
twice four w1 w2 w3 w3
stranger four w1 w2 w5
unequal four w1 w2 v3
unequal four p1 w2 w3
unequal four w1 r2 w3
unequal four w1 w2 w3 d4
bad-tag four w1 w2 t3
bad-tag four t1 w2 w3 w4
bad-tag four u1 u2 u3
# One vote has several faults.
stranger four w1 w2 x5
stranger four w5 w5
twice four w1 w2 x2
twice four w1 t1 w2 w3
unequal four w1 w2 x3
# Several votes have faults.
bad-tag four t1 w5 w2
stranger four w5 t1 w2
unequal four w1 v2 w2 t3
twice four w1 w1 v2 w5
bad-tag four t1
"""

MARK_ROWS = """
# Two marks are more than the one that may be faulty, whoever they are, and so are more.
fine four w1 w2
fine four w4 w2 w3
fine five w5 w1
too-few four w1
too-few five w5
too-few four
# Where nobody may be faulty, one mark is enough.
fine lone w1
too-few lone
# One fault.
twice four w1 w1
stranger four w1 w5
unequal four w1 p2
unequal four d1 w2
bad-tag four w1 t2
bad-tag four w1 w2 t3
# One mark has several faults.
stranger four x5
twice four w1 x1
unequal four w1 x2
# Several marks have faults.
bad-tag four t1 w5
twice four w1 w1 p2 w5
unequal four d1 w1
"""


def plans():
    table = Certified("plans", "What a member that lags takes over. The parts of a row are the view, the member's place, the offers, "
                      "and the marks that the member kept. Wanted is place/seeder/size/marks/digest, of the digest its first byte, or "
                      "the most equal marks and how many a plan needs, with a colon between them. A mark is named by its member, "
                      "place and digest, and a t if its tag is not its member's.")
    table.part("Three digests, the view of members 1 to 4, and that of 1 to 7, of whom two may be faulty.")
    for digest in "cde":
        table.give(digest, f"32*0{digest}")
    table.give("four", view_words(0, 1, 1, 4, 1))
    table.give("seven", view_words(0, 1, 1, 7, 2))

    def mark(word):
        member, rest = int(word.partition(".")[0]), word.partition(".")[2]
        place, digest = int(rest.rstrip("cdet")), rest.rstrip("t")[-1]
        statement = f"07 {hexed(place, 8)} {digest}"
        return table.made(f"m{word}", sealed(table, member, statement, member + 1 if rest.endswith("t") else member))

    def marks(text):
        words = [word for word in text.split(",") if word]
        return " ".join([hexed(len(words), 2)] + [mark(word) for word in words])

    def offer(word):
        """`2@4/8:3.4d,..`: member 2 offers a snapshot of place 4 with 8 bytes, and these marks."""
        head, _, text = word.partition(":")
        member, _, rest = head.partition("@")
        place, _, size = rest.partition("/")
        return f"{hexed(int(member), 2)} {hexed(int(place), 8)} {hexed(int(size), 4)} {marks(text)}"

    for line in PLAN_ROWS.strip().splitlines():
        if line.startswith("#"):
            table.part(line.lstrip("# "))
            continue
        wanted, view, place, kept, *offers = line.split()
        parts = [view, hexed(int(place), 8)] + [offer(word) for word in offers] + [marks(kept.strip("-"))]
        table.row(wanted, ", ".join(parts))
    return table


PLAN_ROWS = """
# One mark of two, the second one, and one of another digest.
1:2 four 0 - 2@4/8:2.4d
4/2/8/2/0d four 0 3.4d 2@4/8:2.4d
1:2 four 0 3.4e 2@4/8:2.4d
4/2/8/2/0d four 0 - 2@4/8:2.4d 3@0/0:3.4d
4/2/8/2/0d four 0 2.4d,3.4d 2@4/8:
# Nobody offers, or nothing past the place.
0:2 four 0 -
0:2 four 0 2.4d,3.4d
0:2 four 4 2.4d,3.4d 2@4/8:
0:2 four 5 2.4d,3.4d 2@4/8:
4/2/8/2/0d four 3 2.4d,3.4d 2@4/8:
# One member's marks count once for each digest.
1:2 four 0 2.4d 2@4/8:2.4d
1:2 four 0 2.4d,2.4e 2@4/8:2.4d
# More marks than are needed, of which the first by member count. Of seven members three are needed.
4/2/8/2/0d four 0 1.4d,2.4d,3.4d,4.4d 2@4/8:
2:3 seven 0 1.4d,2.4d 2@4/8:
4/2/8/3/0d seven 0 7.4d,1.4d,5.4d,2.4d 2@4/8:
# Strangers, and marks whose tags do not verify.
1:2 four 0 9.4d,3.4d 2@4/8:
1:2 four 0 3.4d 2@4/8:2.4dt
4/2/8/2/0d four 0 3.4d 2@4/8:2.4dt,2.4d
# The greatest place that is offered and marked enough.
8/2/9/2/0e four 0 1.4d,2.4d,1.8e,2.8e 3@4/8: 2@8/9:
4/3/8/2/0d four 0 1.4d,2.4d,1.8e 3@4/8: 2@8/9:
4/3/8/2/0d four 0 1.4d,2.4d,1.12e,2.12e 3@4/8:
8/2/9/2/0e four 4 1.4d,2.4d,1.8e,2.8e 3@4/8: 2@8/9:
1:2 four 4 1.4d,2.4d,1.8e 3@4/8: 2@8/9:
# The lower of two digests there.
4/2/8/2/0c four 0 1.4d,2.4d,3.4c,4.4c 2@4/8:
4/2/8/2/0c four 0 3.4c,4.4c,1.4d,2.4d 2@4/8:
# The lowest member that offers the place, with its own size; a stranger may be it.
4/2/8/2/0d four 0 1.4d,2.4d 3@4/9: 2@4/8: 4@4/7:
4/1/0/2/0d four 0 1.4d,2.4d 3@4/9: 2@4/8: 1@4/0:
4/9/5/2/0d four 0 1.4d,2.4d 9@4/5:
"""


class Reports(Certified):
    """A table whose rows are reports of members. A report is a tuple of its last place, evidence and lock."""

    def proof(self, view, last, text):
        """Evidence: ACCEPTs in regency 1 of a view, which they are said to be of."""
        votes = self.ballots(f"a{view}.{last}.", "03", view, last, 1, "digest", text)
        return f"01 {hexed(view, 4)} 00000001 digest {votes}"

    def marked(self, view, last, text):
        """Evidence: marks of members of a view, as they are said to be."""
        return f"02 {hexed(view, 4)} digest {self.marks(f'm{last}.', last, text)}"

    def lock(self, view, place, regency, text):
        """A lock: WRITEs in a slot."""
        votes = self.ballots(f"w{view}.{place}.{regency}.", "02", view, place, regency, "digest", text)
        return f"01 {hexed(regency, 4)} digest {votes}"

    def report(self, name, signer, last, evidence="00", lock="00", view=2, regency=3, sealer=None):
        """A member's report of regency 3 of view 2, or of others."""
        words = f"05 {hexed(view, 4)} {hexed(regency, 4)} {hexed(last, 8)} {evidence} {lock}"
        return self.made(name, sealed(self, signer, words, sealer))

    def letter(self, letter, signer):
        """Good reports: n has decided nothing, d and p a place of an earlier and of the present view, m one that is marked, and
        l has a lock. In the others is wrong: the view (v), the regency (r), the tag (t), the regency and the tag (x), a tag
        in a proof (a), in marks (b) or in a lock (c), a tag in a lock and the report's own (y), the lock's regency (e), or the
        view of marks (u)."""
        last, evidence, lock = 0, "00", "00"
        if letter in "da":
            last, evidence = 4, self.proof(0, 4, "w1 w2 w3" if letter == "d" else "w1 w2 t3")
        elif letter == "p":
            last, evidence = 9, self.proof(2, 9, "w1 w2 w3 w4")
        elif letter in "mbu":
            view, text = {"m": (1, "w5 w6"), "b": (1, "w5 t6"), "u": (3, "w1 w2")}[letter]
            last, evidence = 4, self.marked(view, 4, text)
        elif letter in "le":
            lock = self.lock(2, 1, 2 if letter == "l" else 3, "w1 w2 w3 w4")
        elif letter in "cy":
            lock = self.lock(2, 1, 2, "w1 w2 w3 t4")
        return self.report(f"{letter}{signer}", signer, last, evidence, lock, 1 if letter == "v" else 2,
                           2 if letter in "rx" else 3, signer + 1 if letter in "txy" else signer)

    def sync(self, names):
        """Member 1 begins regency 3 of view 2 with these reports."""
        words = " ".join(["06 00000002 00000003", hexed(len(names), 2)] + names)
        return "06 " + stated(self, 1, words, "0001 07")


def collects():
    table = Reports("collects", "The first fault of the reports with which a regency begins. The parts of a row are the views, of "
                    "which the last is in force, and the message. A name is a letter for what the report is, and the signer's "
                    "number: n has decided nothing, d and p a place of an earlier and of the present view, m one that is "
                    "marked, l has a lock. Wrong is the view (v), the regency (r), the tag (t), the regency and the tag (x), a "
                    "tag in a proof (a), in marks (b) or in a lock (c), a tag in a lock and the report's own (y), the lock's "
                    "regency (e), or the view of marks (u). q and a number are reports of one row.")
    give_digests(table)
    table.part("The view of members 1 to 4, that of 3 to 6 from place 5 on, and that of 1 to 4, or 1 to 5, from place 9 on.")
    table.give("first", view_words(0, 1, 1, 4, 1))
    table.give("second", view_words(1, 5, 3, 4, 1))
    table.give("third", view_words(2, 9, 1, 4, 1))
    table.give("larger", view_words(2, 9, 1, 5, 1))
    for line in COLLECT_ROWS.strip().splitlines():
        if line.startswith("#"):
            table.part(line.lstrip("# "))
            continue
        wanted, view, *items = line.split()
        names = [table.letter(item[0], int(item[1:])) for item in items]
        table.row(wanted, f"first, second, {view}, {table.sync(names)}")
    good = [table.letter("n", 1), table.letter("n", 2)]
    made = 0

    def third(wanted, last, evidence="00", lock="00", views="first, second, third", also=()):
        """A row of two good reports and a third one of a last place, with evidence and a lock."""
        nonlocal made
        made += 1
        names = good + list(also) + [table.report(f"q{made}", 3, last, evidence, lock)]
        table.row(wanted, f"{views}, {table.sync(names)}")

    table.part("A proof in evidence.")
    for text, wanted in (("w1 w2 w3", FINE), ("w1 w2", "unequal"), ("w1 w2 w5", "unequal"), ("w1 w2 w2", "unequal"),
                         ("w1 w2 v3", "unequal"), ("w1 w2 p3", "unequal"), ("w1 w2 r3", "unequal"), ("w1 w2 d3", "unequal"),
                         ("w1 w2 t3", "unequal")):
        third(wanted, 4, table.proof(0, 4, text))
    table.part("Marks in evidence are of members of any view that is known.")
    for view, text, wanted in ((0, "w1 w2", FINE), (1, "w6 w5", FINE), (2, "w1 w4", FINE), (3, "w1 w2", "unequal"),
                               (1, "w1 w2", "unequal"), (0, "w1", "unequal"), (0, "w1 w1", "unequal"),
                               (0, "w1 p2", "unequal"), (0, "w1 d2", "unequal"), (0, "w1 t2", "unequal")):
        third(wanted, 4, table.marked(view, 4, text))
    table.part("A proof is of the view that holds its place: the last that starts there or before.")
    for last, holder in ((1, 0), (4, 0), (5, 1), (8, 1), (9, 2), (LAST_PLACE, 2)):
        for view, text in ((0, "w1 w2 w3 w4"), (1, "w3 w4 w5 w6"), (2, "w1 w2 w3 w4")):
            third(FINE if view == holder else "unequal", last, table.proof(view, last, text))
    table.part("The place before the first needs no evidence, and what comes with it is not looked at.")
    for evidence in ("00", f"01 00000007 00000001 digest 0000", table.marked(7, 4, "t1")):
        third(FINE, 0, evidence)
    table.part("A place before all views is held by none, and marks show it.")
    for view, text in ((0, "w1 w2 w3"), (1, "w3 w4 w5"), (2, "w1 w2 w3")):
        third("unequal", 4, table.proof(view, 4, text), views="second, third")
    third(FINE, 4, table.marked(1, 4, "w3 w4"), views="second, third")
    table.part("The votes of a lock.")
    behind = table.proof(2, 9, "w1 w2 w3 w4")
    for view, text, wanted in (("third", "w1 w2 w3", FINE), ("larger", "w1 w2 w3 w5", FINE), ("larger", "w1 w2 w3", "unequal"),
                               ("third", "", "unequal"), ("third", "w1 w2 w1", "unequal"), ("third", "w1 w2 w5", "unequal"),
                               ("third", "w1 w2 v3", "unequal"), ("third", "w1 w2 p3", "unequal"),
                               ("third", "w1 w2 r3", "unequal"), ("third", "w1 w2 d3", "unequal"),
                               ("third", "w1 w2 t3", "unequal")):
        also = [table.letter("n", 4)] if view == "larger" else []
        third(wanted, 9, behind, table.lock(2, 10, 2, text), f"first, second, {view}", also)
    table.part("A lock is of a regency below the reported one.")
    for regency, wanted in ((0, FINE), (2, FINE), (3, "unequal"), (4, "unequal")):
        third(wanted, 0, "00", table.lock(2, 1, regency, "w1 w2 w3"))
    table.part("A lock is of the view, and for the place behind the last one. There is none behind the greatest.")
    for view, place, wanted in ((2, 10, FINE), (1, 10, "unequal"), (2, 9, "unequal"), (2, 11, "unequal")):
        third(wanted, 9, behind, table.lock(view, place, 2, "w1 w2 w3"))
    for last, wanted in ((LAST_PLACE - 1, FINE), (LAST_PLACE, "unequal")):
        third(wanted, last, table.proof(2, last, "w1 w2 w3 w4"), table.lock(2, LAST_PLACE, 2, "w1 w2 w3"))
    return table


COLLECT_ROWS = """
# Three of four answer for sure, and four of five.
fine third n1 n2 n3
fine third n4 d2 m3 l1
fine third p1 d2 l3
fine larger n5 n2 m3 p4
too-few larger n5 n2 m3
too-few third n1 n2
too-few third
# One fault.
twice third n1 n2 n1
stranger third n1 n2 n5
unequal third n1 n2 v3
unequal third r1 n2 n3
bad-tag third n1 t2 n3
# What is in a report does not hold.
unequal third n1 n2 a3
unequal third n1 b2 n3
unequal third c1 n2 n3
unequal third n1 e2 n3
unequal third n1 n2 n3 u4
# One report has several faults.
stranger third x5
twice third n1 y1
unequal third n1 n2 x3
unequal third n1 n2 y3
# Several reports have faults.
bad-tag third t1 e2 n5
unequal third n1 e2 t3
stranger third n5 a1 t2
"""


def choices():
    table = Table("choices", "What the reports with which a regency begins leave to it: the base, and behind a / the first byte of "
                  "the digest that binds, if one does. A report is a last place, and after it the regency and the letter of a lock.")
    table.part("The reports.")
    reports = sorted({report for row in CHOICE_ROWS.strip().splitlines() if row[0] != "#" for report in row.split()[1:]})
    for report in reports:
        last = int(report[0])
        evidence = "02 00000000 32*00 0000" if last else "00"
        lock = f"01 {hexed(int(report[1]), 4)} 32*{ord(report[2]):02x} 0000" if len(report) > 1 else "00"
        table.give(f"r{report}", stated(table, 1, f"05 00000000 00000009 {hexed(last, 8)} {evidence} {lock}", "0001 07"))
    table.part("Rows.")
    for row in CHOICE_ROWS.strip().splitlines():
        if row[0] == "#":
            table.part(row.lstrip("# "))
            continue
        wanted, *items = row.split()
        words = " ".join(["06 00000000 00000009", hexed(len(items), 2)] + [f"r{item}" for item in items])
        table.row(wanted, "06 " + stated(table, 1, words, "0001 07"))
    return table


CHOICE_ROWS = """
1
1 0 0 0
1/61 0 00a 0
1/61 00a 00a 0
# The lock of the greatest regency binds, wherever it stands.
1/62 01a 02b 0
1/62 02b 0 01a
1/63 01a 03c 02b
# Of two alike the first.
1/61 01a 01b
1/62 00c 01b 01a
# The greatest of all last places counts, whosever it is.
3 0 2 1
3 2 0 1
3 0 1 2
# A lock behind an earlier place binds nothing.
2 00a 1 0
2 05a 1 0
2/62 05a 11b 0
2/63 11b 05a 12c
# A row that is wrong on purpose, so that a difference is seen to be told.
9 0 0 0
"""


def main():
    stale = []
    for make in (messages, entries, views, admission, votes, collects, plans, choices):
        table = make()
        path, text = f"data/{table.name}.rows", table.text()
        if sys.argv[1:] == ["check"]:
            with open(path) as file:
                stale += [path] if file.read() != text else []
        else:
            with open(path, "w") as file:
                file.write(text)
    if stale:
        sys.exit(f"not as rows.py makes them: {' '.join(stale)}")


main()
