"""Spells messages, entries and trails by what docs/FORMATS.md says. Tags and digests are those of Python's library."""
import hashlib, hmac

SECRET = b"world"


def number(width, value):
    return value.to_bytes(width, "big")


def text(data):
    return number(4, len(data)) + data


def several(items):
    return number(2, len(items)) + b"".join(items)


def tag(kind, who, statement):
    key = hmac.new(SECRET, number(1, kind) + number(2, who), hashlib.sha256).digest()
    return hmac.new(key, statement, hashlib.sha256).digest()


def signed(kind, who, statement, made=None):
    made = tag(kind, who, statement) if made is None else made
    return number(1, kind) + number(2, who) + text(statement) + number(2, len(made)) + made


def member(who, statement):
    return signed(1, who, statement)


def client(who, statement):
    return signed(2, who, statement)


# The view of a lone member, and that of four members.
VIEW = number(4, 0) + number(8, 1) + number(1, 0) + several([number(2, 1)])
FOUR = number(4, 0) + number(8, 1) + number(1, 1) + several([number(2, who) for who in (1, 2, 3, 4)])


def slot(place=1, regency=0):
    return number(4, 0) + number(8, place) + number(4, regency)


def request(seq, after, operation):
    return client(1, number(1, 9) + number(2, 1) + number(8, seq) + number(8, after) + text(operation))


def digest(data):
    return hashlib.sha256(data).digest()


def propose(who, batch, place=1, regency=0):
    return number(1, 2) + member(who, number(1, 1) + slot(place, regency) + digest(batch)) + batch


def vote(kind, who, batch, place=1, regency=0, made=None):
    """A signed vote of kind 2, a WRITE, or 3, an ACCEPT."""
    return signed(1, who, number(1, kind) + slot(place, regency) + digest(batch), made)


def write(*words):
    return number(1, 3) + vote(2, *words)


def accept(*words):
    return number(1, 3) + vote(3, *words)


REQUEST = request(1, 0, b"5")
BATCH = several([REQUEST])

ASK = number(1, 1) + REQUEST
PROPOSE = propose(1, BATCH)
WRITE = write(1, BATCH)
ACCEPT = accept(1, BATCH)


def reply_statement(answer, seq=1):
    """Of a client's request that was executed alone at the place of its number."""
    return number(1, 8) + number(4, 0) + number(8, seq) + number(2, 0) + number(2, 1) + number(8, seq) + text(answer)


def reply(answer, who=1, seq=1):
    return number(1, 8) + member(who, reply_statement(answer, seq))


def signed_mark(who, digest_there, made=None):
    return signed(1, who, number(1, 7) + number(8, 1) + digest_there, made)


def mark(who, made=None, digest_there=digest(BATCH)):
    return number(1, 9) + signed_mark(who, digest_there, made)


def told_view(who, made=None):
    """A view of four members, in force from place 2 on."""
    return number(1, 13) + signed(1, who, number(1, 10) + number(4, 1) + number(8, 2) + FOUR[12:], made)


# What changes the regency, from 0 to 1: the leader of regency 1 is member 2.

def stop(who):
    return number(1, 4) + member(who, number(1, 4) + number(4, 0) + number(4, 1))


def lock(votes):
    """The lock of a report on the batch in regency 0."""
    return number(1, 1) + number(4, 0) + digest(BATCH) + several(votes)


def signed_report(who, locked=number(1, 0), made=None):
    """A report of a member that has decided no place."""
    return signed(1, who, number(1, 5) + number(4, 0) + number(4, 1) + number(8, 0) + number(1, 0) + locked, made)


def stopdata(who):
    return number(1, 5) + signed_report(who) + number(1, 0)


def sync(reports, made=None):
    return number(1, 6) + signed(1, 2, number(1, 6) + number(4, 0) + number(4, 1) + several(reports), made)


# What members tell of their state.

def decision(batch, accepts):
    return number(1, 7) + number(8, 1) + batch + several(accepts)


def state_ask(who, place=0):
    return number(1, 10) + number(2, who) + number(8, place) + number(8, 0)


def state_offer(who, place, size, marks):
    return number(1, 11) + number(2, who) + number(8, place) + number(4, size) + several(marks)


# ---- trails

def replica(view, place, lines, state):
    return number(8, place) + several([view]) + several(lines) + text(state)


# A sum of 0 at no place, and one of 5 at place 1, with the line of client 1. No key has a value.
EMPTY = replica(VIEW, 0, [], number(8, 0))
EMPTY_FOUR = replica(FOUR, 0, [], number(8, 0))
EMPTY_KV = replica(VIEW, 0, [], number(2, 0))
AT_ONE = replica(VIEW, 1, [number(2, 1) + number(8, 1) + number(8, 1) + number(2, 0) + number(4, 0) + text(b"5")], number(8, 5))

OPENED = number(1, 1) + number(2, 1) + number(4, 1024) + VIEW


def opened(period):
    return number(1, 1) + number(2, 1) + number(4, period) + VIEW


def wrote(batch, place=1):
    return number(1, 2) + slot(place) + digest(batch)


def accepted(batch, place=1):
    return number(1, 3) + slot(place) + digest(batch) + several([vote(2, 1, batch, place)]) + batch


def decided(batch, place=1, made=None):
    return number(1, 6) + slot(place) + batch + several([vote(3, 1, batch, place, 0, made)])


def marked(digest_there):
    return number(1, 8) + number(8, 1) + digest_there


# The entries of a member of four, by a letter each: `o` opens its book; `w` is a write in regency 0, `s` the beginning of regency 7
# without its promise, `v` a write there. `a` is an accept, `b` one with too few writes, `c` one of another batch than the writes are for.
# `d` is the decision of the same batch, `e` one with too few accepts, `f` one with writes for accepts. `g` decides another batch, `h`
# that batch with accepts of the first. `?` is none.
SEVENS = b"\7" * 32
OTHER = several([request(1, 0, b"6")])


def first_votes(kind, batch, count=3):
    return several([vote(kind, who, batch) for who in range(1, count + 1)])


def accepted_of(digest_there, votes):
    return number(1, 3) + slot() + digest_there + votes + BATCH


def decided_of(batch, votes):
    return number(1, 6) + slot() + batch + votes


def votes_on(kind, digest_there):
    return several([signed(1, who, number(1, kind) + slot() + digest_there) for who in (1, 2, 3)])


LETTERS = {
    "o": number(1, 1) + number(2, 1) + number(4, 4) + FOUR,
    "w": number(1, 2) + slot() + SEVENS,
    "s": number(1, 5) + number(4, 0) + number(4, 7) + number(8, 1) + number(1, 0),
    "v": number(1, 2) + slot(1, 7) + SEVENS,
    "a": accepted_of(digest(BATCH), first_votes(2, BATCH)),
    "b": accepted_of(digest(BATCH), first_votes(2, BATCH, 2)),
    "c": accepted_of(SEVENS, votes_on(2, SEVENS)),
    "d": decided_of(BATCH, first_votes(3, BATCH)),
    "e": decided_of(BATCH, first_votes(3, BATCH, 2)),
    "f": decided_of(BATCH, first_votes(2, BATCH)),
    "g": decided_of(OTHER, first_votes(3, OTHER)),
    "h": decided_of(OTHER, first_votes(3, BATCH)),
    "?": b"\t\t",
}


def opening(who, entries=0, view=VIEW, period=1024, snapshot=EMPTY, app=0):
    return number(1, 0) + number(2, who) + number(4, period) + view + number(1, app) + text(SECRET) + text(snapshot) + number(8, entries)


def arrive(message):
    return number(1, 1) + message


TICK, DELIVER, END = number(1, 2), number(1, 3), number(1, 8)


def firm(count):
    return number(1, 4) + number(8, count)


def send(kind, who, message):
    return number(1, 5) + number(1, kind) + number(2, who) + message


def lost(kind, who, message):
    return number(1, 6) + number(1, kind) + number(2, who) + message


def polls(count):
    return number(1, 7) + number(8, count)


def to_all(message):
    return send(3, 0, message)


def to_client(message):
    return send(2, 1, message)


def spelled(parts):
    return b"".join(text(part) for part in parts)


def ordered(batch, place, answer, seq, made):
    """One request at a lone member. It proposes, votes twice, decides, delivers and replies. Each entry is firm before what needs it
    leaves. The book has made so many entries in this life before."""
    asked, proposed = number(1, 1) + batch[2:], propose(1, batch, place)
    wrote_it, accepted_it = write(1, batch, place), accept(1, batch, place)
    return [
        arrive(asked), firm(made), to_all(proposed), arrive(proposed), firm(made + 1), to_all(wrote_it), arrive(wrote_it), firm(made + 2),
        to_all(accepted_it), arrive(accepted_it), DELIVER, firm(made + 3), to_client(reply(answer, 1, seq)),
    ]


EVENTS = ordered(BATCH, 1, b"5", 1, 1) + [END]
LONE = [opening(1)] + EVENTS
# The client that asked.
ASKED = [opening(0), to_all(ASK), polls(3), arrive(reply(b"5")), END]


def changed(parts, event, *others):
    """A trail with other events in place of one, which is counted from 1. No entries stand before the events."""
    return parts[:event] + list(others) + parts[event + 1:]


def before_end(parts, *others):
    return parts[:-1] + list(others) + parts[-1:]


# The same of the service of keys and values.
PUT = several([request(1, 0, b"put a b")])
KEYS = [opening(1, snapshot=EMPTY_KV, app=1)] + ordered(PUT, 1, b"new", 1, 1) + [END]

# A second request, at place 2: 5 and 7 are 12.
BATCH_TWO = several([request(2, 1, b"7")])
# A member that goes on from a checkpoint, or from the entries of an earlier life.
BOOK = [OPENED, wrote(BATCH), accepted(BATCH), decided(BATCH)]
FROM_CHECKPOINT = [opening(1, snapshot=AT_ONE)] + ordered(BATCH_TWO, 2, b"12", 2, 1) + [END]
FROM_BOOK = [opening(1, len(BOOK))] + BOOK + ordered(BATCH_TWO, 2, b"12", 2, 0) + [END]
# Each place is one that is marked.
DIGEST_AT_ONE = digest(AT_ONE)
MARKS = [opening(1, period=1)] + EVENTS[:11] + [firm(5), to_client(reply(b"5")), to_all(mark(1, None, DIGEST_AT_ONE)), arrive(mark(1, None, DIGEST_AT_ONE)), END]
MARKED_BOOK = [opened(1), wrote(BATCH), accepted(BATCH), decided(BATCH), marked(DIGEST_AT_ONE)]
OFFERED = [
    arrive(state_ask(1)), send(1, 1, state_offer(1, 0, 0, [signed_mark(1, DIGEST_AT_ONE)])), send(1, 1, decision(BATCH, [vote(3, 1, BATCH)])),
]


def opening_four(who, snapshot=EMPTY_FOUR):
    return opening(who, 0, FOUR, 1024, snapshot)


def voted(who, batch, regency, voters, made):
    """The votes of a member, from the proposal that came to the reply, behind so many entries."""
    writes = [arrive(write(voter, batch, 1, regency)) for voter in voters]
    accepts = [arrive(accept(voter, batch, 1, regency)) for voter in voters]
    return (
        [firm(made + 1), to_all(write(who, batch, 1, regency))] + writes + [firm(made + 2), to_all(accept(who, batch, 1, regency))]
        + accepts + [DELIVER, firm(made + 3), to_client(reply(b"5", who))]
    )


def at_four(who):
    """One request at a member of four: the votes of members 1, 2 and 3 come."""
    begins = [arrive(ASK), firm(1), to_all(PROPOSE)] if who == 1 else [firm(1)]
    return [opening_four(who)] + begins + [arrive(PROPOSE)] + voted(who, BATCH, 0, (1, 2, 3), 1) + [END]


ASKED_FOUR = [opening_four(0), to_all(ASK), arrive(reply(b"5", 1)), arrive(reply(b"5", 2)), arrive(reply(b"5", 3)), END]

# Member 1 is silent. Members 2 and 3 wait in vain, and member 4 joins them. Member 2 leads regency 1.
SYNC = sync([signed_report(who) for who in (2, 3, 4)])
PROPOSE_AGAIN = propose(2, BATCH, 1, 1)
STOPS = [arrive(stop(who)) for who in (2, 3, 4)]


def waiting(who):
    return [firm(1), TICK, to_all(state_ask(who)), arrive(ASK), TICK, send(1, 1, ASK), TICK, to_all(stop(who))] + STOPS


def in_regency_one(who, begins):
    leads = [arrive(stopdata(voter)) for voter in (2, 3, 4)] + [to_all(SYNC)] if who == 2 else []
    proposes = [firm(3), to_all(PROPOSE_AGAIN)] if who == 2 else []
    return (
        [opening_four(who)] + begins + [firm(2), send(1, 2, stopdata(who))] + leads + [arrive(SYNC)] + proposes + [arrive(PROPOSE_AGAIN)]
        + voted(who, BATCH, 1, (2, 3, 4), 3) + [END]
    )


SECOND = in_regency_one(2, waiting(2))
THIRD = in_regency_one(3, waiting(3))
FOURTH = in_regency_one(4, [firm(1)] + STOPS[:2] + [to_all(stop(4))] + STOPS[2:])

# A member that lags is shown the decision.
SHOWN = decision(BATCH, [vote(3, who, BATCH) for who in (1, 2, 3)])
NOTHING_OFFERED = state_offer(1, 0, 0, [])
SHOWING = before_end(at_four(1), arrive(state_ask(4)), send(1, 4, NOTHING_OFFERED), send(1, 4, SHOWN))
LAGGING = [
    opening_four(4), firm(1), TICK, to_all(state_ask(4)), arrive(NOTHING_OFFERED), arrive(SHOWN), DELIVER, firm(2), to_client(reply(b"5", 4)), END,
]

# Another tag.
UNSIGNED = bytes(32)


def came_to_four(message):
    """A member of four to which a message came."""
    return [opening_four(1), arrive(message), END]
