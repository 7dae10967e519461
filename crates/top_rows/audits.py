"""Rows of audits of trails. What an audit tells is written by hand, row by row. For the fronts of a trail it follows from where its
parts end.
"""
from page import long_row, remark
from spelling import *

COHERENT = ("0", "coherent\\n", "")


def differs(kind, who, event):
    return ("9", f"differs {kind} n{who} {event}\\n", "smart: differs\\n")


def script(part, kind="Form"):
    return ("3", "", f"smart: line {part}: {kind}\\n")


def said(ending):
    return " ".join(ending[:1] + tuple(part or "-" for part in ending[1:]))


def whole(what, parts, ending):
    whole_bytes(what, spelled(parts), ending)


def whole_bytes(what, data, ending):
    remark(what)
    long_row("whole " + (data.hex() or "-"), said(ending))


# A replica at place 1, with no client's request, and a sum of 5.
WHOLE = replica(FOUR, 1, [], number(8, 5))


def restored(letters, damaged, snapshot):
    """A member of four begins with the entries of these letters. The number of the first that is damaged counts from 1, and 0 is the
    checkpoint; the parts of a trail count the opening too."""
    behind = "" if snapshot == EMPTY_FOUR else " behind a checkpoint" if snapshot == WHOLE else " behind a checkpoint that is none"
    parts = [opening(1, len(letters), FOUR, 4, snapshot), *[LETTERS[letter] for letter in letters], END]
    whole(f"restored are {letters or 'no entries'}{behind}", parts, COHERENT if damaged is None else script(damaged + 1))


def fronts(what, parts):
    """Each proper front of a trail: the first part that is lacking, or is not there whole, is told."""
    told = [f"0: {said(script(1, 'Empty'))}"]
    first = 1
    end = 0
    for part, content in enumerate(parts, 1):
        end += 4 + len(content)
        told.append(f"{first}-{end - 1}: {said(script(part))}")
        first = end
    remark(what)
    long_row("fronts " + spelled(parts).hex(), *told)


whole("no part", [], script(1, "Empty"))
whole("a member to which nothing came", [opening(1), END], COHERENT)
whole("a member with its first entry", [opening(1, 1), OPENED, END], COHERENT)
whole("a client that asked, and no member's trail", [opening(0), to_all(ASK), END], COHERENT)
whole("a request at a lone member", LONE, COHERENT)
whole("the same, and the client that asked", LONE + ASKED, COHERENT)
whole("the client before the member", ASKED + LONE, COHERENT)
whole("a full link dropped a message", changed(LONE, 3, to_all(PROPOSE), lost(1, 1, PROPOSE)), COHERENT)
whole("what came twice", changed(LONE, 7, arrive(WRITE), arrive(WRITE)), COHERENT)
whole("what is no message came", before_end(LONE, arrive(b""), arrive(b"\xff")), COHERENT)
whole("a full link dropped a message of a client", [opening(0), to_all(ASK), lost(1, 1, ASK), END], COHERENT)
whole("a request at a lone member, of the service of keys", KEYS, COHERENT)
whole("a member goes on from a checkpoint", FROM_CHECKPOINT, COHERENT)
whole("a member offers the checkpoint with which it began", [opening(1, snapshot=AT_ONE), firm(1), arrive(state_ask(1)), send(1, 1, state_offer(1, 1, len(AT_ONE), [])), END], COHERENT)
whole("a member without a checkpoint shows what it decided", before_end(LONE, arrive(state_ask(1)), send(1, 1, state_offer(1, 0, 0, [])), send(1, 1, decision(BATCH, [vote(3, 1, BATCH)]))), COHERENT)
whole("a member goes on from its book", FROM_BOOK, COHERENT)
whole("a request that a restored entry decides is answered again", [opening(1, len(BOOK))] + BOOK + [arrive(ASK), to_client(reply(b"5")), END], COHERENT)
whole("a restored decision of the place behind a checkpoint", [opening(1, 2, snapshot=AT_ONE), OPENED, decided(BATCH_TWO, 2), arrive(number(1, 1) + BATCH_TWO[2:]), to_client(reply(b"12", 1, 2)), END], COHERENT)
whole("a mark that the member has made came", MARKS, COHERENT)
whole("a mark came that the member has made in an offer alone", [opening(1, len(MARKED_BOOK), period=1)] + MARKED_BOOK + OFFERED + [arrive(mark(1, None, DIGEST_AT_ONE)), END], COHERENT)
whole("a request at four members", at_four(1) + at_four(2) + at_four(3) + at_four(4) + ASKED_FOUR, COHERENT)
whole("a regency changes", SECOND + THIRD + FOURTH, COHERENT)
whole("a member that lags is shown a decision", SHOWING + at_four(2) + at_four(3) + LAGGING, COHERENT)

# a Send that is not the next message that leaves
whole("another reply was sent", changed(LONE, 13, to_client(reply(b"6"))), differs(1, 1, 13))
whole("a reply with another tag was sent", changed(LONE, 13, to_client(number(1, 8) + signed(1, 1, reply_statement(b"5"), bytes(32)))), differs(1, 1, 13))
whole("the reply was sent to another client", changed(LONE, 13, send(2, 2, reply(b"5"))), differs(1, 1, 13))
whole("the reply was sent to all clients", changed(LONE, 13, send(4, 0, reply(b"5"))), differs(1, 1, 13))
whole("the proposal was sent to one member", changed(LONE, 3, send(1, 1, PROPOSE)), differs(1, 1, 3))
whole("a vote was sent before its entry was firm", changed(changed(LONE, 5, to_all(WRITE)), 6, firm(2)), differs(1, 1, 5))
whole("a proposal was sent twice", changed(LONE, 3, to_all(PROPOSE), to_all(PROPOSE)), differs(1, 1, 4))
whole("a member to which nothing came has sent a vote", [opening(1), to_all(WRITE), END], differs(1, 1, 1))
whole("a member that has delivered no batch has replied", changed(LONE, 11, TICK), differs(1, 1, 13))
whole("another reply of the service of keys was sent", changed(KEYS, 13, to_client(reply(b"old"))), differs(1, 1, 13))
whole("a reply that forgets the checkpoint was sent", changed(FROM_CHECKPOINT, 13, to_client(reply(b"7", 1, 2))), differs(1, 1, 13))
whole("a reply that forgets the restored entries was sent", changed(FROM_BOOK, len(BOOK) + 13, to_client(reply(b"7", 1, 2))), differs(1, 1, 13))
whole("a request is answered that no restored entry decides", [opening(1, 1), OPENED, arrive(ASK), to_client(reply(b"5")), END], differs(1, 1, 2))
whole("a member of four has sent another vote", changed(at_four(2), 4, to_all(write(2, BATCH_TWO))) + at_four(1) + at_four(3) + at_four(4), differs(1, 2, 4))
whole("a leader has begun its regency with other reports", changed(SECOND, 17, to_all(sync([signed_report(who) for who in (2, 3)]))) + THIRD + FOURTH, differs(1, 2, 17))

# a statement of a member came that it has not sent
whole("a mark of the member came that it has not made", before_end(LONE, arrive(mark(1))), differs(2, 1, 14))
whole("a mark of a member without a trail came", before_end(LONE, arrive(mark(2))), differs(2, 1, 14))
whole("a mark with another tag came", before_end(LONE, arrive(mark(1, bytes(32)))), COHERENT)
whole("another reply came to the client", LONE + changed(ASKED, 3, arrive(reply(b"6"))), differs(2, 0, 3))
whole("the reply came, and the member has no trail", ASKED, differs(2, 0, 3))
whole("a mark came that the restored member has offered to none", [opening(1, len(MARKED_BOOK), period=1)] + MARKED_BOOK + [arrive(mark(1, None, DIGEST_AT_ONE)), END], differs(2, 1, 1))
whole("a vote of a member without a trail came", at_four(1) + at_four(2) + at_four(4), differs(2, 1, 9))
whole("a report in a SYNC that its member has not sent", THIRD + FOURTH[:6] + FOURTH[8:] + SECOND, differs(2, 3, 14))
whole("a vote in a decision that its member has not sent", LAGGING + SHOWING + at_four(2), differs(2, 4, 5))
whole("a vote in a report of another tag came", came_to_four(number(1, 5) + signed_report(2, lock([vote(2, 3, BATCH)]), UNSIGNED) + number(1, 1) + BATCH), differs(2, 1, 1))
whole("a report with votes of other tags came", came_to_four(number(1, 5) + signed_report(2, lock([vote(2, 3, BATCH, 1, 0, UNSIGNED)]), UNSIGNED) + number(1, 1) + BATCH), COHERENT)
whole("a vote in a report in a SYNC of other tags came", came_to_four(sync([signed_report(3, lock([vote(2, 4, BATCH)]), UNSIGNED)], UNSIGNED)), differs(2, 1, 1))
whole("a mark in an offer came", came_to_four(state_offer(2, 1, 0, [signed_mark(3, DIGEST_AT_ONE)])), differs(2, 1, 1))
whole("a mark of another tag in an offer came", came_to_four(state_offer(2, 1, 0, [signed_mark(3, DIGEST_AT_ONE, UNSIGNED)])), COHERENT)
whole("a view of a member without a trail came", came_to_four(told_view(2)), differs(2, 1, 1))
whole("a view of another tag came", came_to_four(told_view(2, UNSIGNED)), COHERENT)
whole("of two differences the first trail's", changed(ASKED, 3, arrive(reply(b"6"))) + changed(LONE, 3, to_all(WRITE)), differs(2, 0, 3))
whole("of two differences the first event's", changed(changed(LONE, 13, to_client(reply(b"6"))), 3, to_all(WRITE)), differs(1, 1, 3))

# parts that cannot be read
whole("a second trail of the member", LONE + LONE, script(len(LONE) + 1))
whole("a second trail of the client", ASKED + ASKED, script(len(ASKED) + 1))
whole("no end", LONE[:-1], script(len(LONE)))
whole("an opening alone", [opening(1)], script(2))
whole("an event before the opening", [TICK, END], script(1))
whole("an event of no kind", [opening(1), number(1, 9), END], script(2))
whole("a part without bytes", [opening(1), b"", END], script(2))
whole("a byte after the end", [opening(1), END + b"\0"], script(2))
whole("time passes at a client", [opening(0), TICK, END], script(2))
whole("a batch is to be delivered at a client", [opening(0), DELIVER, END], script(2))
whole("entries are firm at a client", [opening(0), firm(1), END], script(2))
whole("a client has an entry", [opening(0, 1), OPENED, END], script(2))
whole("a message for no kind of receiver", [opening(1), send(0, 0, ASK), END], script(2))
whole("a message for another kind of receiver that there is not", [opening(1), send(5, 0, ASK), END], script(2))
whole("a message for the view and a number", [opening(1), send(3, 1, ASK), END], script(2))
whole("a message for all clients and a number", [opening(1), send(4, 1, ASK), END], script(2))
whole("a full link to the view", [opening(1), lost(3, 0, ASK), END], script(2))
whole("a full link to all clients", [opening(1), lost(4, 0, ASK), END], script(2))
whole("a number of firm entries of seven bytes", [opening(1), firm(1)[:-1], END], script(2))
whole("one of nine bytes", [opening(1), firm(1) + b"\0", END], script(2))
whole("a view that is not the first", [opening(1, view=number(4, 1) + VIEW[4:]), END], script(1))
whole("a first view that begins later", [opening(1, view=VIEW[:4] + number(8, 2) + VIEW[12:]), END], script(1))
whole("no place in a period", [opening(1, period=0), END], script(1))
whole("fewer places in a period than members", [opening(1, view=FOUR, period=3, snapshot=EMPTY_FOUR), END], script(1))
whole("as many as members", [opening(1, view=FOUR, period=4, snapshot=EMPTY_FOUR), END], COHERENT)
whole("as many as there may be", [opening(1, period=1 << 20), END], COHERENT)
whole("one more", [opening(1, period=(1 << 20) + 1), END], script(1))
whole("a snapshot that is no replica's", [opening(1, snapshot=EMPTY + b"\0"), END], script(1))
whole("a client's is not looked at", [opening(0, snapshot=b""), END], COHERENT)
whole("a snapshot of the other service", [opening(1, app=1), END], script(1))
whole("no such service", [opening(1, app=2), END], script(1))
whole("an entry that is none", [opening(1, 1), b"\xff", END], script(2))
whole("a second entry that is none", [opening(1, 2), OPENED, b"\xff", END], script(3))
whole("a first entry that opens nothing", [opening(1, 1), number(1, 4) + number(4, 0) + number(4, 1), END], script(2))
whole("a restored vote for a later place", [opening(1, 2), OPENED, wrote(BATCH, 2), END], script(3))
whole("a second restored vote of its kind", [opening(1, 3), OPENED, wrote(BATCH), wrote(BATCH), END], script(4))
whole("a restored decision of a later place", [opening(1, 2), OPENED, decided(BATCH_TWO, 2), END], script(3))
whole("a restored decision with a vote of another tag", [opening(1, len(BOOK))] + BOOK[:3] + [decided(BATCH, 1, UNSIGNED), END], script(5))
# what a member of four restores: the first that is damaged is told, which is the opening, or an entry by its part
for letters, damaged in [
    ("owd", None),
    ("osvd", None),
    # The first is the opening, each is spelled as it should be, and the book admits it.
    ("w", 1),
    ("o?", 2),
    ("oww", 3),
    ("odd", 3),
    ("ov", 2),
    ("odov", 4),
    # A decision rests on accepts of its batch, and a lock on writes of its own.
    ("oe", 2),
    ("of", 2),
    ("oh", 2),
    ("owad", None),
    ("oae", 3),
    ("oag", None),
    ("oah", 3),
    ("oada", 4),
    ("ob", 2),
    ("oc", 2),
]:
    restored(letters, damaged, EMPTY_FOUR)
for letters, damaged in [
    ("", None),
    ("o", None),
    # The place of the checkpoint may be decided in the log, once.
    ("od", None),
    ("odd", 3),
    ("w", 1),
]:
    restored(letters, damaged, WHOLE)
for letters in ["", "o", "w"]:
    restored(letters, 0, WHOLE[:-1])
whole_bytes("a part that is longer than what is left", text(opening(1)) + number(4, 2) + END, script(2))
whole_bytes("a length of three bytes", text(opening(1)) + number(3, 1), script(2))
whole("a damaged part before one that cannot be read", [opening(1, 1), b"\xff", number(1, 9)], script(2))
whole("a damaged part of a later trail", LONE + [opening(2, 1), b"\xff", END], script(len(LONE) + 2))

fronts("each proper front of a lone member's trail", LONE)
fronts("each proper front of a trail with an entry", [opening(1, 1), OPENED, END])
fronts("each proper front of a client's trail", ASKED)
