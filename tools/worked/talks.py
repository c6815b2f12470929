"""Plays conversations (*.rows).

One of a bare connection, or of one with a login, is held by a process of its own, `tsqld pipe`, whose status says how it ended.
What `pipe` can't show is held on a port, each time with an empty database: two sessions by two connections, another session than
the first by the connection whose SPID is its number's, and what is said `again` by one connection behind another."""
from itertools import takewhile

from worked.book import WAITS
from worked.server import Link, Listening, run_pipe
from worked.tokens import Tokens, replies_of, spid_of
from worked.wire import Unread

# Who logs in where the conversation says nothing of it.
USER = ("sa", "A")

# As many workers as there are sessions.
SESSIONS = 64

# For so many seconds a batch that waits is not answered.
PAUSE = 0.3


def chains_of(conversations):
    """The conversations in lists, one for each database: what is held again stands behind what was held before."""
    chains = []
    for conversation in conversations:
        if conversation.is_again() and chains:
            chains[-1].append(conversation)
        else:
            chains.append([conversation])
    return chains


def play(program, chain):
    """The rows that differ, each as line, title, wanted and given."""
    for conversation in chain:
        try:
            yield from named(conversation, differences(program, conversation))
        except (Unread, OSError) as fault:
            yield from all_steps(conversation, fault)
    if len(chain) > 1:
        yield from play_again(program, chain)


def named(conversation, found):
    for number, wanted, given in found:
        yield number, conversation.title, wanted, given


def all_steps(conversation, fault):
    """Each row of a conversation that could not be held."""
    steps = [step for step in conversation.steps if not step.is_late and not step.is_more]
    for step in steps or [conversation]:
        yield step.number, conversation.title, "a reply", str(fault)


def differences(program, conversation):
    if conversation.is_again():
        return
    if conversation.is_of_two():
        yield from of_two(program, conversation)
    elif conversation.session() != 1:
        yield from of_session(program, conversation)
    else:
        yield from by_pipe(program, conversation)


# ---- one connection, by a process


def by_pipe(program, conversation):
    steps, piece = conversation.steps, int(conversation.settings.get("pieces", 0))
    data = [step.sent() for step in steps]
    yield from by_bytes(program, conversation, steps, b"".join(data), conversation.status, piece)
    if "cuts" in conversation.settings:
        yield from by_fronts(program, conversation, data)


def by_fronts(program, conversation, data):
    """The same by each front of its bytes: it is closed between two steps, and cut within one."""
    before = b""
    for at, sent in enumerate(data):
        for place in range(len(sent)):
            steps, status = conversation.steps[:at], 5 if place else 0
            found = list(by_bytes(program, conversation, steps, before + sent[:place], status, 0))
            if found:
                _number, wanted, given = found[0]
                yield conversation.steps[at].number, f"{wanted}, cut after {place} bytes", given
                break
        before += sent


def by_bytes(program, conversation, steps, data, status, piece):
    written, ended = run_pipe(program, conversation.login(), data, piece, conversation.flags())
    replies = replies_of(written, conversation.size())
    yield from compare(steps, replies, 51)
    if ended != status:
        yield conversation.number, f"status {status}", f"status {ended}"


def compare(steps, replies, spid):
    """What differs between the replies that are wanted, one for each step that has one, and those that came."""
    replies = list(replies)
    for step in steps:
        if step.has_reply():
            yield from compare_reply(step, replies.pop(0) if replies else None, spid)
    if replies:
        yield steps[-1].number if steps else 0, "no more replies", replies[0][0].hex(" ")


def compare_reply(step, reply, spid):
    if reply is None:
        yield step.number, "a reply", "no reply"
        return
    whole, payload = reply
    if step.wanted and isinstance(step.wanted[0], bytes):
        if whole != step.wanted[0]:
            yield step.lines[0], step.wanted[0].hex(" "), whole.hex(" ")
    elif spid_of(whole) != spid:
        yield step.number, f"SPID {spid}", f"SPID {spid_of(whole)}"
    else:
        yield from compare_lines(step, Tokens(payload).lines())


def compare_lines(step, given):
    """The first line that differs."""
    if given == step.wanted:
        return
    same = len(list(takewhile(lambda pair: pair[0] == pair[1], zip(step.wanted, given))))
    number = step.lines[same] if same < len(step.lines) else (step.lines or [step.number])[-1]
    yield number, *((lines[same] if same < len(lines) else "nothing more") for lines in (step.wanted, given))


# ---- connections to a port


def asked(link, step):
    """The reply to a step, or None where it has none."""
    link.send(step.sent())
    return link.reply() if step.has_reply() else None


def of_session(program, conversation):
    """By the connection whose SPID is that of the session, among as many as there can be. Where the conversation logs in by
    itself, its bytes are sent by all of them, up to the reply that has this SPID."""
    user, spid, steps = conversation.login(), 50 + conversation.session(), list(conversation.steps)
    with Listening(program, user or USER, SESSIONS, conversation.flags()) as listening:
        if user is None:
            link, found = listening.members()[spid], []
        else:
            links = [listening.link() for _ in range(SESSIONS)]
            link, found = by_all(links, steps, spid)
        link.size = conversation.size()
        for step in steps[len(found) :]:
            found.append(asked(link, step))
        rest = [] if conversation.status else replies_of(link.rest(), conversation.size())
    spids = [51 if step.sent()[:1] == b"\x12" else spid for step in steps]
    for step, reply, of in zip(steps, found, spids):
        if step.has_reply():
            yield from compare_reply(step, reply, of)
    if rest:
        yield steps[-1].number, "no more replies", rest[0][0].hex(" ")


def by_all(links, steps, spid):
    """The connection of this SPID, and the replies that it got so far."""
    given = {link: [] for link in links}
    for step in steps:
        for link in links:
            link.send(step.sent())
        for link in links:
            given[link].append(link.reply())
        if step.sent()[:1] != b"\x12":
            break
    for link, replies in given.items():
        if spid_of(replies[-1][0]) == spid:
            return link, replies
    raise Unread(f"no connection has SPID {spid}")


def of_two(program, conversation):
    """By two connections. A batch is sent when the one before it is answered, or waits."""
    with Listening(program, USER, 2, conversation.flags()) as listening:
        members = listening.members()
        links = [members[51], members[52]]
        for step in conversation.steps:
            link = links[step.is_second]
            if not step.is_late:
                link.send(step.sent())
            waits = step.wanted == [WAITS]
            reply = link.reply(PAUSE) if waits else link.reply()
            if reply is None:
                continue
            yield from compare_reply(step, reply, 51 + step.is_second)


def play_again(program, chain):
    """All of a chain by one worker: the conversations that are held again are compared."""
    with Listening(program, chain[0].login() or USER, 1, chain[0].flags()) as listening:
        for conversation in chain:
            found = over_port(listening, conversation)
            if conversation.is_again():
                yield from named(conversation, found)


def over_port(listening, conversation):
    link = listening.link()
    if conversation.login() is None:
        link.log_in(listening.user)
    link.send(b"".join(step.sent() for step in conversation.steps))
    found = list(compare(conversation.steps, replies_of(link.rest(), conversation.size()), 51))
    link.close()
    return found
