"""Flights of examples/receive.c with the pod's programs, over a good link, a rough one and a dead one."""
import itertools
import random
import subprocess
from collections import Counter

from aircraft import differing
from link import LIMIT, MISCHIEF, SENDS, Dead, Link, Merciless, Refusing, flown, pod, started
from module import fail, run
from moves.packets import line_of
from ports.packets import is_acknowledgement

NAMES = {b"p": b"priority", b"o": b"ordinary"}
CODES = {b"p": 0x95, b"o": 0x96}
FULL = {b"p": 16, b"o": 128}
SOME = {b"p": 3, b"o": 6}
ROUGH = 40  # flights over a rough link with `console`
TO_SESSION = 12  # and with `session`
LIVES = 12  # packets, of which a dead link carries fewer
DUE = [f"{kind} {way}" for way in ("there", "back") for kind in MISCHIEF] + ["fourth send"]
NOTHING, LOST = b"waiting: 0 priority, 0 ordinary", b"the pod is lost"


def blocks(sizes, seed):
    """Blocks for each store, no two alike, the priority ones first: so receive fetches them."""
    rng = random.Random(f"blocks {seed}")
    return [(store, bytes((number,)) + rng.randbytes(255)) for store, size in sizes.items() for number in range(size)]


def line(store, block):
    """What receive says of a block."""
    return NAMES[store] + b":" + line_of(block)[1:]


def once(put):
    """What it says when each block comes once."""
    left = Counter(store for store, _ in put)
    for store, block in put:
        yield b"waiting: %d priority, %d ordinary" % (left[b"p"], left[b"o"])
        yield line(store, block)
        left[store] -= 1
    yield NOTHING


def ended(what, came, said, status):
    """A flight that must have ended so."""
    difference = differing(what, came[1], said)
    if difference or came[0] != status:
        fail(f"{what}: receive ended with status {came[0]}, and {status} is due\n{difference or ''}")


def with_session(receive):
    """Receive and `session`, each at the other's pipe: no block ever waits there."""
    with started(["./run", "session"]) as process:
        pipes = {"stdin": process.stdout, "stdout": process.stdin, "stderr": subprocess.PIPE}
        done = subprocess.run(receive, **pipes, timeout=LIMIT, check=False)
    ended("with session", (done.returncode, done.stderr.splitlines()), [NOTHING], 0)


def course(put):
    """The first bytes of what it sends then, and whether it acknowledges: each status and each block, once."""
    yield 0x90, False
    for store, _ in put:
        yield from itertools.product((0x91, CODES[store]), (False, True))
    yield from ((0x91, False), (0x91, True))


def reached(what, seen, due):
    """All that is due was seen."""
    missing = [kind for kind in due if not seen[kind]]
    if missing:
        fail(f"{what} never had: {', '.join(missing)}")


def good(receive, to, put):
    """Blocks over a good link: what was sent."""
    link = Link(to, put)
    ended("a good link", flown(receive, link), list(once(put)), 0)
    if [(packet[0], is_acknowledgement(packet)) for packet in link.sent] != list(course(put)):
        fail("over a good link receive sends other packets than Initialise, and Status and a block in turn, each acknowledged")
    return link.sent


def rough(receive, console, seed):
    """A flight over a rough link: how often each mischief was done, and how many packets it took."""
    put, what = blocks(SOME, seed), f"a rough link, seed {seed}"
    link = Link(console, put, random.Random(seed).choice((0.02, 0.08, 0.15)), seed)
    status, said = flown(receive, link)
    found = [one for one in said if not one.startswith(b"waiting")]
    names = {block: line(store, block) for store, block in put}
    ended(what, (status, found), [names[block] for block in link.handed], 0)
    ended(what, (status, [one for one, _ in itertools.groupby(found)]), list(names.values()), 0)
    ended(what, (status, said[-1:]), [NOTHING], 0)
    # Each time that a block came it was acknowledged, and one of these times the pod dropped it.
    taken = sum(packet[0] in (0x95, 0x96) and is_acknowledgement(packet) for packet in link.sent)
    if (taken, link.dropped) != (len(found), len(put)):
        fail(f"{what}: {len(found)} blocks came, {taken} acknowledgements went, {link.dropped} of {len(put)} were dropped")
    return link.seen, len(link.sent)


def dead(receive, console):
    """Links that die after some packets: four sends of the command that is next, and the pod is lost."""
    put = blocks(SOME, 0)
    whole = good(receive, console, put)
    for lives in range(LIVES):
        link = Dead(console, put, lives)
        status, said = flown(receive, link)
        asks = lives + is_acknowledgement(whole[lives])
        ended(f"a link that dies after {lives} packets", (status, said[-1:]), [LOST], 1)
        ended(f"a link that dies after {lives} packets", (status, link.sent), whole[:asks] + whole[asks:asks + 1] * SENDS, 1)
    done = subprocess.run(receive, stdin=subprocess.DEVNULL, capture_output=True, timeout=LIMIT, check=False)
    ended("no link", (done.returncode, done.stderr.splitlines()), [LOST], 1)
    ended("no link", (done.returncode, done.stdout.splitlines()), [line_of(whole[0])] * SENDS, 1)
    return LIVES + 1


def to_session(receive, seed, whole):
    """A flight over a rough link to `session`: the mischief, and whether the pod was lost, as the link knows. `whole` is what is
    sent over a good link."""
    what = f"a rough link to session, seed {seed}"
    with pod("session") as session:
        link = Merciless(session, (), random.Random(seed).choice((0.05, 0.15, 0.25)), seed)
        came = flown(receive, link)
    lost = link.spent == SENDS
    ended(what, came, [LOST] if lost else [NOTHING], int(lost))
    commands = [packet for packet, times in zip(whole, link.tries) for _ in range(times)]
    ended(what, (came[0], link.sent), commands if lost else commands + whole[-1:], came[0])
    return link.seen + Counter(["lost" if lost else "received"])


def rough_to_session(receive):
    """Rough links to `session`: how many there were, and over how many the pod was lost."""
    with pod("session") as session:
        whole = good(receive, session, ())
    seen = sum((to_session(receive, seed, whole) for seed in range(TO_SESSION)), Counter())
    reached("the rough links to session", seen, [*DUE, "lost", "received"])
    return f"{TO_SESSION} to session ({seen['lost']} lost)"


def rough_to_console(receive, console):
    """Rough links to `console`: how many there were, and what they took."""
    seen, packets = Counter(), 0
    for seed in range(ROUGH):
        more, sent = rough(receive, console, seed)
        seen, packets = seen + more, packets + sent
    reached("the rough links", seen, [*DUE, "block again"])
    return f"{ROUGH} rough links ({packets} packets, {seen['block again']} blocks again)"


def all_of(receive):
    """All flights, and a line about them."""
    for name in ("session", "console"):  # proved and built before any flight's limit runs
        run("./run", name, input=b"")
    with_session(receive)
    ended("a pod that refuses", flown(receive, Refusing()), [b"the pod answers with error 39"], 2)
    put = blocks(FULL, 0)
    with pod("console") as console:
        good(receive, console, put)
        roughs, died = rough_to_console(receive, console), dead(receive, console)
    return f"{len(put)} blocks over a good link, {roughs} and {rough_to_session(receive)}, {died} dead links"
