"""The pictures of docs/pictures, drawn from the tables of the sheet and from crates.txt."""
from .camera import places
from .layers import layers
from .svg import BLUE, GREEN, INK, LINE, PALE, RED, SAND, SOFT, Picture

BIT, ROW = 104, 58


def all(take):
    """Every picture, by its file's name."""
    frames = {"an03.svg": "AN03", "an47.svg": "AN47"}
    drawn = {name: frame(title, take("Bits", "Shows", "In the guide", heading=title)) for name, title in frames.items()}
    drawn["exchange.svg"] = exchange(take("What comes", "Answer", "Exchange", "Block"))
    drawn["transfer.svg"] = transfer(take("Word", "Is", "Of a load, right when"),
                                     take("What comes", "Message error", "Open transfer"))
    drawn["crates.svg"] = layers()
    return drawn


def frame(title, table):
    """The 64 bits of a frame, a byte in each row, the highest bit on the left."""
    picture = Picture(70 + 8 * BIT + 20, 56 + 8 * ROW + 20, "The bits of %s" % title)
    picture.text(35, 40, "byte", 12, SOFT)
    for bit in range(8):
        picture.text(70 + (7 - bit) * BIT + BIT / 2, 40, "bit %d" % bit, 12, SOFT)
    for byte in range(8):
        picture.text(35, 56 + byte * ROW + ROW / 2 + 5, str(byte), 14, INK, bold=True)
    for row in table:
        byte, high, low = places(row)
        x, width = 70 + (7 - high) * BIT, (high - low + 1) * BIT
        fill = PALE if row[1] == "0" else BLUE if row[1].startswith("channel") else SAND
        picture.box(x + 2, 56 + byte * ROW + 2, width - 4, ROW - 4, fill)
        picture.centred(x + width / 2, 56 + byte * ROW + ROW / 2, row[1], width - 14, 11 if width == BIT else 13,
                        SOFT if row[1] == "0" else INK)
    return picture.drawn()


def exchange(table):
    """Two states, and a lane for each row of the table."""
    lane, top, left, right = 46, 96, 190, 900
    opens = [row for row in table if "opens" in row[2]]
    lanes = [(row, "open") for row in opens] + [(row, "stays" if row[2] == "stays" else "again" if row in opens else "close")
                                                for row in table]
    height = top + lane * len(lanes) + 10
    picture = Picture(right + 190, height + 20, "An exchange")
    for x, name, text, fill in ((20, "closed", "no exchange is open", PALE),
                                (right, "open", "one code waits for its acknowledgement", GREEN)):
        picture.box(x, 20, 170, height - 20, fill)
        picture.text(x + 85, 48, name, 16, INK, bold=True)
        picture.block(x + 85, 70, text, 150, 12, SOFT)
    for at, (row, kind) in enumerate(lanes):
        y = top + lane * at + 28
        text, ink = said(row, row[0].replace("*", ""), kind), RED if row[3].startswith("dropped") else INK
        if kind in ("open", "close"):
            ends = [(left + 4, y), (right - 4, y)]
            picture.path(ends if kind == "open" else ends[::-1], arrow=True)
            picture.text((left + right) / 2, y - 7, text, 12, ink)
        else:
            picture.path([(right - 4, y - 11), (right - 110, y - 11), (right - 110, y + 1), (right - 4, y + 1)], arrow=True)
            picture.text(right - 122, y - 1, text, 12, ink, "end")
    return picture.drawn()


def said(row, what, kind):
    """What stands beside an arrow: what comes, its answer, and what becomes of the block."""
    answer = {"none": "no answer", "data": "data", "its own": "its own answer"}.get(row[1], "error " + row[1])
    if kind == "open":
        return "%s: %s" % (what, answer)
    if kind == "again":
        return "%s: %s; closes, and opens for that code; the block is %s" % (what, answer, row[3])
    return "%s: %s; the block is %s" % (what, answer, row[3])


def transfer(words, errors):
    """A load and a read from left to right, and what cuts them short."""
    cuts = [row[0] for row in errors if row[1] == "set" and row[2] in ("closes", "closes, then its own opens")
            and "last word" not in row[0]]
    picture = Picture(1060, 470 + 20 * len(cuts), "A transfer")
    for top, name, letter, verb in ((20, "a load", "W", "written"), (250, "a read", "R", "given")):
        picture.text(20, top + 20, name, 16, INK, "start", bold=True)
        picture.box(20, top + 36, 130, 56, GREEN)
        picture.centred(85, top + 64, "command word, accepted", 116)
        for at, row in enumerate(words):
            x = 180 + at * 170
            picture.path([(x - 28, top + 64), (x - 3, top + 64)], arrow=True)
            picture.box(x, top + 36, 140, 56, BLUE)
            label = "words %s" % row[0] if " to " in row[0] else "word %s" % row[0]
            picture.text(x + 70, top + 60, label, 13, INK, bold=True)
            picture.text(x + 70, top + 80, "%s (%s)" % (verb, letter), 11, SOFT)
            below = picture.block(x + 70, top + 112, row[1], 146, 12)
            if letter == "W" and row[2] != "always":
                picture.block(x + 70, below + 6, "right when " + row[2], 146, 11, SOFT)
        picture.path([(832, top + 64), (857, top + 64)], arrow=True)
        picture.box(860, top + 36, 180, 56, SAND)
        picture.centred(950, top + 64, "judged with its last word" if letter == "W" else "done with its last word", 166)
        if letter == "W":
            below = picture.block(950, top + 112, "right: the addressed words are stored, and no other", 180, 12)
            picture.block(950, below + 6, "not right: nothing is stored, and message error is set", 180, 12, RED)
    picture.path([(20, 400), (1040, 400)], LINE, width=1)
    picture.text(20, 428, "Cut short before its last word: nothing is stored, and message error is set. It is cut by", 13, RED, "start")
    for at, cut in enumerate(cuts):
        picture.text(40, 454 + 20 * at, cut, 12, INK, "start")
    return picture.drawn()
