"""Plain SVG: boxes, lines and texts of a measured width."""
from xml.sax.saxutils import escape

INK, SOFT, PALE, LINE = "#1f2933", "#52606d", "#f5f7fa", "#9aa5b1"
BLUE, GREEN, SAND, RED = "#dbeafe", "#dcfce7", "#fef3c7", "#b42318"
STYLE = "font-family=\"DejaVu Sans, Verdana, Arial, sans-serif\""


def wide(text, size=13):
    """The width of a text in DejaVu Sans, rounded up."""
    narrow, broad = sum(c in "iljtfr.,;:!'|()-1 I" for c in text), sum(c in "mwMWA@%" for c in text)
    return size * (0.63 * len(text) - 0.24 * narrow + 0.24 * broad)


def wrapped(text, width, size=13):
    """A text cut into lines that fit."""
    lines, line = [], ""
    for word in text.split(" "):
        longer = (line + " " + word).strip()
        if line and wide(longer, size) > width:
            lines.append(line)
            longer = word
        line = longer
    return lines + [line]


class Picture:
    """A drawing that grows by parts."""

    def __init__(self, width, height, title):
        self.width, self.height = width, height
        self.title = title
        self.parts = []

    def box(self, x, y, width, height, fill=PALE, line=LINE, dash=False):
        """A rectangle."""
        self.parts.append('<rect x="%.1f" y="%.1f" width="%.1f" height="%.1f" rx="4" fill="%s" stroke="%s"%s/>' % (
            x, y, width, height, fill, line, ' stroke-dasharray="4 3"' if dash else ""))

    def text(self, x, y, text, size=13, ink=INK, anchor="middle", bold=False):
        """One line of text."""
        self.parts.append('<text x="%.1f" y="%.1f" font-size="%d" fill="%s" text-anchor="%s"%s>%s</text>' % (
            x, y, size, ink, anchor, ' font-weight="bold"' if bold else "", escape(text)))

    def block(self, x, y, text, width, size=12, ink=INK, anchor="middle"):
        """A text of several lines, the first at y; gives the place below them."""
        for line in wrapped(text, width, size):
            self.text(x, y, line, size, ink, anchor)
            y += size * 1.3
        return y

    def centred(self, x, y, text, width, size=12, ink=INK):
        """A text of several lines about a middle."""
        lines = wrapped(text, width, size)
        y -= (len(lines) - 1) * size * 1.25 / 2 - size * 0.36
        for at, line in enumerate(lines):
            self.text(x, y + at * size * 1.25, line, size, ink)

    def path(self, places, ink=SOFT, arrow=False, width=1.4):
        """A line through places, perhaps with an arrow's head."""
        steps = " L ".join("%.1f %.1f" % place for place in places)
        self.parts.append('<path d="M %s" fill="none" stroke="%s" stroke-width="%.1f"%s/>' % (
            steps, ink, width, ' marker-end="url(#head)"' if arrow else ""))

    def curve(self, places, ink=LINE):
        """A smooth line from place to place, upright at each."""
        steps = "M %.1f %.1f" % places[0]
        for (x, y), (u, v) in zip(places, places[1:]):
            steps += " C %.1f %.1f %.1f %.1f %.1f %.1f" % (x, (y + v) / 2, u, (y + v) / 2, u, v)
        self.parts.append('<path d="%s" fill="none" stroke="%s" stroke-width="1.2"/>' % (steps, ink))

    def drawn(self):
        """The whole text."""
        head = ('<svg xmlns="http://www.w3.org/2000/svg" viewBox="0 0 %d %d" width="%d" height="%d" role="img" %s>\n'
                "<title>%s</title>\n"
                '<defs><marker id="head" viewBox="0 0 10 10" refX="9" refY="5" markerWidth="7" markerHeight="7" orient="auto">'
                '<path d="M 0 1 L 9 5 L 0 9 z" fill="%s"/></marker></defs>\n'
                '<rect width="%d" height="%d" fill="#ffffff"/>\n')
        return head % (self.width, self.height, self.width, self.height, STYLE, escape(self.title), SOFT,
                       self.width, self.height) + "\n".join(self.parts) + "\n</svg>\n"
