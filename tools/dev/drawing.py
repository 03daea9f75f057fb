"""Pictures as text: SVG that a browser shows in light and in dark, and in which no text is wider than its room or lies on another.

A text's width is reckoned with a font that is wider than most, so that it fits with the reader's font too."""
import html

FONT = "system-ui, 'Segoe UI', Helvetica, Arial, 'DejaVu Sans', sans-serif"
# Letters by their width, in hundredths of the size, as DejaVu Sans has them; bold ones are up to a quarter wider, and code is as wide as 'e'.
LETTERS = {27: "'", 28: "ijl", 29: "IJ", 32: " ,.·", 34: "/:;\\|", 35: "f", 36: "-", 39: "()[]t", 40: "!⁶", 41: "r", 46: '"', 50: "*_`–", 52: "sz", 53: "?⁻", 55: "c",
           56: "L", 58: "Fk", 59: "vxyλ", 60: "P", 61: "TYao", 62: "e", 63: "ESbdghnpqu", 64: "$0123456789{}", 66: "K", 68: "AV", 69: "BRXZ", 70: "C", 73: "U", 75: "HN",
           77: "DG", 78: "&", 79: "OQ", 82: "w", 84: "#+<=>^~×→←≤≥", 86: "M", 95: "%", 97: "m", 99: "W", 100: "@…"}
WIDTHS = {letter: width for width, letters in LETTERS.items() for letter in letters}
BOLD, CODE = 124, 62

# What each class of an element looks like: in light, in dark.
LOOKS = {
    "paper": ("fill:#ffffff", "fill:#0d1117"), "ink": ("fill:#1f2328", "fill:#e6edf3"), "faint": ("fill:#57606a", "fill:#9198a1"),
    "box": ("fill:#f6f8fa;stroke:#8c959f", "fill:#161b22;stroke:#6e7681"), "line": ("fill:none;stroke:#6e7781;stroke-width:1.4", "fill:none;stroke:#8b949e;stroke-width:1.4"),
    "head": ("fill:#6e7781", "fill:#8b949e"), "room": ("fill:#e7ebef", "fill:#2a313c"), "rule": ("fill:none;stroke:#d0d7de", "fill:none;stroke:#30363d"),
    "good": ("fill:#2f7d42", "fill:#3fb950"), "bad": ("fill:#b3261e", "fill:#f0655b"), "mark": ("fill:#0a5ea8", "fill:#58a6ff"), "look": ("fill:#8a4b00", "fill:#e0a458"), "onfill": ("fill:#ffffff", "fill:#0d1117"),
    "residual": ("fill:#c0392b", "fill:#f0655b"), "single-point": ("fill:#7b241c", "fill:#b8554b"), "latent": ("fill:#2e6da4", "fill:#58a6ff"),
    "detected": ("fill:#3a8f4d", "fill:#3fb950"), "safe": ("fill:#b8ccb9", "fill:#57705c"), "outside": ("fill:#999999", "fill:#6e7681"),
    "window": ("fill:#fff3c4;stroke:#b08800;stroke-dasharray:4 3", "fill:#3a3000;stroke:#d4a72c;stroke-dasharray:4 3"),
}


class Overflow(Exception):
    pass


def width_of(words, size, bold=False, code=False):
    letters = sum(CODE if code else WIDTHS[letter] for letter in words) / 100
    return letters * size * (BOLD / 100 if bold else 1)


def wrapped(words, room, size):
    """The words in lines that fit the room."""
    lines = [""]
    for word in words.split():
        longer = f"{lines[-1]} {word}".strip()
        if width_of(longer, size) > room and lines[-1]:
            lines.append(word)
        else:
            lines[-1] = longer
    return lines


def style():
    side = lambda at: "".join(f".{name}{{{looks[at]}}}" for name, looks in LOOKS.items())
    return (f"text{{font-family:{FONT}}}.code{{font-family:ui-monospace,'DejaVu Sans Mono',Menlo,Consolas,monospace}}.bold{{font-weight:600}}" + side(0)
            + "@media (prefers-color-scheme:dark){" + side(1) + "}")


class Picture:
    """A picture of a size, with its title and a sentence for who can't see it."""

    def __init__(self, width, height, title, said):
        self.width, self.height, self.title, self.said, self.pieces, self.texts = width, height, title, said, [], []
        self.rect(0, 0, width, height, "paper", round_by=6)

    def add(self, name, attributes, inner=None):
        shown = "".join(f' {key}="{html.escape(str(round(value, 1) if isinstance(value, float) else value))}"' for key, value in attributes.items())
        self.pieces.append(f"<{name}{shown}/>" if inner is None else f"<{name}{shown}>{inner}</{name}>")

    def rect(self, x, y, width, height, look, round_by=0):
        self.add("rect", {"class": look, "x": x, "y": y, "width": width, "height": height, **({"rx": round_by} if round_by else {})})

    def line(self, *points, look="line"):
        self.add("polyline", {"class": look, "points": " ".join(f"{round(x, 1):g},{round(y, 1):g}" for x, y in points)})

    def arrow(self, *points):
        """A line with a head at its last point; its last piece goes along an axis."""
        self.line(*points)
        (fx, fy), (x, y) = points[-2:]
        dx, dy = (x > fx) - (x < fx), (y > fy) - (y < fy)
        corners = [(x, y), (x - 7 * dx - 4 * dy, y - 7 * dy - 4 * dx), (x - 7 * dx + 4 * dy, y - 7 * dy + 4 * dx)]
        self.add("polygon", {"class": "head", "points": " ".join(f"{px:g},{py:g}" for px, py in corners)})

    def text(self, x, y, words, look="ink", size=13, anchor="start", room=None, bold=False, code=False):
        wide = width_of(words, size, bold, code)
        left = x - {"start": 0, "middle": wide / 2, "end": wide}[anchor]
        if room is not None and wide > room:
            raise Overflow(f"{words!r} takes {wide:.0f} and has {room:.0f}")
        self.texts.append((left, y - 0.8 * size, left + wide, y + 0.2 * size, words))
        classes = " ".join([look, *(["bold"] if bold else []), *(["code"] if code else [])])
        self.add("text", {"class": classes, "x": x, "y": y, "font-size": size, **({"text-anchor": anchor} if anchor != "start" else {})}, html.escape(words))

    def lines(self, x, y, pieces, step=18, **more):
        for k, words in enumerate(pieces):
            self.text(x, y + k * step, words, **more)

    def labelled(self, x, y, width, height, words, look="box", size=13, step=17, **more):
        """A box with lines of text in its middle."""
        words = [words] if isinstance(words, str) else words
        self.rect(x, y, width, height, look, round_by=4)
        self.lines(x + width / 2, y + height / 2 + 0.36 * size - step * (len(words) - 1) / 2, words, step, size=size, anchor="middle", room=width - 8, **more)

    def check(self):
        for left, top, right, bottom, words in self.texts:
            if left < 2 or top < 2 or right > self.width - 2 or bottom > self.height - 2:
                raise Overflow(f"{self.title}: {words!r} leaves the picture")
        for at, (left, top, right, bottom, words) in enumerate(self.texts):
            for left2, top2, right2, bottom2, other in self.texts[:at]:
                if left < right2 and left2 < right and top < bottom2 and top2 < bottom:
                    raise Overflow(f"{self.title}: {words!r} lies on {other!r}")

    def svg(self):
        self.check()
        head = f'<svg xmlns="http://www.w3.org/2000/svg" viewBox="0 0 {self.width} {self.height}" width="{self.width}" height="{self.height}" role="img">'
        return "\n".join([head, f"<title>{html.escape(self.title)}</title>", f"<desc>{html.escape(self.said)}</desc>", f"<style>{style()}</style>", *self.pieces, "</svg>", ""])
