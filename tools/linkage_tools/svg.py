"""A picture in SVG: bars and words, each value labelled where it stands; readable in grey and in black and white."""

from html import escape

INK, QUIET = "#1a1a1a", "#555555"
LINK, POSSIBLE, NONLINK = "#1b5e20", "#c77c00", "#bbbbbb"  # dark, middle and light in grey too
WIDTH = 860


class Picture:
    """A picture of a width of 860 units, that grows downwards. Its title says what it finds."""

    def __init__(self, title: str, words: str):
        self.title, self.parts, self.height = title, [], 0.0
        self.text(20, 28, title, size=16, bold=True)
        for at, line in enumerate(folded(words, 100)):
            self.text(20, 50 + 17 * at, line, fill=QUIET)

    def reaches(self, y: float) -> None:
        """The picture is at least so high."""
        self.height = max(self.height, y)

    def rect(self, x: float, y: float, width: float, height: float, fill: str) -> None:
        self.parts.append(f'<rect x="{x:.1f}" y="{y:.1f}" width="{max(width, 0):.1f}" height="{height:.1f}" fill="{fill}"/>')
        self.reaches(y + height)

    def line(self, x1: float, y1: float, x2: float, y2: float, stroke: str = INK, width: float = 1, dashes: str = "") -> None:
        more = (f' stroke-width="{width}"' if width != 1 else "") + (f' stroke-dasharray="{dashes}"' if dashes else "")
        self.parts.append(f'<line x1="{x1:.1f}" y1="{y1:.1f}" x2="{x2:.1f}" y2="{y2:.1f}" stroke="{stroke}"{more}/>')
        self.reaches(max(y1, y2))

    def dot(self, x: float, y: float) -> None:
        self.parts.append(f'<circle cx="{x:.1f}" cy="{y:.1f}" r="4" fill="{INK}"/>')
        self.reaches(y + 4)

    def text(self, x: float, y: float, words: str, anchor: str = "start", size: int = 13, fill: str = INK, bold: bool = False,
             halo: bool = False) -> None:
        """Words; with a halo they stand out from a line below them."""
        more = (' font-weight="bold"' if bold else "") + (' stroke="#ffffff" stroke-width="5" paint-order="stroke"' if halo else "")
        place = f'x="{x:.1f}" y="{y:.1f}" text-anchor="{anchor}"'
        self.parts.append(f'<text {place} font-size="{size}" fill="{fill}"{more}>{escape(words)}</text>')
        self.reaches(y + 6)

    def svg(self) -> str:
        """The text of the picture."""
        height = self.height + 16
        head = (f'<svg xmlns="http://www.w3.org/2000/svg" width="{WIDTH}" height="{height:.0f}" viewBox="0 0 {WIDTH} {height:.0f}"'
                f' font-family="sans-serif" role="img">\n<title>{escape(self.title)}</title>\n')
        return head + f'<rect width="{WIDTH}" height="{height:.0f}" fill="#ffffff"/>\n' + "\n".join(self.parts) + "\n</svg>\n"


def folded(words: str, width: int) -> list[str]:
    """Words in lines of at most so many characters."""
    lines = [""]
    for word in words.split():
        if len(lines[-1]) + len(word) + 1 > width:
            lines.append("")
        lines[-1] = f"{lines[-1]} {word}".strip()
    return lines


def whole(number: float) -> str:
    """A count as people read it."""
    return f"{number:,.0f}" if number >= 9.5 or number == int(number) else f"{number:.1f}"
