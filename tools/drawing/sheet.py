"""A sheet of SVG: lines, shapes and texts in one plain style, with the room that each text takes."""

from html import escape

FONT = 12
CHARACTER = 7.3  # a character's width, of any monospaced font at this size
INK, FAINT, GOOD, BAD, HELD = "#1f2933", "#c9d1d9", "#1a7f4b", "#c0392b", "#b7791f"
STYLE = f"text{{font:{FONT}px ui-monospace,Menlo,Consolas,'DejaVu Sans Mono',monospace;fill:{INK}}}"

Box = tuple[float, float, float, float]


def number(value: float) -> str:
    return f"{value:.1f}".rstrip("0").rstrip(".")


def width_of(text: str) -> float:
    return len(text) * CHARACTER


class Sheet:
    """What is drawn, in order, later things over earlier ones. `texts` has the box of each text."""

    def __init__(self) -> None:
        self._parts: list[str] = []
        self.texts: list[tuple[str, Box]] = []

    def element(self, name: str, **attributes: str | float) -> None:
        said = " ".join(
            f'{key.replace("_", "-")}="{value if isinstance(value, str) else number(value)}"' for key, value in attributes.items()
        )
        self._parts.append(f"<{name} {said}/>")

    def line(self, x1: float, y1: float, x2: float, y2: float, color: str = INK, **more: str | float) -> None:
        self.element("line", x1=x1, y1=y1, x2=x2, y2=y2, stroke=color, **more)

    def box(self, x: float, y: float, width: float, height: float, fill: str, **more: str | float) -> None:
        self.element("rect", x=x, y=y, width=width, height=height, fill=fill, **more)

    def head(self, x: float, y: float, to_right: bool, color: str = INK) -> None:
        """The head of an arrow that ends at x."""
        back = x - 7 if to_right else x + 7
        self.element("polygon", points=f"{number(x)},{number(y)} {number(back)},{number(y - 3.5)} {number(back)},{number(y + 3.5)}", fill=color)

    def cross(self, x: float, y: float, color: str = BAD, size: float = 4) -> None:
        self.line(x - size, y - size, x + size, y + size, color, stroke_width=1.6)
        self.line(x - size, y + size, x + size, y - size, color, stroke_width=1.6)

    def text(self, x: float, y: float, text: str, color: str = INK, anchor: str = "start") -> None:
        """A text whose letters stand on y."""
        left = x - {"start": 0, "middle": width_of(text) / 2, "end": width_of(text)}[anchor]
        self.texts.append((text, (left, y - FONT + 2, left + width_of(text), y + 3)))
        fill = "" if color == INK else f' style="fill:{color}"'
        at = "" if anchor == "start" else f' text-anchor="{anchor}"'
        self._parts.append(f'<text x="{number(x)}" y="{number(y)}"{at}{fill}>{escape(text, quote=False)}</text>')

    def overlaps(self) -> list[tuple[str, str]]:
        """Pairs of texts that stand on one another."""
        return [
            (one, other)
            for place, (one, a) in enumerate(self.texts)
            for other, b in self.texts[place + 1 :]
            if a[0] < b[2] and b[0] < a[2] and a[1] < b[3] and b[1] < a[3]
        ]

    def svg(self, width: float, height: float, title: str) -> str:
        size = f'width="{number(width)}" height="{number(height)}" viewBox="0 0 {number(width)} {number(height)}"'
        head = f'<svg xmlns="http://www.w3.org/2000/svg" {size} role="img">'
        paper = '<rect width="100%" height="100%" fill="#ffffff"/>'
        lines = [head, f"<title>{escape(title)}</title>", f"<style>{STYLE}</style>", paper, *self._parts, "</svg>"]
        return "\n".join(lines) + "\n"
