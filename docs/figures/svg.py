"""Boxes, lines and texts as SVG, for the script beside this one. Lengths are in pixels of a page that is 860 wide."""
from html import escape

WIDTH = 860
SIZE = 13

INK, PALE, PAPER = "#1f2933", "#7b8794", "#ffffff"


class Drawing:
    """A picture of one width. It is white, so that it can be read on a dark page."""

    def __init__(self, height, title, told):
        self.parts = []
        self.head = (
            f'<svg xmlns="http://www.w3.org/2000/svg" viewBox="0 0 {WIDTH} {height}" width="{WIDTH}" height="{height}" '
            f'role="img" font-family="Verdana, DejaVu Sans, sans-serif" font-size="{SIZE}">\n'
            f"<title>{escape(title)}</title>\n<desc>{escape(told)}</desc>\n"
            f'<rect width="{WIDTH}" height="{height}" fill="{PAPER}"/>\n'
        )

    def box(self, x, y, width, height, fill=PAPER, edge=INK, dashed=False, corner=4):
        dashes = ' stroke-dasharray="4 3"' if dashed else ""
        self.parts.append(
            f'<rect x="{x}" y="{y}" width="{width}" height="{height}" rx="{corner}" fill="{fill}" stroke="{edge}"{dashes}/>'
        )

    def line(self, x, y, to_x, to_y, edge=INK, dashed=False, width=1.2):
        dashes = ' stroke-dasharray="4 3"' if dashed else ""
        self.parts.append(
            f'<line x1="{x}" y1="{y}" x2="{to_x}" y2="{to_y}" stroke="{edge}" stroke-width="{width}"{dashes}/>'
        )

    def text(self, x, y, some, fill=INK, mono=False, at="start", bold=False, size=SIZE, clear=False):
        """A text whose baseline is at y: it starts at x, ends there or has its middle there.

        A clear one hides the lines that it crosses.
        """
        more = ' font-family="DejaVu Sans Mono, Menlo, Consolas, monospace"' if mono else ""
        more += ' font-weight="bold"' if bold else ""
        more += f' font-size="{size}"' if size != SIZE else ""
        more += f' text-anchor="{at}"' if at != "start" else ""
        more += f' stroke="{PAPER}" stroke-width="5" paint-order="stroke"' if clear else ""
        self.parts.append(f'<text x="{x}" y="{y}" fill="{fill}" xml:space="preserve"{more}>{escape(some)}</text>')

    def texts(self, x, y, lines, step=18, **how):
        for number, some in enumerate(lines):
            self.text(x, y + number * step, some, **how)

    def __str__(self):
        return self.head + "\n".join(self.parts) + "\n</svg>\n"
