"""The pieces of a picture: lines of SVG, the same for the same calls."""
from xml.sax.saxutils import escape

INK, PALE, PAPER = '#222222', '#6e6e6e', '#ffffff'
# How wide a letter of a monospaced font of 11 pixels is, rounded up.
LETTER = 6.7


class Picture:
    def __init__(self):
        self.shapes, self.words, self.heads = [], [], []

    def put(self, shape):
        self.shapes.append(shape)

    def path(self, way, color=INK, width=1, dash='', arrow=False, fill='none'):
        dashes = f' stroke-dasharray="{dash}"' if dash else ''
        head = f' marker-end="url(#head{color[1:]})"' if arrow else ''
        if arrow and color not in self.heads:
            self.heads.append(color)
        self.put(f'<path d="{way}" fill="{fill}" stroke="{color}" stroke-width="{width}"{dashes}{head}/>')

    def line(self, x1, y1, x2, y2, color=INK, width=1, dash='', arrow=False):
        self.path(f'M{x1} {y1}L{x2} {y2}', color, width, dash, arrow)

    def cross(self, x, y, color, arm=4):
        self.path(f'M{x - arm} {y - arm}L{x + arm} {y + arm}M{x - arm} {y + arm}L{x + arm} {y - arm}', color, 2)

    def dot(self, x, y, radius, color):
        self.put(f'<circle cx="{x}" cy="{y}" r="{radius}" fill="{color}"/>')

    def box(self, x, y, width, height, color=INK, thick=1, dash='', fill=PAPER):
        dashes = f' stroke-dasharray="{dash}"' if dash else ''
        self.put(f'<rect x="{x}" y="{y}" width="{width}" height="{height}" rx="4" fill="{fill}"'
            f' stroke="{color}" stroke-width="{thick}"{dashes}/>')

    def text(self, x, y, words, color=INK, side='start', size=11, font='monospace', title=''):
        """Words above all shapes; a browser shows the title when the pointer is on them."""
        told = f'<title>{escape(title)}</title>' if title else ''
        self.words.append(f'<text x="{x}" y="{y}" fill="{color}" text-anchor="{side}" font-size="{size}"'
            f' font-family="{font}">{told}{escape(words)}</text>')

    def whole(self, width, height, title):
        """The text of the picture, on paper of this size. Words have a rim of paper: legible over lines."""
        heads = [f'<marker id="head{color[1:]}" viewBox="0 0 8 8" refX="8" refY="4" markerWidth="8"'
            f' markerHeight="8" markerUnits="userSpaceOnUse" orient="auto">'
            f'<path d="M0 0L8 4L0 8z" fill="{color}"/></marker>' for color in self.heads]
        return '\n'.join([
            f'<svg xmlns="http://www.w3.org/2000/svg" width="{width}" height="{height}"'
            f' viewBox="0 0 {width} {height}">',
            f'<title>{escape(title)}</title>', '<defs>', *heads, '</defs>',
            f'<rect width="{width}" height="{height}" fill="{PAPER}"/>', *self.shapes,
            f'<g stroke="{PAPER}" stroke-width="3" stroke-linejoin="round" paint-order="stroke">', *self.words,
            '</g>', '</svg>', ''])
