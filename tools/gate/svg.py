"""Parts of pictures."""

import html


def text(x, y, words, more=""):
    return f'<text x="{x}" y="{y}"{more}>{html.escape(words)}</text>'


def box(x, y, width, height, more):
    return f'<rect x="{x}" y="{y}" width="{width}" height="{height}"{more}/>'
