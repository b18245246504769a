"""The few shapes that the pictures are made of, as lines of an SVG."""
from xml.sax.saxutils import escape

COLOURS = ("#4878a8", "#d98032", "#5a9e52", "#b8504c", "#8868a8", "#8a6a4a", "#c878a8", "#787878", "#a8a232", "#3a9eae")


def box(x, y, width, height, fill, title="", stroke="none"):
    inner = f"<title>{escape(title)}</title>" if title else ""
    return f'<rect x="{x:.1f}" y="{y:.1f}" width="{max(width, 1):.1f}" height="{height:.1f}" fill="{fill}" stroke="{stroke}">{inner}</rect>'


def line(x1, y1, x2, y2, colour="#444", dashes=""):
    more = f' stroke-dasharray="{dashes}"' if dashes else ""
    return f'<line x1="{x1:.1f}" y1="{y1:.1f}" x2="{x2:.1f}" y2="{y2:.1f}" stroke="{colour}"{more}/>'


def arrow(points):
    path = " ".join(f"{x:.1f},{y:.1f}" for x, y in points)
    return f'<polyline points="{path}" fill="none" stroke="#444" marker-end="url(#tip)"/>'


def text(x, y, what, size=12, colour="#222", anchor="start"):
    return f'<text x="{x:.1f}" y="{y:.1f}" font-size="{size}" fill="{colour}" text-anchor="{anchor}">{escape(what)}</text>'


def picture(width, height, shapes):
    tip = (
        '<defs><marker id="tip" markerWidth="8" markerHeight="8" refX="7" refY="4" orient="auto">'
        '<path d="M0,0 L8,4 L0,8 z" fill="#444"/></marker></defs>'
    )
    size = f'viewBox="0 0 {width} {height}" width="{width}" height="{height}"'
    head = f'<svg xmlns="http://www.w3.org/2000/svg" {size} font-family="sans-serif">'
    return "\n".join([head, tip, box(0, 0, width, height, "#ffffff"), *shapes, "</svg>", ""])
