"""Colours, and the few shapes of SVG that the pictures are made of. Places are in pixels, from the top left."""
from html import escape

LIGHT = ["#0a6ebd", "#c4451c", "#0b7f5c", "#8546a6", "#a87b00", "#0f8a96", "#b52a6b", "#5c6b1f", "#4a5bd0", "#8a5a3c"]
DARK = ["#62b5f5", "#ff8f6b", "#4fd0a3", "#c79be6", "#e6bd4a", "#55ced8", "#f583b4", "#b6c86a", "#9aa7ff", "#d3a283"]
SHAPES = """
text{font-family:Inter,'Helvetica Neue',Helvetica,Arial,sans-serif;font-size:12px}
.sub{font-size:9px}.faint{font-size:10px}.name{font-size:11px}.title{font-weight:600;font-size:13px}.variable{font-style:italic}
.count{font-size:9px;text-anchor:middle}.rule{fill:none;stroke-width:1}.register{stroke-width:1.2}
.dots{fill:none;stroke-dasharray:1 4;stroke-linecap:round;stroke-width:1.4}.wire{fill:none;stroke-width:1.6;stroke-linejoin:round}
.dependence{fill:none;stroke-width:1.1;opacity:.75}.thin.dependence{stroke-width:.5;opacity:.4}
"""
INKS = """\
text{fill:%(ink)s}
.faint{fill:%(faint)s}
.paper{fill:%(paper)s}
.register{fill:%(paper)s}
.rule{stroke:%(rule)s}
.dots{stroke:%(rule)s}
"""
THEMES = {
    "light": {"ink": "#1b1f24", "faint": "#646c77", "paper": "#ffffff", "rule": "#c3c9d1", "tint": ".10", "colours": LIGHT},
    "dark": {"ink": "#e8ebef", "faint": "#98a2ae", "paper": "#14181d", "rule": "#444c57", "tint": ".18", "colours": DARK},
}


def tinted(theme, used, prefix=""):
    """Gives the rules of a theme's colours of which so many are used, one a line; with a prefix they hold where it does."""
    rules = INKS % THEMES[theme]
    for number, colour in enumerate(THEMES[theme]["colours"][:used]):
        rules += f".s{number}{{stroke:{colour}}}\n.f{number}{{fill:{colour}}}\n"
        rules += f".t{number}{{fill:{colour};fill-opacity:{THEMES[theme]['tint']}}}\n"
    return "".join(f"{prefix}{line}\n" for line in rules.splitlines())


def style(used):
    """Gives the rules of a picture that stands alone: dark on a screen that is dark, and light elsewhere and in print."""
    return f"<style>{SHAPES}{tinted('light', used)}@media screen and (prefers-color-scheme:dark){{\n{tinted('dark', used)}}}</style>\n"


def heads(used):
    """Gives the heads of arrows, one for each colour that is used."""
    markers = "".join(f'<marker id="to{number}" viewBox="0 0 8 8" refX="7.2" refY="4" markerWidth="8.5" markerHeight="8.5" '
                      f'markerUnits="userSpaceOnUse" orient="auto"><path class="f{number}" d="M0,0.6 L8,4 L0,7.4 z"/></marker>\n'
                      for number in range(used))
    return f"<defs>\n{markers}</defs>\n"


def svg(width, height, content, label, above=0):
    """Gives a whole SVG text; what stands above a height is cut off. The label is what a screen reader says."""
    return (f'<svg xmlns="http://www.w3.org/2000/svg" viewBox="0 {above} {width:.0f} {height - above:.0f}" '
            f'width="{width:.0f}" height="{height - above:.0f}" role="img" aria-label="{escape(label)}">\n'
            f'<rect class="paper" width="{width:.0f}" height="{height:.0f}"/>\n{content}</svg>\n')


def alone(width, height, content, label, colour):
    """Gives the text of a picture that stands alone; `colour` has the colours that it uses."""
    return svg(width, height, style(most(colour)) + heads(most(colour)) + content, label)


def box(x, y, wide, high, kind, corner, line=1.0):
    """Gives a rectangle with round corners round a middle, on paper so that nothing shines through."""
    place = f'x="{x - wide / 2:.1f}" y="{y - high / 2:.1f}" width="{wide:.1f}" height="{high:.1f}" rx="{corner}"'
    return f'<rect class="paper" {place}/><rect class="{kind}" {place} stroke-width="{line}"/>'


def text(x, y, content, kind="", anchor="middle"):
    named = f' class="{kind}"' if kind else ""
    return f'<text x="{x:.1f}" y="{y:.1f}" text-anchor="{anchor}"{named}>{content}</text>'


def point(variable, indices=()):
    """Gives a point as papers write it: the variable with its indices below the line."""
    name, mark, number = variable.partition("#")
    below = ",".join(str(index).replace("-", "−") for index in indices)
    return (f'<tspan class="variable">{escape(name)}</tspan>' + (f'<tspan class="sub">{mark}{number}</tspan>' if mark else "")
            + (f'<tspan class="sub" dy="4">{below}</tspan>' if below else ""))


def colours(array):
    """Gives each variable its colour: inputs first, then what is computed; a reduction has that of its equation's variable."""
    names = [line.point.variable for line in array.design.ins] + [cell.node.partition("#")[0] for cell in array.cells]
    order = list(dict.fromkeys(names))
    return {name: order.index(name.partition("#")[0]) % len(LIGHT) for name in [*order, *[cell.node for cell in array.cells]]}


def most(colour):
    """Gives how many colours are used."""
    return 1 + max(colour.values(), default=0)


def path(points):
    """Gives a path with rounded corners."""
    made = f"M{points[0][0]:.1f},{points[0][1]:.1f}"
    for before, corner, after in zip(points, points[1:], points[2:]):
        first, second = (min(6, (abs(end[0] - corner[0]) + abs(end[1] - corner[1])) / 2) for end in (before, after))
        enter, leave = towards(corner, before, first), towards(corner, after, second)
        made += f" L{enter[0]:.1f},{enter[1]:.1f} Q{corner[0]:.1f},{corner[1]:.1f} {leave[0]:.1f},{leave[1]:.1f}"
    return made + f" L{points[-1][0]:.1f},{points[-1][1]:.1f}"


def towards(one, other, length):
    """Gives the place that lies so far from one on the way to the other."""
    whole = ((other[0] - one[0]) ** 2 + (other[1] - one[1]) ** 2) ** 0.5 or 1
    return one[0] + (other[0] - one[0]) * length / whole, one[1] + (other[1] - one[1]) * length / whole
