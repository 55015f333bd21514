"""Two plain plots as SVG: bars in groups, and curves over sizes on a logarithmic axis."""

from math import log2

WIDTH, HEIGHT, LEFT, RIGHT, TOP, BOTTOM = 760, 360, 60, 20, 60, 60
COLOURS = ["#20639b", "#c2571a", "#3c7d3c"]


def text(x, y, words, anchor="middle", size=12):
    return f'<text x="{x:.1f}" y="{y:.1f}" text-anchor="{anchor}" font-size="{size}">{words}</text>'


def line(x1, y1, x2, y2, colour):
    return f'<line x1="{x1:.1f}" y1="{y1:.1f}" x2="{x2:.1f}" y2="{y2:.1f}" stroke="{colour}"/>'


def step_for(most):
    """A round step that gives four to ten marks."""
    step = 0.01
    while most / step > 10:
        step *= 5 if f"{step:g}".endswith("1") else 2
    return step


def height_of(value, top):
    return HEIGHT - BOTTOM - (HEIGHT - TOP - BOTTOM) * value / top


def frame(title, most):
    """The title, the marks of the upright axis, and the value at its top."""
    step = step_for(most)
    count = int(most / step) + 1
    drawn = [text(WIDTH / 2, 24, title, size=15)]
    for at in range(count + 1):
        y = height_of(at * step, count * step)
        drawn += [line(LEFT, y, WIDTH - RIGHT, y, "#dddddd"), text(LEFT - 6, y + 4, f"{at * step:g}", "end")]
    return drawn, count * step


def legend(names):
    drawn = []
    for at, name in enumerate(names):
        x = LEFT + at * (WIDTH - LEFT - RIGHT) / len(names)
        drawn += [f'<rect x="{x:.1f}" y="34" width="12" height="12" fill="{COLOURS[at]}"/>', text(x + 18, 44, name, "start")]
    return drawn


def write(path, drawn):
    head = f'<svg xmlns="http://www.w3.org/2000/svg" viewBox="0 0 {WIDTH} {HEIGHT}" font-family="sans-serif">'
    path.write_text("\n".join([head, f'<rect width="{WIDTH}" height="{HEIGHT}" fill="white"/>', *drawn, "</svg>"]) + "\n")


def bars(path, title, groups, names):
    """Groups are names with a value for each of the bars."""
    drawn, top = frame(title, max(max(values) for _, values in groups))
    room = (WIDTH - LEFT - RIGHT) / len(groups)
    wide = 0.7 * room / len(names)
    for at, (group, values) in enumerate(groups):
        start = LEFT + at * room + 0.15 * room
        for k, value in enumerate(values):
            y = height_of(value, top)
            drawn.append(f'<rect x="{start + k * wide:.1f}" y="{y:.1f}" width="{wide:.1f}" height="{HEIGHT - BOTTOM - y:.1f}" fill="{COLOURS[k]}"/>')
            drawn.append(text(start + (k + 0.5) * wide, y - 4, f"{value:.2f}", size=11))
        drawn.append(text(start + 0.35 * room, HEIGHT - BOTTOM + 18, group, size=10))
    write(path, drawn + legend(names))


def curves(path, title, across, up, places, named):
    """Values over places that double; one curve a name."""
    drawn, top = frame(title, max(max(values) for values in named.values()))
    least, most = log2(places[0]), log2(places[-1])
    xs = [LEFT + 20 + (WIDTH - LEFT - RIGHT - 40) * (log2(place) - least) / (most - least) for place in places]
    for k, values in enumerate(named.values()):
        points = [(x, height_of(value, top)) for x, value in zip(xs, values)]
        drawn.append(f'<polyline points="{" ".join(f"{x:.1f},{y:.1f}" for x, y in points)}" fill="none" stroke="{COLOURS[k]}" stroke-width="2"/>')
        drawn += [f'<circle cx="{x:.1f}" cy="{y:.1f}" r="3" fill="{COLOURS[k]}"/>' for x, y in points]
    drawn += [text(x, HEIGHT - BOTTOM + 18, f"{place:,}") for x, place in zip(xs, places)]
    drawn += [text(WIDTH / 2, HEIGHT - 12, across), text(4, 44, up, "start", 10)]
    write(path, drawn + legend(named))
