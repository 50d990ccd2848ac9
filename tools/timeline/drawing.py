"""The picture of a trace: time goes to the right, an event a column, and each continuation has a lane."""

from html import escape

COLUMN, LANE = 64, 30           # pixels
LEFT, TOP, RIGHT = 96, 64, 40
NARROWEST = 400                 # the longest line on how a run ended fits
COLOURS = {
    'new': '#2f7d4f', 'bind': '#7a5ea8', 'resume': '#2b6cb0', 'suspend': '#b7791f', 'switch': '#b83280', 'exit': '#4a5568'}
BAR, INK, FAINT = '#cbd5e0', '#1a202c', '#edf2f7'
STYLE = 'font-family="DejaVu Sans, Verdana, sans-serif" font-size="11"'


def picture_of(trace):
    """The picture, as SVG."""
    width = max(LEFT + COLUMN * (len(trace.events) + 1) + RIGHT, NARROWEST)
    height = TOP + LANE * (len(trace.lives) + 1) + 24
    parts = [
        f'<svg xmlns="http://www.w3.org/2000/svg" width="{width}" height="{height}" viewBox="0 0 {width} {height}" {STYLE}>',
        f'<rect width="{width}" height="{height}" fill="white"/>',
        *_columns(trace, height),
        *_lanes(trace),
        *_events(trace),
        '</svg>',
    ]
    return '\n'.join(parts) + '\n'


def _x(place):
    return LEFT + COLUMN * place + COLUMN // 2


def _y(address):
    return TOP + LANE * address + LANE // 2


def _text(x, y, text, colour=INK, anchor='middle'):
    return f'<text x="{x}" y="{y}" fill="{colour}" text-anchor="{anchor}">{escape(text)}</text>'


def _line(x, y, other_x, other_y, colour, width=1):
    return f'<line x1="{x}" y1="{y}" x2="{other_x}" y2="{other_y}" stroke="{colour}" stroke-width="{width}"/>'


def _columns(trace, height):
    """The name of each event and the number of its reduction, above a thin line; and how the run ended."""
    yield _text(LEFT - 12, 22, 'event', anchor='end')
    yield _text(LEFT - 12, 42, 'reduction', anchor='end')
    for place, event in enumerate(trace.events):
        yield _line(_x(place), TOP - 8, _x(place), height - 20, FAINT)
        tag = '' if event.tag is None else f' {event.tag}'
        yield _text(_x(place), 22, f'{event.name}{tag}', COLOURS[event.name])
        yield _text(_x(place), 42, f'{event.step}')
    yield _text(_x(len(trace.events)) - COLUMN // 2, height - 8, f'end: {trace.end}', anchor='middle' if trace.events else 'start')


def _lanes(trace):
    """The lane of each continuation, with a bar from where it was made to where it was consumed, or to the end."""
    for address, life in enumerate(trace.lives):
        last = len(trace.events) if life.consumed is None else life.consumed
        yield _text(LEFT - 12, _y(address) + 4, f'#{address}', anchor='end')
        x, y = _x(life.made), _y(address)
        dash = ' stroke-dasharray="6 4"' if life.consumed is None else ''
        yield f'<line x1="{x}" y1="{y}" x2="{_x(last)}" y2="{y}" stroke="{BAR}" stroke-width="8"{dash}/>'


def _events(trace):
    """A ring where a continuation is made, a disc where it is consumed, and a line between where both happen."""
    for place, event in enumerate(trace.events):
        x, colour = _x(place), COLOURS[event.name]
        if event.consumed is not None and event.made is not None:
            yield _line(x, _y(event.consumed), x, _y(event.made), colour, 2)
        if event.consumed is not None:
            yield f'<circle cx="{x}" cy="{_y(event.consumed)}" r="6" fill="{colour}" stroke="{colour}" stroke-width="2"/>'
        if event.made is not None:
            yield f'<circle cx="{x}" cy="{_y(event.made)}" r="6" fill="white" stroke="{colour}" stroke-width="2"/>'
        if event.name == 'exit':
            y = TOP + LANE * len(trace.lives) + LANE // 2
            yield f'<path d="M {x - 6} {y - 5} L {x + 6} {y} L {x - 6} {y + 5} Z" fill="{colour}"/>'
    if any(event.name == 'exit' for event in trace.events):
        yield _text(LEFT - 12, TOP + LANE * len(trace.lives) + LANE // 2 + 4, 'exits', anchor='end')
