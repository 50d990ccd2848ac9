"""Tables in Markdown: a line for each form, with rates beside those of the straight form, or for each program or
script."""

MEGA = 1000000
MOST_TIMES = 15         # no form is to take longer than so many times the straight one

FORM_HEADINGS = [
    'Form', 'Bytes', 'check MB/s', 'B/B', 'build MB/s', 'B/B', 'wasm-validate MB/s', 'B/B', 'check / wasm-validate',
    'time / mixed code']
TEXT_HEADINGS = [
    'Form', 'Bytes', 'Bytes of text', 'dump MB/s', 'B/B', 'asm MB/s', 'B/B', 'time of dump / mixed code',
    'time of asm / mixed code']
RUN_HEADINGS = ['Program', 'Reductions', 'run M/s', 'MB', 'wasm-interp M/s', 'MB', 'run / wasm-interp']
SCRIPT_HEADINGS = [
    'Script', 'Effects', 'Steps', 'Reductions / step', 'run M/s', 'run s', 'MB', 'lua5.4 s', 'MB', 'guile s', 'MB',
    'run / lua5.4', 'run / guile']


def heading(headings):
    """The first two lines of a table."""
    return _line(headings) + '\n' + _line(['---'] + ['---:'] * (len(headings) - 1))


def form_row(name, size, best, straight_rate):
    """The line of a form, from the best call of each program."""
    check = best['check']
    cells = [name, f'{size:,}']
    for program in ('check', 'build', 'wasm-validate'):
        cells += _rate_and_peak(best.get(program), size, size, 'refused')
    cells.append(_ratio_of_rates(check, best.get('wasm-validate'), size))
    above = '> ' if check.ended else ''
    cells.append(above + _ratio(straight_rate, rate(check, size)) if _counts(check) else '')
    return _line(cells)


def text_row(name, size, text_size, best, straight):
    """The line of a form as text, from the best calls of dump and asm: rates are of bytes of text."""
    cells = [name, f'{size:,}', f'{text_size:,}']
    for program in ('dump', 'asm'):
        cells += _rate_and_peak(best[program], text_size, text_size)
    for program in ('dump', 'asm'):
        cells.append(_ratio(straight[program], rate(best[program], text_size)) if _counts(best[program]) else '')
    return _line(cells)


def run_row(name, reductions, best):
    """The line of a program. What was said instead of a result stands in place of the rate."""
    cells = [name, f'{reductions:,}']
    for program in ('run', 'wasm-interp'):
        cells += _rate_and_peak(best.get(program), reductions, MEGA)
    cells.append(_ratio_of_rates(best['run'], best.get('wasm-interp'), reductions))
    return _line(cells)


def script_row(name, effects, taken, best):
    """The line of a script. What was said instead of a result stands in place of the seconds."""
    run = best['run']
    rate_of_run, _ = _rate_and_peak(run, taken.reductions, MEGA)
    cells = [name, f'{effects:,}', f'{taken.steps:,}', _ratio(taken.reductions, taken.steps), rate_of_run]
    for program in ('run', 'lua5.4', 'guile'):
        cells += _seconds_and_peak(best.get(program))
    cells += [_ratio_of_rates(run, best.get(program), taken.steps) for program in ('lua5.4', 'guile')]
    return _line(cells)


def rate(call, amount):
    """Bytes or reductions a second. The clock of the system may count nothing for what is very short."""
    return amount / max(call.seconds, 0.0001) if call else None


def _counts(call):
    return call is not None and (call.ended or call.status == 0)


def _rate_and_peak(call, amount, peak_unit, refusal=None):
    """Millions a second, and the peak; or why there are none, by what the program said where no word is given."""
    if call is None:
        return ['', '']
    if not _counts(call):
        return ['died' if call.status < 0 else refusal or ' '.join(call.said.split()), '']
    below = '< ' if call.ended else ''
    return [f'{below}{_figure(rate(call, amount) / MEGA)}', _figure(call.peak / peak_unit)]


def _seconds_and_peak(call):
    """Seconds and millions of bytes, or why there are none."""
    if not _counts(call):
        return _rate_and_peak(call, 1, MEGA)
    above = '> ' if call.ended else ''
    return [f'{above}{_figure(call.seconds)}', _figure(call.peak / MEGA)]


def _ratio_of_rates(ours, theirs, amount):
    """The ratio of two rates, where both calls were done."""
    both_done = _counts(ours) and _counts(theirs) and not ours.ended and not theirs.ended
    return _ratio(rate(ours, amount), rate(theirs, amount)) if both_done else ''


def _ratio(one, other):
    return _figure(one / other)


def _figure(number):
    """Two digits behind the point, or as many as a small number needs to be told from others."""
    return f'{number:.2f}' if number >= 0.1 else f'{number:.2g}'


def _line(cells):
    return f'| {" | ".join(cells)} |'
