"""The rules of scripts in words, as `docs/SPECIFICATION.md` has them."""

import re
from functools import lru_cache
from pathlib import Path

SPECIFICATION = Path(__file__).resolve().parents[2] / 'docs' / 'SPECIFICATION.md'
HEADING = '## Scripts: rules'
RULES = range(1, 24)


@lru_cache(maxsize=None)
def rule_texts():
    """Where each rule is broken, by its number."""
    _, _, section = SPECIFICATION.read_text().partition(f'\n{HEADING}\n')
    section, _, _ = section.partition('\n## ')
    texts = {int(number): text for number, text in re.findall(r'^\| (\d+) \| (.*) \|$', section, re.MULTILINE)}
    if list(texts) != list(RULES):
        raise ValueError(f'{SPECIFICATION}: the rules of scripts are no table of 1 to {RULES[-1]}')
    return texts
