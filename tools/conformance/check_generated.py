#!/usr/bin/env python3
"""Shows that the script of each `gen N` breaks no rule and isn't too large, by the second reader of scripts.

It takes some minutes, and no file of rows rests on it.
"""

import sys
from concurrent.futures import ProcessPoolExecutor

from generated_scripts import GREATEST_NUMBER, generated
from script_reader import VALID, read
from script_reader.sizes import GREATEST_SIZE, size_of


def judged(number):
    """What the second reader says of the script of this number, and its size where it says nothing against it."""
    said, declarations = read(generated(number))
    return said, size_of(declarations) if said == VALID else None


def main():
    """Judge the scripts of all numbers, and give the status."""
    numbers = range(1, GREATEST_NUMBER + 1)
    with ProcessPoolExecutor() as pool:
        answers = dict(zip(numbers, pool.map(judged, numbers, chunksize=5)))
    refused = {number: said for number, (said, _) in answers.items() if said != VALID}
    for number, said in refused.items():
        print(f'gen {number}: {said}')
    if not refused:
        sizes = [size for _, size in answers.values()]
        print(f'{len(answers)} generated scripts break no rule, and their sizes, {min(sizes)} to {max(sizes)}, '
              f'are at most {GREATEST_SIZE}.')
    return 1 if refused else 0


if __name__ == '__main__':
    sys.exit(main())
