"""Builds the module of a script, and asks how many reductions its run needs, by halving and in steps: example.py FILE."""

import sys

import stackwasm

def needed(data):
    """The least number of steps with which the run ends."""
    low, high = 0, 1
    while stackwasm.run(data, high).status == stackwasm.RUNNING:
        low, high = high + 1, 2 * high
    while low < high:
        middle = (low + high) // 2
        if stackwasm.run(data, middle).status == stackwasm.RUNNING:
            low = middle + 1
        else:
            high = middle
    return low


def main(words):
    with open(words[0], 'rb') as file:
        data = file.read()
    module = stackwasm.build(data)
    if module.status != 0:
        sys.exit(module.err.decode())
    answer = stackwasm.run(module.out, stats=True)
    steps = needed(module.out)
    print(f'{steps} reductions are needed; the statistics say: {answer.err.decode().strip()}')
    with stackwasm.Run(module.out) as run:
        while run.step(1).status == stackwasm.RUNNING:
            print(run.read().decode(), end='')
        taken = run.counts().taken
        print(run.results().decode(), end='')
    if f'steps {steps} ' not in answer.err.decode() or taken != steps:
        sys.exit('they disagree')


if __name__ == '__main__':
    main(sys.argv[1:])
