"""The scripts that `gen` runs."""

GENERATED_STEPS = 10000000000
GREATEST_NUMBER = 500
FRONT = (
    'effect tick/1;\n'
    'fn task(id, n) { let i = 0; while i < n { do tick(id); i = i + 1; } return 0; }\n'
    'handler count(ticks, total) { return(x) { print ticks; return total; } '
    'on tick(w) k { return resume k(0) with (ticks + 1, total + w); } }\n'
    'fn all() {\n')


def generated(number):
    """The bytes of the script of so many tasks."""
    calls = ''.join(f'task({task}, {37 * task % 97 + 1});\n' for task in range(1, number + 1))
    text = FRONT + calls + f'}}\nfn main() {{ print {number}; return handle all() with count(0, 0); }}\n'
    return text.encode()
