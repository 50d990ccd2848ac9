"""Blocks in blocks, and branches out of them."""

from itertools import repeat
from random import Random

from assembler.encoding import unsigned
from assembler.instructions import (
    DROP, ELSE, END, UNREACHABLE, block, br, br_if, br_table, i32_const)
from assembler.modules import code
from assembler.types import EMPTY, I32, functype
from filling import BODY_FRAMING, FRAMING, drawn, module_of_functions, module_of_rows

NOTHING = functype([], [])
DEPTH = 30000
BLOCK, LOOP, IF, BLOCK_I32 = b'\x02' + EMPTY, b'\x03' + EMPTY, i32_const(0) + b'\x04' + EMPTY, b'\x02' + I32


def _nested(size, opening, closing, middle=b'', after=b''):
    """Functions each of a nest: so many openings, the middle, as many closings."""
    body = opening * DEPTH + middle + closing * DEPTH + after
    if len(body) + 2 * FRAMING > size:
        return _nested_in_one_body(size, opening, closing, middle, after)
    return module_of_functions(size, repeat((0, code(body))), [NOTHING])


def _nested_in_one_body(size, opening, closing, middle=b'', after=b''):
    depth = (size - 2 * FRAMING - len(middle) - len(after)) // len(opening + closing)
    body = opening * depth + middle + closing * depth + after
    return module_of_functions(size, repeat((0, code(body))), [NOTHING])


def nested_blocks(size):
    """Empty blocks in each other, 30,000 deep."""
    return _nested(size, BLOCK, END)


def nested_blocks_in_one_body(size):
    """One function of one nest, as deep as there is room for."""
    return _nested_in_one_body(size, BLOCK, END)


def nested_blocks_with_results(size):
    """Blocks in each other that hand on one value."""
    return _nested(size, BLOCK_I32, END, i32_const(0), DROP)


def nested_loops(size):
    """Loops in each other, 30,000 deep."""
    return _nested(size, LOOP, END)


def nested_ifs(size):
    """Ifs in each other's first branch, each with an else."""
    return _nested(size, IF, ELSE + END)


def nested_ifs_in_one_body(size):
    """One function of one nest of ifs, each with an else."""
    return _nested_in_one_body(size, IF, ELSE + END)


def nested_elses(size):
    """Ifs in each other's second branch."""
    return _nested(size, IF + ELSE, END)


def blocks_in_a_row(size):
    """Empty blocks, one behind another."""
    return module_of_rows(size, repeat(block(EMPTY, b'') * 100), [NOTHING])


def branches_out_of_a_nest(size):
    """Conditional branches from 30,000 blocks deep to blocks anywhere around."""
    random = Random(20)
    rows = drawn(lambda: i32_const(0) + br_if(random.randrange(DEPTH)), 20000)
    return module_of_rows(
        size, rows, [NOTHING], opening=BLOCK * DEPTH, closing=END * DEPTH, body_size=0x100000)


def code_that_is_not_reached(size):
    """Nests whose every block goes on behind a branch, in code that can't be reached."""
    return _nested(size, BLOCK, br(0) + i32_const(0) + DROP + END, UNREACHABLE)


def branch_table_of_many_labels(size):
    """One br_table of as many labels as there is room for, each of 300 blocks around."""
    random = Random(21)
    depth = 300
    around = (BLOCK + END) * depth
    labels = drawn(lambda: unsigned(random.randrange(depth)), 5000)
    return _giant_branch_table(size, BLOCK * depth, labels, END * depth, len(around))


def _giant_branch_table(size, opening, labels, closing, around):
    """One function of one br_table, which is spelled here since its labels are bytes already."""
    room, spelled = size - 2 * FRAMING - BODY_FRAMING - around, []
    for label in labels:
        room -= len(label)
        if room < 0:
            break
        spelled.append(label)
    table = b'\x0e' + unsigned(len(spelled)) + b''.join(spelled) + unsigned(0)
    body = opening + i32_const(0) + table + closing
    return module_of_functions(size, repeat((0, code(body))), [NOTHING])


def branch_table_of_one_label(size):
    """One br_table of one label over and over."""
    return _giant_branch_table(size, BLOCK, repeat(unsigned(0)), END, 3)


def many_branch_tables(size):
    """Small br_tables, each in two blocks of its own."""
    random = Random(22)

    def row():
        labels = [random.randrange(2) for _ in range(random.randint(0, 12))]
        return block(EMPTY, block(EMPTY, i32_const(0) + br_table(labels, 0)))

    return module_of_rows(size, drawn(row, 5000), [NOTHING])


def branch_tables_out_of_a_nest(size):
    """Small br_tables to blocks anywhere around, in code that no one reaches behind the first."""
    random = Random(23)

    def row():
        return i32_const(0) + br_table([random.randrange(DEPTH) for _ in range(4)], random.randrange(DEPTH))

    return module_of_rows(
        size, drawn(row, 5000), [NOTHING], opening=BLOCK * DEPTH, closing=END * DEPTH, body_size=0x100000)


FORMS = [
    nested_blocks, nested_blocks_in_one_body, nested_blocks_with_results, nested_loops, nested_ifs,
    nested_ifs_in_one_body, nested_elses, blocks_in_a_row, branches_out_of_a_nest, code_that_is_not_reached,
    branch_table_of_many_labels, branch_table_of_one_label, many_branch_tables, branch_tables_out_of_a_nest]
