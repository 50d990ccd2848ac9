"""Modules of runs that switch stacks, each made piece by piece."""

from assembler.encoding import signed
from assembler.instructions import block, br, call, cont_new, i32_const, numeric, on, ref_func, resume, suspend
from assembler.modules import code, export, global_, module
from assembler.segments import declared_functions
from assembler.types import EMPTY, I32, conttype, functype, nullable, ref
from rows.runs import printer
from surroundings import TypeSection

MAIN = 1
FIRST_FUNCTION = 2
PRINT = call(0)
LESS = i32_const(1) + numeric('i32.sub')       # one less than what is on top


class SwitchingModule:
    """A module whose types, tags, globals and functions are added as they are needed.

    Function 0 prints an i32, function 1 is main, and the others follow. All of them may be referred to.
    """

    def __init__(self):
        self.types = TypeSection()
        self.sections = {'tags': [], 'globals': [], 'tables': []}
        self.function_types = []    # those of the functions behind main
        self.codes = []
        self.own_types = {}         # the types of continuations that stand in a group with those of their functions

    def func(self, parameters, results):
        """The index of this function type."""
        return self.types.index_of(functype(parameters, results))

    def cont(self, parameters, results):
        """The index of the type of continuations of functions with these parameters and results."""
        return self.types.index_of(conttype(self.func(parameters, results)))

    def arrow(self, parameters, results):
        """The block type of these parameters and results."""
        return signed(self.func(parameters, results))

    def tag(self, parameters=(), results=()):
        """The index of a new tag."""
        self.sections['tags'].append(self.func(parameters, results))
        return len(self.sections['tags']) - 1

    def variable(self, value_type, initial):
        """The index of a new global that may be set."""
        self.sections['globals'].append(global_(value_type, initial, mutable=True))
        return len(self.sections['globals']) - 1

    def table(self, given):
        """The index of a new table."""
        self.sections['tables'].append(given)
        return len(self.sections['tables']) - 1

    @property
    def next_function(self):
        """The index that the next function will have."""
        return FIRST_FUNCTION + len(self.codes)

    def function(self, parameters, results, body, local_runs=()):
        """The index of a new function."""
        return self.function_of(self.func(parameters, results), body, local_runs)

    def function_of(self, function_type, body, local_runs=()):
        """The index of a new function of this type."""
        self.function_types.append(function_type)
        self.codes.append(code(body, local_runs))
        return self.next_function - 1

    def own_cont(self, parameters, results):
        """The index of a type of continuations that take these, and at last a continuation of this very type."""
        function_type = self.types.count
        self.types.add(functype([*parameters, nullable(function_type + 1)], results), conttype(function_type))
        self.own_types[function_type] = function_type + 1
        return function_type + 1

    def cont_of(self, function):
        """The index of the type of continuations of a function behind main."""
        function_type = self.function_types[function - FIRST_FUNCTION]
        return self.own_types.get(function_type) or self.types.index_of(conttype(function_type))

    def fresh(self, function):
        """Makes a continuation of a function behind main."""
        return ref_func(function) + cont_new(self.cont_of(function))

    def main(self, results, body, local_runs=(), **sections):
        """The bytes of the module, whose main gives these results."""
        printer_type = self.func([I32], [])
        function_types = [self.func([], results), *self.function_types]
        codes = [code(body, local_runs), *self.codes]
        kept = {kind: given for kind, given in self.sections.items() if given}
        return module(**kept | {
            'types': self.types.groups, 'imports': [printer('print_i32', printer_type)], 'functions': function_types,
            'exports': [export('main', 'func', MAIN)],
            'elements': [declared_functions(range(len(codes) + 1))], 'codes': codes} | sections)


def caught(module, label, inside, behind=b''):
    """A block whose label takes these types, and what goes on with them where a clause leads there.

    What is inside leaves nothing where nothing is suspended, and then what is behind is passed over.
    """
    return block(EMPTY, block(module.arrow([], label), inside + br(1)) + behind)


class Plain(SwitchingModule):
    """A module with a tag and a continuation type of nothing."""

    def __init__(self):
        super().__init__()
        self.plain_tag = self.tag()
        self.nothing = self.cont([], [])

    def suspending(self, body, behind=b''):
        """A function that suspends between these instructions."""
        return self.function([], [], body + suspend(self.plain_tag) + behind)

    def resumed(self, given, behind):
        """Resume what is given, and go on with what is behind where it suspends, with the continuation on top."""
        return caught(self, [ref(self.nothing)], given + resume(self.nothing, on(self.plain_tag, 0)), behind)
