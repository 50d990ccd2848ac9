"""The term of a run: operands, and the labels, frames and handles around the place that is reduced next.

Labels and frames of a segment stand in one list, the innermost last, so that no depth is too much.
"""

from executing.contexts import Context, Handle, Segment, sequence
from executing.ends import Exceeded
from executing.stores import Printer
from reader.instructions import Instruction

GREATEST_FRAMES = 20000
GREATEST_HANDLES = 1000


class Label:
    """A label: what it takes, how many operands stand beneath, and where it goes on.

    This is a place of the sequence around: behind the block, or for a branch to a loop the loop itself.
    """

    __slots__ = ('arity', 'height', 'code', 'behind', 'again')

    def __init__(self, arity, height, code, behind, again):
        self.arity = arity
        self.height = height
        self.code = code
        self.behind = behind
        self.again = again


class Frame:
    """A frame: what it gives, how many operands stand beneath, where its caller goes on, and the locals and the
    instance of that."""

    __slots__ = ('arity', 'height', 'code', 'behind', 'locals', 'instance')

    def __init__(self, arity, height, code, behind, caller_locals, caller_instance):
        self.arity = arity
        self.height = height
        self.code = code
        self.behind = behind
        self.locals = caller_locals
        self.instance = caller_instance


class Machine:
    """A run. Next comes an instruction at a place of a sequence, or the exit of what is innermost, at its end.

    Operands, layers, frames, locals, instance, code and place are those of the innermost segment. Types are those of
    all modules. Each index of an instruction is read through the lists of the instance.
    """

    def __init__(self, types, order, store, invokes):
        self.types = types
        self.order = order
        self.store = store
        self.handles = []
        self.frames_around = 0      # frames of the segments around
        self._go_on_in(sequence(invokes))
        self.out = bytearray()

    def _go_on_in(self, segment):
        self.operands, self.layers, self.frames, self.locals, self.instance, self.code, self.place = segment

    def _segment(self):
        return Segment(
            self.operands, self.layers, self.frames, self.locals, self.instance, self.code, self.place)

    def is_ended(self):
        """Whether the term is values."""
        return not self.layers and not self.handles and self.place == len(self.code)

    def pop(self):
        return self.operands.pop()

    def push(self, value):
        self.operands.append(value)

    def take(self, count):
        """So many operands from on top, which go away."""
        height = len(self.operands) - count
        taken = self.operands[height:]
        del self.operands[height:]
        return taken

    def table(self, index):
        return self.store.tables[self.instance.tables[index]]

    def memory(self, index):
        return self.store.memories[self.instance.memories[index]]

    def parameters(self, continuation_type):
        """How many operands a continuation of the type with this index takes."""
        return self.counts(self.types[self.instance.types[continuation_type]].function)[0]

    def arity(self, block_type):
        """How many operands a block takes and gives."""
        if isinstance(block_type, list):
            return 0, len(block_type)
        return self.counts(self.instance.types[block_type])

    def counts(self, address):
        """How many operands a function of the type with this address takes and gives."""
        function_type = self.types[address]
        return len(function_type.parameters), len(function_type.results)

    def enter_label(self, body, parameters, arity, again):
        """Go on in a block, whose parameters are on top."""
        height = len(self.operands) - parameters
        self.layers.append(Label(arity, height, self.code, self.place, again))
        self.code, self.place = body, 0

    def enter_function(self, address):
        """Go on in a function of a module, in a label in a frame; one of the host prints."""
        function = self.store.functions[address]
        if isinstance(function, Printer):
            self.out += function.printed(self.pop())
            return
        arguments = self.take(function.parameters)
        height = len(self.operands)
        self.layers.append(Frame(function.results, height, self.code, self.place, self.locals, self.instance))
        self.locals = arguments + function.defaults
        self.instance = function.instance
        self.frames += 1
        self._check_limits()
        self.layers.append(Label(function.results, height, [], 0, 0))
        self.code, self.place = function.body, 0

    def replace_frame(self, address):
        """Put a function, whose arguments are on top, in place of the innermost frame and all that it holds."""
        frame = self._end_frame()
        self._keep_top(frame.height, self.counts(self.store.functions[address].type)[0])
        self.enter_function(address)

    def _check_limits(self):
        """Pass the first limit that the term is above."""
        if self.frames_around + self.frames > GREATEST_FRAMES:
            raise Exceeded('frames')
        if len(self.handles) > GREATEST_HANDLES:
            raise Exceeded('handles')

    def enter_handle(self, clauses):
        """Go on in a handle, in which nothing stands yet."""
        self.handles.append(Handle(clauses, self._segment()))
        self.frames_around += self.frames
        self._go_on_in(sequence([]))

    def enter_context(self, context, arguments):
        """Put a context where nothing is left of the innermost segment, and the arguments into its hole."""
        frames = self.frames_around + context.frames
        self.handles += context.handles
        self._go_on_in(context.innermost)
        self.frames_around = frames - self.frames
        self._check_limits()
        self.operands += arguments

    def capture(self, place):
        """The context up to the handle at this place among the handles, which then has nothing in it."""
        inner = self.handles[place + 1:]
        frames = self.frames + sum(handle.around.frames for handle in inner)
        captured = Context(inner, self._segment(), frames)
        del self.handles[place + 1:]
        self.frames_around += self.frames - frames
        self._go_on_in(sequence([]))
        return captured

    def _leave_handle(self):
        """Go on in the segment around the innermost handle."""
        self._go_on_in(self.handles.pop().around)
        self.frames_around -= self.frames

    def leave_handle_to(self, label):
        """Put a branch to this label in place of the innermost handle."""
        self._leave_handle()
        self.code, self.place = [Instruction('br', (label,))], 0

    def leave(self):
        """The exit of a handle, of a label or of a frame. The values on top stay."""
        if not self.layers:
            values = self.operands
            self._leave_handle()
            self.operands += values
            return
        layer = self.layers.pop()
        if isinstance(layer, Frame):
            self._leave_frame(layer)
        self.code, self.place = layer.code, layer.behind

    def _leave_frame(self, frame):
        self.locals = frame.locals
        self.instance = frame.instance
        self.frames -= 1

    def branch(self, label):
        """Leave the blocks up to this label, and go on where it does."""
        target = self.layers[-1 - label]
        del self.layers[-1 - label:]
        self._keep_top(target.height, target.arity)
        self.code, self.place = target.code, target.again

    def return_(self):
        """Leave the innermost frame with what it gives."""
        frame = self._end_frame()
        self._keep_top(frame.height, frame.arity)

    def _end_frame(self):
        """Leave the innermost frame, which is given, and all labels in it, but none of the operands."""
        layer = self.layers.pop()
        while not isinstance(layer, Frame):
            layer = self.layers.pop()
        self._leave_frame(layer)
        self.code, self.place = layer.code, layer.behind
        return layer

    def _keep_top(self, height, count):
        """Keep so many operands beneath, and so many on top."""
        del self.operands[height:len(self.operands) - count]
