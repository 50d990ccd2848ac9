"""The rules of stack switching. Each is a function of the block around and of the immediates."""

from reader.context import Invalid, require
from reader.matching import all_equal, all_match
from reader.types import Ref, spelled_row


def cont_new(block, continuation):
    function = block.context.continuation_type(continuation).function
    block.take(Ref(True, function))
    block.give(Ref(False, continuation))


def cont_bind(block, source, target):
    """The source takes what is bound, and then what the target takes."""
    context = block.context
    bound, left = context.continued(source), context.continued(target)
    count = len(bound.parameters) - len(left.parameters)
    require(count >= 0, f'type {target} to have no more parameters than type {source}')
    _require_match(context, left.parameters, bound.parameters[count:], f'the parameters of type {target}')
    _require_match(context, bound.results, left.results, f'the results of type {source}')
    block.take(*bound.parameters[:count], Ref(True, source))
    block.give(Ref(False, target))


def suspend(block, tag):
    tag_type = block.context.tag(tag)
    block.take(*tag_type.parameters)
    block.give(*tag_type.results)


def _require_match(context, lowers, uppers, lowers_name):
    """Refuse types of this name that don't match others one by one."""
    if not all_match(context, lowers, uppers):
        raise Invalid(f'{lowers_name}, {spelled_row(lowers)}, to match {spelled_row(uppers)}')


def resume(block, continuation, handlers):
    resumed = block.context.continued(continuation)
    for kind, *immediates in handlers:
        HANDLER_RULES[kind](block, resumed.results, *immediates)
    block.take(*resumed.parameters, Ref(True, continuation))
    block.give(*resumed.results)


def _last_continuation(context, value_types):
    """The function type of the continuation to which the last of these types refers."""
    is_indexed = value_types and isinstance(value_types[-1], Ref) and value_types[-1].index is not None
    require(is_indexed, 'a reference to a type of continuations as the last of the types')
    return context.continued(value_types[-1].index)


def _on(block, results, tag, label):
    """A handler that leads to a label, where what is resumed gives these results.

    The label takes what the tag takes, and the continuation, which takes what the tag gives.
    """
    context = block.context
    tag_type = context.tag(tag)
    taken = block.label(label)
    suspended = _last_continuation(context, taken)
    _require_match(context, tag_type.parameters, taken[:-1], f'the parameters of tag {tag}')
    _require_match(context, suspended.parameters, tag_type.results, 'the parameters of the continuation of the label')
    _require_match(context, results, suspended.results, 'the results of what is resumed')


def _on_switch(block, results, tag):
    """A handler that lets switch pass, where what is resumed gives these results."""
    tag_type = block.context.tag(tag)
    require(not tag_type.parameters, f'tag {tag} to have no parameters')
    if not all_equal(block.context, tag_type.results, results):
        raise Invalid(f'the results of tag {tag}, {spelled_row(tag_type.results)}, to equal {spelled_row(results)}')


HANDLER_RULES = {'on': _on, 'switch': _on_switch}


def switch(block, continuation, tag):
    """The target takes at last the continuation of the one that switches, which is resumed with what it takes."""
    context = block.context
    target = context.continued(continuation)
    tag_type = context.tag(tag)
    require(not tag_type.parameters, f'tag {tag} to have no parameters')
    suspended = _last_continuation(context, target.parameters)
    _require_match(context, target.results, tag_type.results, f'the results of type {continuation}')
    _require_match(context, tag_type.results, suspended.results, f'the results of tag {tag}')
    block.take(*target.parameters[:-1], Ref(True, continuation))
    block.give(*suspended.parameters)


RULES = {
    'cont.new': cont_new, 'cont.bind': cont_bind, 'suspend': suspend, 'resume': resume, 'switch': switch,
}
