"""Forms of modules: each a function from a size in bytes to a module of about, and at most, so many bytes."""

from forms import items, mixed_code, nesting, plain_code, subtypes, wide_types

STRAIGHT = mixed_code.mixed_code      # what the others are set beside

# Each form by its name in words, the straight one first.
FORMS = {
    form.__name__.replace('_', ' '): form
    for topic in (mixed_code, plain_code, nesting, items, wide_types, subtypes) for form in topic.FORMS}
