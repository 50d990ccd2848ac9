"""A second writer and a second auditor of traces, which are the events of the continuations of a run, line by line.

They rest on what traces are said to be, in words, and not on their definition. Runs are those of the second reader of
execution.
"""
