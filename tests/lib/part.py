"""What the parts of the gate share: the tree that they work on, their start, and their counts.

A part is an executable of tests/parts. Its first word chooses what it tries; the words behind are those of the function that
tries it, which gives one by one what it tried: a name, and in what that is wrong ('' for nothing)."""

import inspect
import os
import sys
import time

TESTS = os.path.dirname(os.path.dirname(os.path.abspath(__file__)))
TOP = os.path.dirname(TESTS)


def count(what, tried):
    """Tells what was wrong, and behind it the counts. Where nothing was tried, that is wrong. Gives the exit status."""
    began, passed, failed = time.monotonic(), 0, 0
    for name, why in tried:
        passed, failed = passed + (not why), failed + bool(why)
        if why:
            print(f"{what}: {name}: {why}", flush=True)
    if passed + failed == 0:
        print(f"{what}: nothing is tried")
        failed = 1
    print(f"{what}: {time.monotonic() - began:.0f} seconds")
    print(f"{passed} passed, {failed} failed")
    return failed != 0


def words_of(function):
    """The words that a function takes, as they are told to people."""
    for it in inspect.signature(function).parameters.values():
        word = it.name.upper()
        yield f"{word}.." if it.kind is it.VAR_POSITIONAL else f"[{word}]" if it.default is not it.empty else word


def start(functions):
    """Runs the function that the first word of the program names, on the words behind it, and ends with its counts."""
    part, (word, *words) = os.path.basename(sys.argv[0]), sys.argv[1:] or [""]
    if word not in functions:
        print(f"{part}: the first word is one of: {', '.join(functions)}")
        sys.exit(2)
    try:
        inspect.signature(functions[word]).bind(*words)
    except TypeError:
        print(f"{part} {word}: the words are {' '.join(words_of(functions[word]))}")
        sys.exit(2)
    sys.exit(count(f"{part} {word}", functions[word](*words)))
