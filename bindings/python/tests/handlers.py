"""What a handler of a signal can do while a call is under way, without signals: it is run before each line of the
module's own code, or raises before one of its instructions."""

import os
import sys
import threading

import verity

FOLDER = os.path.dirname(verity.__file__)


class Interrupt(Exception):
    pass


def with_handler(use, handler, each="line"):
    """Makes a call, and runs a handler before each of its lines, or with "opcode" of its instructions."""

    def trace(frame, event, _word):
        if os.path.dirname(frame.f_code.co_filename) != FOLDER:
            return None
        frame.f_trace_opcodes = each == "opcode"
        if event == each:
            handler()
        return trace

    before = sys.gettrace()
    # CPython 3.12 wants to know of instructions before it traces at all.
    sys._getframe().f_trace_opcodes = each == "opcode"
    sys.settrace(trace)
    try:
        return use()
    finally:
        sys.settrace(before)


def interrupted(use, place):
    """Whether this instruction was reached, counted from 0: there the call is interrupted, and says so."""
    left = [place]

    def handler():
        left[0] -= 1
        if left[0] == -1:
            raise Interrupt

    try:
        with_handler(use, handler, "opcode")
    except Interrupt:
        return True
    if left[0] < 0:
        raise AssertionError(f"an interrupt before instruction {place} was swallowed")
    return False


def elsewhere(use):
    """What a call gives, or raises, in another thread. If it waits for ever, the test fails."""
    found = []

    def work():
        try:
            found.append(use())
        except Exception as fault:
            found.append(type(fault))

    thread = threading.Thread(target=work, daemon=True)
    thread.start()
    thread.join(20)
    if not found:
        raise AssertionError("another thread waits for a lock that nobody holds")
    return found[0]
