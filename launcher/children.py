"""Processes that don't outlive this one."""
import ctypes

DIES_WITH_PARENT = 1


def ended_by(number):
    """What a child does before its program begins, so that it gets this signal as soon as this process ends, however that ends."""
    with_parent = ctypes.CDLL(None).prctl
    return lambda: with_parent(DIES_WITH_PARENT, number)
