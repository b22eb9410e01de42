"""Work on the cores of this machine, with results in the order of the work."""

import collections
import concurrent.futures
import multiprocessing
import os


def cores():
    """Returns how many cores this process may use."""
    return len(os.sched_getaffinity(0)) if hasattr(os, "sched_getaffinity") else os.cpu_count() or 1


def processes():
    """Returns a pool of a process a core."""
    return concurrent.futures.ProcessPoolExecutor(cores(), mp_context=multiprocessing.get_context("fork"))


def in_order(submit, tasks, width):
    """Yields each task with its future, the first handed in first; so many are under way at most."""
    waiting = collections.deque()
    for task in tasks:
        waiting.append((task, submit(task)))
        if len(waiting) >= width:
            yield waiting.popleft()
    yield from waiting
