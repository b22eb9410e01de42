"""Chunks of logs on the cores of this machine, or on the workers of a dask.distributed cluster; results in order."""

import contextlib
import functools
import itertools
import os
import site
import uuid

from .. import program, status
from ..fault import Fault, package
from ..logs import pool
from . import chunk


def results(old, new, paths, scheduler):
    """Yields each piece of the logs with what came of it, in the order of the logs."""
    run = uuid.uuid4().hex
    with workers(scheduler) as (submit, count):
        found = chunk.chunks(paths, count)
        first = next(found, None)
        second = next(found, None)
        if second is None and scheduler is None:
            yield from zip(first or (), chunk.replayed(old, new, run, first) if first else ())
            return
        begun = (one for one in (first, second) if one)
        tasks = itertools.chain(begun, found)
        for pieces, future in pool.in_order(functools.partial(submit, old, new, run), tasks, 2 * count):
            yield from zip(pieces, future.result())


# How long a scheduler may take to answer at first.
TIMEOUT = "10s"


@contextlib.contextmanager
def workers(scheduler):
    """Gives a call that hands a chunk to some worker, and the number of workers."""
    if scheduler is None:
        with pool.processes() as local:
            yield functools.partial(local.submit, chunk.replayed), pool.cores()
        return
    distributed = package("distributed", "impact --scheduler", "distributed")
    try:
        client = distributed.Client(scheduler, timeout=TIMEOUT)
    except (OSError, ValueError) as cause:
        raise Fault(f"the scheduler {scheduler} can't be reached: {cause}", status.SERVICE) from cause
    with client:
        # The workers read the files and call the program by the same paths as this machine; this package too.
        client.register_worker_callbacks(functools.partial(site.addsitedir, os.path.join(program.TOP, "tools")))
        count = sum(client.nthreads().values())
        if not count:
            raise Fault(f"the scheduler {scheduler} has no workers", status.SERVICE)

        def submit(old, new, run, pieces):
            # A worker may stand in another folder.
            absolute = [piece._replace(path=os.path.abspath(piece.path)) for piece in pieces]
            return client.submit(chunk.replayed, old, new, run, absolute, pure=False)

        yield submit, count
