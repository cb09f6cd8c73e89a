"""Processes that work for this one."""
import concurrent.futures
import concurrent.futures.process
import contextlib
import multiprocessing
from typing import Callable, Iterator

from . import endings
from .common import FAILED, Ended


@contextlib.contextmanager
def workers(count: int) -> Iterator[Callable]:
    """A map over so many processes. None of them is left, whatever happens."""
    pool = concurrent.futures.ProcessPoolExecutor(count, multiprocessing.get_context("fork"), endings.unwatch)
    try:
        yield pool.map
    except concurrent.futures.process.BrokenProcessPool as error:
        raise Ended(FAILED, "a process that read a trace has ended early") from error
    except BaseException:
        for child in multiprocessing.active_children():
            child.terminate()
        raise
    finally:
        pool.shutdown(cancel_futures=True)
