"""Work for all processors."""
import collections
import os
from collections.abc import Callable, Iterable, Iterator
from typing import Any, TypeVar

Item = TypeVar("Item")
Made = TypeVar("Made")


def in_order(make: Callable[[Item], Made], items: Iterable[Item]) -> Iterator[Made]:
    """What `make` gives for these items, in their order, made by as many threads as there are processors."""
    from concurrent import futures  # which takes a while, and few tools need it
    count = os.cpu_count() or 1
    with futures.ThreadPoolExecutor(count) as pool:
        waiting: collections.deque[Any] = collections.deque()
        try:
            for item in items:
                waiting.append(pool.submit(make, item))
                if len(waiting) > count:
                    yield waiting.popleft().result()
            while waiting:
                yield waiting.popleft().result()
        finally:
            for each in waiting:
                each.cancel()
