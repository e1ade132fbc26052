"""Runs tries side by side, as many as there are lanes and as memory holds."""
import concurrent.futures

from . import kit


def run(tries, lanes):
    """Has each try run, and those that come of it; yields each edit with its verdict as soon as it is known."""
    left, running, room = [*tries], {}, kit.free()
    with concurrent.futures.ThreadPoolExecutor(lanes) as pool:
        while left or running:
            left.sort(key=lambda it: -it.memory())
            for it in [*left]:
                taken = sum(other.memory() for other in running.values())
                if len(running) < lanes and (not running or taken + it.memory() <= room):
                    left.remove(it)
                    running[pool.submit(it.run)] = it
            ended = concurrent.futures.wait(running, return_when=concurrent.futures.FIRST_COMPLETED).done
            for work in ended:
                running.pop(work)
                verdicts, more = work.result()
                left += more
                yield from verdicts.items()
