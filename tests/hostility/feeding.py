"""Files that aren't plain: fed while they are read, or changed meanwhile."""
import contextlib
import os
import threading

PIECES = (1, 2, 3, 5, 7)  # bytes written at a time, over and over


def pieces_of(data):
    """The data in pieces of a few bytes, the rest of a large one at once."""
    at = 0
    for place in range(400):
        if at >= len(data):
            return
        yield data[at : at + PIECES[place % len(PIECES)]]
        at += PIECES[place % len(PIECES)]
    yield data[at:]


def feed(path, data):
    """Writes into a named pipe as soon as someone reads it; nothing if nobody does any more."""
    with contextlib.suppress(OSError):
        descriptor = os.open(path, os.O_WRONLY)
        try:
            for piece in pieces_of(data):
                os.write(descriptor, piece)
        finally:
            os.close(descriptor)


@contextlib.contextmanager
def fed(path, data):
    """A named pipe that gives the data once, in pieces."""
    os.mkfifo(path)
    feeder = threading.Thread(target=feed, args=(path, data))
    feeder.start()
    try:
        yield
    finally:
        # whoever waits for the other side goes on
        os.close(os.open(path, os.O_RDWR | os.O_NONBLOCK))
        feeder.join(1)
        os.remove(path)


@contextlib.contextmanager
def changing(path, data, more):
    """A file that grows by some bytes and shrinks again, over and over."""
    ends = threading.Event()

    def change():
        with open(path, "r+b", buffering=0) as file:
            while not ends.is_set():
                file.seek(len(data))
                file.write(more)
                file.truncate(len(data))

    with open(path, "wb") as file:
        file.write(data)
    changer = threading.Thread(target=change)
    changer.start()
    try:
        yield
    finally:
        ends.set()
        changer.join()
