"""A machine of the soak: a process that follows the log, with readers who check all that they see.

    machine.py NAME KIND DATABASE CACHE

KIND is that of its store. For each line of its input it prints version, epoch, numbers, look-ups, what was wrong, why
it has stopped, and whether its texts are the cache's, as JSON.
"""
import json
import sys

from kobdzila.fleet import Follower
from stores import Readers, opened


def main(name: str, kind: str, database: str, cache: str) -> None:
    with Follower(opened(kind), database, name, look_each=1, cache=cache, go_over=True) as follower:
        readers = Readers(follower)
        for _ in sys.stdin:
            number = sorted(follower.store.snapshot().numbers())
            stopped = None if follower.stopped is None else str(follower.stopped)
            version = follower.version
            print(json.dumps([version, version.epoch, number, readers.looks, readers.wrong[:3], stopped,
                              follower.is_older]), flush=True)
        readers.close()


if __name__ == "__main__":
    main(*sys.argv[1:])
