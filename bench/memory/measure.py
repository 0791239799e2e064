"""memory: what clients and liars take of one replica's memory.

How many bytes come to a replica, and the peak of the process's memory without what it takes where nothing comes: for requests that wait, last replies,
PRE-PREPAREs, and VIEW-CHANGEs of one sender, each of which is made, read and then kept in the place of the one before. `PROGRAM changes 31 1024` has the
greatest ones among four replicas, and takes a quarter of an hour.
"""
import lib
from lib import MEBIBYTE

LOADS = [("requests", 1_024, 0), ("replies", 1_024, 0), ("proposals", 32, 64), *(("changes", count, 8) for count in (1, 2, 31))]


def main(room, words):
    lib.chosen(words, ())
    crates = "bfs_types bfs_settings bfs_auth bfs_messages bfs_codec bfs_replies bfs_node"
    program = lib.program_of("memory", room, crates, "requests", "0", "0")
    alone = lib.run(program, "requests", 0, 0, reads=True).peak
    for kind, count, requests in LOADS:
        run = lib.run(program, kind, count, requests, reads=True)
        (came,), peak = run.numbers, run.peak - alone
        each = came / count
        print(f"{kind} {count} of {each / MEBIBYTE:.2f} MiB: {came / MEBIBYTE:.0f} MiB came; peak {peak / MEBIBYTE:.0f} MiB, {peak / each:.2f} of one, "
              f"{peak / came:.2f} of all")
