"""checkpoints: what a checkpoint takes on one processor, and what the snapshots of an unchanged state take of memory.

Of each state the first checkpoint, which hashes all, and the least of ROUNDS behind no change, and behind changes: WRITEs of 8,192 bytes all over the files,
or SETATTRs. Beside it what hashing 36 bytes an inode takes. Then the peak of memory of a process that keeps one snapshot of 256 MiB, and three.
"""
import lib
from lib import MEBIBYTE

ROUNDS = 10
STATES = [
    ("16 files of 64 KiB", 16, 1 << 16),
    ("64 files of 1 MiB", 64, MEBIBYTE),
    ("16 files of 8 MiB", 16, 8 * MEBIBYTE),
    ("16 files of 16 MiB", 16, 16 * MEBIBYTE),
    ("10,000 empty files", 10_000, 0),
    ("30,000 empty files", 30_000, 0),
    ("60,000 empty files", 60_000, 0),
]
CHANGES = {
    "16 files of 16 MiB": [("one WRITE", "write", 1), ("1,024 WRITEs", "write", 1_024)],
    "60,000 empty files": [("1,024 SETATTRs", "setattr", 1_024)],
}


def checkpoint(program, files, length, change, count):
    """The milliseconds of the first, of the least of the others, and of hashing 36 bytes an inode."""
    run = lib.run(*lib.ON_ONE, program, files, length, change, count, ROUNDS, 3, reads=True)
    return [number / 1000 for number in run.numbers]


def main(room, words):
    lib.chosen(words, ())
    crates = "bfs_types bfs_replies bfs_serial bfs_checkpoints bfs_testing sha2"
    program = lib.program_of("checkpoints", room, crates, "1", "8192", "write", "1", "1", "1")
    for name, files, length in STATES:
        first, again, hashed = checkpoint(program, files, length, "setattr", 0)
        line = f"{name}: the first {first:.1f} ms, with nothing changed {again:.2f} ms, hashing 36 bytes an inode {hashed:.2f} ms"
        for what, change, count in CHANGES.get(name, ()):
            _, took, _ = checkpoint(program, files, length, change, count)
            line += f"; behind {what} {took:.2f} ms"
        print(line)
    one, three = (lib.run(program, 16, 16 * MEBIBYTE, "setattr", 0, 3, kept, reads=True).peak for kept in (1, 3))
    print(f"256 MiB: peak of memory with one snapshot {one / MEBIBYTE:.0f} MiB, with three {three / MEBIBYTE:.0f} MiB: {three / (256 * MEBIBYTE):.2f} of the bytes of files")
