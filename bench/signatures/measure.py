"""signatures: what signing and verifying by RFC 8554 take on one processor, beside the compressions that the algorithm asks for.

A key of one level, 2^10 leaves and W4. A signature asks for 502 steps of chains on the average, as many again of the other sort are verified, a compression each; beside
them are the secrets of 67 chains, the hash of the 67 values (34), and of a verification the path (2 a level) and the leaf.
Beside them a key of four levels of 2^5 leaves: a signature is verified whole, or by upper levels that are kept, which one of 32 signatures changes.
"""
import lib

TIMES, ROUNDS, HEIGHT = 1_000, 5, 10
LEVELS, LOW = 4, 5
CHAINS, STEPS, VALUES, MESSAGE = 67, 67 * 7.5, 34, 2
SIGNING = CHAINS + STEPS + MESSAGE + 1
VERIFYING = STEPS + VALUES + MESSAGE + 1 + 2 * HEIGHT
LAST = STEPS + VALUES + MESSAGE + 1 + 2 * LOW
KEPT = LAST + (LEVELS - 1) * LAST / 2**LOW


def main(room, words):
    lib.chosen(words, ())
    program = lib.program_of("signatures", room, "lms sha2", "1")
    runs = [lib.run(*lib.ON_ONE, program, TIMES, reads=True).numbers for _ in range(ROUNDS)]
    signing, verifying, step, whole, kept = (min(column) for column in zip(*runs))
    print(f"a compression {step:.0f} ns; signing {signing / 1e3:.0f} us, {signing / step:.0f} compressions of {SIGNING:.0f}; "
          f"verifying {verifying / 1e3:.0f} us, {verifying / step:.0f} of {VERIFYING:.0f}")
    print(f"of {LEVELS} levels: verifying whole {whole / 1e3:.0f} us, {whole / step:.0f} of {LEVELS * LAST:.0f}; "
          f"by upper levels that are kept {kept / 1e3:.0f} us, {kept / step:.0f} of {KEPT:.0f}")
