"""What an operator does: starts all processes on this machine, and asks replicas for reports."""
import asyncio
import secrets
import signal
import struct
import subprocess
import sys
import time

from service.cluster import reason

FRAME = struct.Struct(">BI")  # kind, length; then the payload
ASK_REPORT, REPORT = 9, 10  # kinds of frames
HELLO = struct.pack(">4sBII", b"BFS1", 2, 0, 0)  # that of an operator
PATIENCE = 5  # seconds that a process has to end, and a replica to report
POLL = 0.1
MOST_REPORT = 1 << 20
NULL = struct.pack(">9I", 0, 2, 100_003, 2, 0, 0, 0, 0, 0)  # behind its xid: a call of procedure 0 of NFS version 2 (RFC 5531 section 9)
NULL_HEAD = struct.pack(">I", 1 << 31 | 4 + len(NULL))  # its record mark


def up(commands):
    """Starts these processes by their names and waits for them, until it is told to end; then ends them all. Gives the status."""
    told = []
    for number in (signal.SIGTERM, signal.SIGINT, signal.SIGHUP):
        signal.signal(number, lambda *_: told.append(True))
    # a process ends at the end of its standard input, so also when this one is killed
    running = {name: subprocess.Popen(command, stdin=subprocess.PIPE, process_group=0) for name, command in commands.items()}
    try:
        while running and not told:
            for name, process in list(running.items()):
                if process.poll() is not None:
                    say(f"{name} has ended with status {process.returncode}; the others go on")
                    process.stdin.close()
                    del running[name]
            time.sleep(POLL)
    finally:
        end(running)
    if not told:
        say("all have ended")
    return 0 if told else 1


def end(running):
    """Ends what runs: by its standard input and a signal, and after a while by force."""
    for process in running.values():
        process.stdin.close()
        process.terminate()
    for process in running.values():
        try:
            process.wait(PATIENCE)
        except subprocess.TimeoutExpired:
            process.kill()
            process.wait()


def say(text):
    print(f"up: {text}", file=sys.stderr, flush=True)


async def report(address):
    """What the replica there reports, as pairs of a name and a value."""
    reader, writer = await asyncio.open_connection(*address)
    try:
        writer.write(HELLO + FRAME.pack(ASK_REPORT, 0))
        while True:
            kind, length = FRAME.unpack(await reader.readexactly(FRAME.size))
            if length > MOST_REPORT:
                return {"report": f"too long: {length} bytes"}
            payload = await reader.readexactly(length)
            if kind == REPORT:
                words = payload.decode(errors="replace").split()
                return dict(word.partition("=")[::2] for word in words)
    finally:
        writer.close()


async def null_call(address):
    """How long the relay there takes to answer a call of NULL."""
    begun = time.monotonic()
    reader, writer = await asyncio.open_connection(*address)
    try:
        xid = secrets.token_bytes(4)
        writer.write(NULL_HEAD + xid + NULL)
        while (await reader.readexactly(8))[4:] != xid:
            pass  # what else it says is no reply to this
        return f"answers in {(time.monotonic() - begun) * 1_000:.1f} ms"
    finally:
        writer.close()


async def asked(question):
    """What it gives, or one line on why there is nothing."""
    try:
        return await asyncio.wait_for(question, PATIENCE)
    except asyncio.TimeoutError:
        return f"no answer within {PATIENCE} s"
    except asyncio.IncompleteReadError:
        return "the connection was closed"
    except OSError as fault:
        return f"no connection: {reason(fault)}"


def table(rows):
    """Lines with the columns of all that was reported, in the order in which names came first."""
    names = list(dict.fromkeys(name for row in rows if isinstance(row, dict) for name in row))
    cells = [["replica", *names]]
    for number, row in enumerate(rows):
        cells.append([str(number), *([row.get(name, "-") for name in names] if isinstance(row, dict) else [row])])
    widths = [max(len(line[column]) for line in cells if len(line) == len(cells[0])) for column in range(len(cells[0]))]
    return ["  ".join(cell.ljust(width) for cell, width in zip(line, [*widths, *[0] * len(line)])).rstrip() for line in cells]


def status(cluster, is_nearly_spent):
    """Prints the table, whether the relay answers, and whose signing keys are nearly spent; gives 0 where all answer."""
    *rows, relay = asyncio.run(all_asked(cluster))
    print(*table(rows), f"relay {cluster.relay}: {relay}", sep="\n")
    for number, row in enumerate(rows):
        if isinstance(row, dict) and is_nearly_spent(number, int(row.get("asked", 0)), int(row.get("executed", 0))):
            print(f"replica {number}: its signing key is nearly spent (docs/SERVICE.md)")
    return 0 if all(isinstance(row, dict) for row in rows) and relay.startswith("answers") else 1


async def all_asked(cluster):
    questions = [report(address) for address in cluster.replicas] + [null_call(cluster.relay)]
    return await asyncio.gather(*map(asked, questions))
