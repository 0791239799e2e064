"""What `replay` prints where there is one server: each block is executed at once, one call after another."""
from files import FileSystem
from table import Replies, execute, replica_digest
from trace import Block, Timeout


def line_of(request, reply):
    shown = "none" if reply is None else reply.hex() or "-"
    return f"c{request.client} t{request.timestamp} {shown}"


def run(events, settings):
    """The lines that are printed for a trace in which the server is never silent."""
    files, replies = FileSystem(), Replies(settings.clients)
    lines, view = [], 0
    for event in events:
        if isinstance(event, Block):
            given = {}
            for request, reply in zip(event.requests, execute(files, replies, event.time, event.requests)):
                if reply is not None:
                    given.setdefault((request.client, request.timestamp), reply)
            lines += [line_of(request, given.get((request.client, request.timestamp))) for request in event.requests]
        elif isinstance(event, Timeout):
            view += 1
            lines.append(f"view {view}")
    return lines + [f"digest 0 {replica_digest(files, replies).hex()}"]
