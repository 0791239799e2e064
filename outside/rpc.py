"""Calls and replies of RPC (RFC 5531 sections 8 to 10) around the procedures: from the bytes of a call to those of its reply."""
from context import Call
from files import Caller
from procedures import PROCEDURES, results
from xdr import Fault, Reader, opaque, words

CALL, REPLY = 0, 1
RPC_VERSION, PROGRAM, PROGRAM_VERSION = 2, 100_003, 2
AUTH_NONE, AUTH_SYS = 0, 1
MOST_AUTH, MOST_MACHINE, MOST_GIDS = 400, 255, 16
NOBODY = Caller(65_534, 65_534)

ACCEPTED, DENIED = (0, 0, 0), (1,)  # an accepted reply has a verifier: AUTH_NONE, without a body
SUCCESS, PROG_UNAVAIL, PROG_MISMATCH, PROC_UNAVAIL, GARBAGE_ARGS = range(5)
RPC_MISMATCH, AUTH_ERROR = 0, 1
AUTH_BADCRED = 1


def caller_of(flavor, body):
    """Who a credential says that calls (RFC 5531 section 8.2 and appendix A), or a `Fault` where it says nobody."""
    if flavor == AUTH_NONE:
        return NOBODY
    if flavor != AUTH_SYS:
        raise Fault("flavor")
    reader = Reader(body)
    reader.word()
    reader.opaque(MOST_MACHINE)
    uid, gid = reader.word(), reader.word()
    gids = tuple(reader.word() for _ in range(reader.count(MOST_GIDS)))
    reader.end()
    return Caller(uid, gid, gids)


def answer(files, time, message):
    """Carries out one call, whose ordinal is taken whatever it is, and gives the reply: no bytes where its header can't be read."""
    ordinal = files.take_ordinal()
    reader = Reader(message)
    try:
        xid = reader.word()
        if reader.word() != CALL:
            return b""
        rpc_version, program, version, procedure = (reader.word() for _ in range(4))
        credential = reader.word(), reader.opaque(MOST_AUTH)
        reader.word()
        reader.opaque(MOST_AUTH)
    except Fault:
        return b""

    def reply(*numbers):
        return words(xid, REPLY, *numbers)

    if rpc_version != RPC_VERSION:
        return reply(*DENIED, RPC_MISMATCH, RPC_VERSION, RPC_VERSION)
    try:
        caller = caller_of(*credential)
    except Fault:
        return reply(*DENIED, AUTH_ERROR, AUTH_BADCRED)
    if program != PROGRAM:
        return reply(*ACCEPTED, PROG_UNAVAIL)
    if version != PROGRAM_VERSION:
        return reply(*ACCEPTED, PROG_MISMATCH, PROGRAM_VERSION, PROGRAM_VERSION)
    if procedure >= len(PROCEDURES):
        return reply(*ACCEPTED, PROC_UNAVAIL)
    try:
        given = results(procedure, reader, Call(files, ordinal, time, caller))
    except Fault:
        return reply(*ACCEPTED, GARBAGE_ARGS)
    return reply(*ACCEPTED, SUCCESS) + given


def call(xid, procedure, caller, arguments):
    """A good call, as a client on the machine `replay` sends it."""
    credential = words(0) + opaque(b"replay") + words(caller.uid, caller.gid, len(caller.gids), *caller.gids)
    header = words(xid, CALL, RPC_VERSION, PROGRAM, PROGRAM_VERSION, procedure)
    return header + words(AUTH_SYS) + opaque(credential) + words(AUTH_NONE, 0) + arguments
