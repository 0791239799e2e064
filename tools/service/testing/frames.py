"""What goes over pipes and sockets: frames, alone or in turns, answers and parcels. All numbers are big-endian."""
import struct

REQUEST, ORDER, VIEW_CHANGE, NEW_VIEW, REPLY, STATUS, ASK_STATE, STATE, ASK_REPORT, REPORT, CALL, ANSWER, LOG = range(1, 14)  # kinds of frames
TO_REPLICAS, TO_REPLICA, TO_CLIENT, TO_OPERATOR, TO_CALLER = range(5)
REPLICA, RELAY, OPERATOR = range(3)  # the roles of those that say hello

FRAME = struct.Struct(">BI")  # kind, length; then the payload
HELLO = struct.Struct(">4sBII")  # MAGIC, role, the first number and the count of what the dialer speaks for
MAGIC = b"BFS1"


def framed(kind, payload=b""):
    """The frame of that payload."""
    return FRAME.pack(kind, len(payload)) + payload
