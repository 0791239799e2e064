"""The public document of a deployment, cluster.toml: how many replicas and clients there are, and where."""
import os
import re
import tomllib
from pathlib import Path
from typing import NamedTuple

from service import signatures

MOST_FAULTS, MOST_CLIENTS = 10, 1_024
MOST_PATIENCE = 60_000  # milliseconds
KEYS = "f", "clients", "replicas", "relay"
OTHERS = "portmap", "patience", "signers", "replica_signers", "limits"  # which may be missing; `patience` and `limits` are for replicas and relays alone
MEBIBYTE = 1 << 20
# the least limit of each kind of frame, in bytes, and the most; crates/bfs_deployment has them too
LIMITS = {
    "request": 28_700,
    "order": 4 * MEBIBYTE,
    "view_change": 64 * MEBIBYTE,
    "new_view": 64 * MEBIBYTE,
    "reply": 17_412,
    "status": 2_048,
    "ask_state": 2_048,
    "state": 2 * MEBIBYTE,
    "ask_report": 2_048,
    "report": MEBIBYTE,
    "call": 16_392,
    "answer": 16_392,
    "log": 4_096,
}
MOST_LIMIT = (1 << 32) - 1


class Fault(Exception):
    """What is wrong, in words for the operator."""


def reason(fault):
    """Why the system refused something, in its own words."""
    return os.strerror(fault.errno) if fault.errno and fault.errno > 0 else str(fault)


class Address(NamedTuple):
    host: str
    port: int

    def __str__(self):
        return f"[{self.host}]:{self.port}" if ":" in self.host else f"{self.host}:{self.port}"


class Cluster(NamedTuple):
    """At most `faults` of the replicas may fail; the relay is where kernels send their calls, and `portmap` where they may ask for its port. Signers are
    public keys of clients, or of replicas, by their numbers, or none."""

    faults: int
    clients: int
    replicas: tuple[Address, ...]
    relay: Address
    portmap: Address | None = None
    signers: tuple[bytes, ...] = ()
    replica_signers: tuple[bytes, ...] = ()


def address_in(text, key):
    """HOST:PORT; an address of IPv6 stands in brackets."""
    host, _, port = text.rpartition(":") if isinstance(text, str) else ("", "", "")
    host = host[1:-1] if host[:1] == "[" and host[-1:] == "]" else host
    if not re.fullmatch(r"[\w.:-]+", host) or not (port.isascii() and port.isdigit()) or not 0 < int(port) < 1 << 16:
        raise Fault(f"{key}: {text!r} is no HOST:PORT")
    return Address(host, int(port))


def number_in(document, key, least, most, table=""):
    number = document[key]
    if type(number) is not int or not least <= number <= most:
        raise Fault(f"{table}{key}: {number!r} is no number from {least} to {most}")
    return number


def check_keys(document, keys, table=""):
    for key in sorted(document):
        if key not in keys:
            raise Fault(f"{table}{key}: there is no such key")


def check_limits(limits):
    """Limits of frames may be raised, and not lowered: what is below would lose messages of those that don't fail."""
    if not isinstance(limits, dict):
        raise Fault(f"limits: {limits!r} is no table")
    check_keys(limits, LIMITS, "limits.")
    for key in limits:
        number_in(limits, key, LIMITS[key], MOST_LIMIT, "limits.")


def signers_in(document, key, who, count):
    """A public key for each client, or replica, or none; `parse_deployment` reads them likewise."""
    if key not in document:
        return ()
    texts = document[key]
    if not isinstance(texts, list) or not all(isinstance(text, str) for text in texts):
        raise Fault(f"{key}: it is no array of texts")
    for number, text in enumerate(texts):
        # bytes.fromhex passes over spaces
        if not re.fullmatch(r"[0-9A-Fa-f]{120}", text) or not signatures.is_public_key(bytes.fromhex(text)):
            raise Fault(f"{key}: that of {who} {number} is no public key")
    if len(texts) != count:
        raise Fault(f"{key}: there are to be {count} of them")
    return tuple(map(bytes.fromhex, texts))


def cluster_in(document):
    """The cluster that a document describes; a fault names its key."""
    check_keys(document, KEYS + OTHERS)
    for key in KEYS:
        if key not in document:
            raise Fault(f"{key}: it is missing")
    faults = number_in(document, "f", 0, MOST_FAULTS)
    clients = number_in(document, "clients", 1, MOST_CLIENTS)
    replicas = document["replicas"]
    if not isinstance(replicas, list) or len(replicas) != 3 * faults + 1:
        raise Fault(f"replicas: with f = {faults} it is a list of {3 * faults + 1} addresses")
    replicas = tuple(address_in(text, "replicas") for text in replicas)
    relay = address_in(document["relay"], "relay")
    portmap = address_in(document["portmap"], "portmap") if "portmap" in document else None
    addresses = [*replicas, relay, *filter(None, [portmap])]
    if len(set(addresses)) != len(addresses):
        raise Fault("replicas: two of these addresses, or one of them and that of `relay` or `portmap`, are one")
    if "patience" in document:
        number_in(document, "patience", 1, MOST_PATIENCE)
    signers = signers_in(document, "signers", "client", clients)
    replica_signers = signers_in(document, "replica_signers", "replica", len(replicas))
    check_limits(document.get("limits", {}))
    return Cluster(faults, clients, replicas, relay, portmap, signers, replica_signers)


def read_cluster(folder):
    path = Path(folder, "cluster.toml")
    try:
        return cluster_in(tomllib.loads(path.read_text()))
    except FileNotFoundError:
        raise Fault(f"{path}: there is none; `tools/bfs keys {folder}` makes it") from None
    except (OSError, UnicodeDecodeError, tomllib.TOMLDecodeError) as fault:
        raise Fault(f"{path}: {fault}") from None
    except Fault as fault:
        raise Fault(f"{path}: {fault}") from None


def text_of_signers(cluster):
    lists = {"signers": cluster.signers, "replica_signers": cluster.replica_signers}
    return "".join("\n".join([f"{key} = [", *(f'    "{each.hex()}",' for each in signers), "]\n"]) for key, signers in lists.items() if signers)


def text_of(cluster):
    """The document that describes a cluster."""
    replicas = ", ".join(f'"{address}"' for address in cluster.replicas)
    relay = f'relay = "{cluster.relay}" # NFS version 2 and MOUNT, by TCP and UDP'
    return f"f = {cluster.faults}\nclients = {cluster.clients}\nreplicas = [{replicas}]\n{relay}\n{text_of_signers(cluster)}"
