"""The documents of a deployment: the public one, and a private one for each replica and client (docs/CLUSTER.md, "Keys"); and the folders of its replicas."""
import os
import secrets
import tomllib
from pathlib import Path

from service import signatures
from service.cluster import Address, Fault, cluster_in, reason, text_of

KEY = 32  # bytes
LEVELS = 10, 10, 10  # heights of the trees of the relay's signing key, where none are given: it signs 2^30 times
REPLICA_LEVELS = 10, 10, 10, 10  # and of a replica's: it signs in 2^10 - 1 views, and 2^30 - 2 batches of all views
MOST_LEVELS, MOST_REPLICA_LEVELS = signatures.MOST_LEVELS, 4  # by more, a replica's signatures would be too long
HEIGHTS = 5, 10, 15  # which a tree may have
MOST_SIGNING_FAULTS = 5  # where more may fail, signatures would leave NEW-VIEWs no room for requests


def pair(sending, receiving):
    return f'{{ sending = "{sending}", receiving = "{receiving}" }}'


def document(me, replicas, clients):
    """A private document, of the principal's pairs with all replicas and clients."""
    lines = [f"me = {me}"]
    for name, pairs in (("replicas", replicas), ("clients", clients)):
        if pairs:
            lines += [f"{name} = [", *(f"    {pair}," for pair in pairs), "]"]
    return "\n".join(lines) + "\n"


def documents(cluster):
    """The private documents of a cluster by their names, with new keys."""
    replicas, clients = range(len(cluster.replicas)), range(cluster.clients)
    principals = [("replica", number) for number in replicas] + [("client", number) for number in clients]
    # a key for what one sends to another; of two clients none is ever used
    key = {(one, other): secrets.token_hex(KEY) for one in principals for other in principals if "replica" in (one[0], other[0])}
    for me in principals:
        pairs = {other: pair(key[me, other], key[other, me]) for other in principals if (me, other) in key}
        of = lambda role, numbers: [pairs[role, number] for number in numbers if (role, number) in pairs]
        yield f"{me[0]}-{me[1]}.toml", document(f"{{ {me[0]} = {me[1]} }}", of("replica", replicas), of("client", clients))


COUNTER = "relay.counter"  # the relay's next timestamp
SIGNING_KEY = "relay.key"
REPLICA_KEY = "replica-{}.key"
INDEXES = "relay.index"  # the key's next index; it is made with the key alone, so that a lost one is never taken for a new one
NEW = "new"  # a file in a replica's folder that says that it has never run


def private(path):
    """The path of a private file or folder, which others than its owner may not read or write."""
    try:
        mode = os.stat(path).st_mode & 0o777
    except OSError as fault:
        raise Fault(f"{path}: {reason(fault)}") from None
    if mode & 0o077:
        raise Fault(f"{path}: others than its owner may read or write it (mode {mode:04o}): `chmod go= {path}`")
    return path


def heights_in(text, option="--heights", least=1, most=MOST_LEVELS):
    """The heights of trees for each level, first the first: numbers with commas between them."""
    words = text.split(",")
    if not least <= len(words) <= most or any(word not in map(str, HEIGHTS) for word in words):
        raise Fault(f"{option}: {text!r} is no {least} to {most} of {', '.join(map(str, HEIGHTS))}, with commas between them")
    return tuple(map(int, words))


def replica_heights_in(text):
    """Those of a replica's key: below each leaf of the first tree there is an index for each batch."""
    return heights_in(text, "--replica-heights", 2, MOST_REPLICA_LEVELS)


def signing_document(heights):
    """The document of a new signing key (docs/CLUSTER.md, "Keys"), which `parse_signing_key` reads."""
    identity, seed = secrets.token_hex(signatures.ID), secrets.token_hex(KEY)
    return f'id = "{identity}"\nseed = "{seed}"\nheights = [{", ".join(map(str, heights))}]\n'


def signing_key_in(document):
    """The key that a document says."""
    said = tomllib.loads(document)
    return signatures.Key(bytes.fromhex(said["id"]), bytes.fromhex(said["seed"]), said["heights"])


def signing_files(folder, cluster):
    """The paths of the key by which a cluster's relay signs and of its next index; none where it signs nothing."""
    if not cluster.signers:
        return []
    key, indexes = f"{folder}/{SIGNING_KEY}", f"{folder}/{INDEXES}"
    if os.path.exists(key) and not os.path.exists(indexes):
        raise Fault(f"{indexes}: it is lost, and so which indexes of {SIGNING_KEY} were used: that key is to sign no more (docs/SERVICE.md)")
    return [private(key), private(indexes)]


def replica_signing(folder, cluster, number):
    """The words that tell a replica the file of its signing key; none where it signs nothing."""
    return ["--key", private(f"{folder}/{REPLICA_KEY.format(number)}")] if cluster.replica_signers else []


def is_nearly_spent(folder, number, views, batches):
    """Whether a sixteenth or less is left of the signing key of a replica in so late a view, or behind so many batches; of one that isn't in the folder, no."""
    try:
        first, *below = tomllib.loads(Path(folder, REPLICA_KEY.format(number)).read_text())["heights"]
    except OSError:
        return False
    return 16 * views >= 15 * (2**first - 1) or 16 * batches >= 15 * (2 ** sum(below) - 2)


def write_new(path, text, mode):
    with open(os.open(path, os.O_WRONLY | os.O_CREAT | os.O_EXCL, mode), "w") as file:
        os.fchmod(file.fileno(), mode)
        file.write(text)


def write_key(path, heights):
    """Writes a new signing key, and gives its public key."""
    document = signing_document(heights)
    write_new(path, document, 0o600)
    return signing_key_in(document).public_key


def is_new(folder):
    """Whether the replica of a folder has never run."""
    return os.path.exists(f"{folder}/{NEW}")


def begin(folder):
    """The replica of a folder is to run now, and so no later start takes it for a new one."""
    if is_new(folder):
        os.unlink(f"{folder}/{NEW}")
        place = os.open(folder, os.O_RDONLY)
        os.fsync(place)
        os.close(place)


def make(folder, faults, clients, host, port, relay, heights=None):
    """Makes a deployment's documents in a folder that has none; with heights its relay signs for all clients by a key with trees of the first of these, and each
    replica by one of the second, if there are such."""
    texts = [str(Address(host, port + number)) for number in range(3 * faults + 1)]
    cluster = cluster_in({"f": faults, "clients": clients, "replicas": texts, "relay": relay})
    try:
        os.makedirs(folder, mode=0o700, exist_ok=True)
        if old := sorted(path.name for path in Path(folder).iterdir() if path.suffix in (".toml", ".key") or path.name in (COUNTER, INDEXES, "replica-0")):
            raise Fault(f"{folder}: it has {old[0]}: nothing is written over")
        for number in range(len(cluster.replicas)):
            os.mkdir(f"{folder}/replica-{number}", mode=0o700)
            write_new(Path(folder, f"replica-{number}", NEW), "", 0o600)
        for name, text in documents(cluster):
            write_new(Path(folder, name), text, 0o600)
        write_new(Path(folder, COUNTER), "0\n", 0o600)
        if heights:
            relays, replicas = heights
            write_new(Path(folder, INDEXES), "0\n", 0o600)
            signers = (write_key(Path(folder, SIGNING_KEY), relays),) * clients
            own = [write_key(Path(folder, REPLICA_KEY.format(number)), replicas) for number in range(len(texts))] if replicas else ()
            cluster = cluster._replace(signers=signers, replica_signers=tuple(own))
        write_new(Path(folder, "cluster.toml"), text_of(cluster), 0o644)
    except OSError as fault:
        raise Fault(f"{folder}: {reason(fault)}") from None
    return cluster
