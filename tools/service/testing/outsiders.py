"""What a replica and a relay on outside/ share: their keys, and the clusters' document. outside/ derives all keys from one secret; here each has its own,
and where the cluster's clients or replicas sign, a signing key (docs/CLUSTER.md, "Keys")."""
import hmac
import sys
import tomllib
from functools import cache, lru_cache
from pathlib import Path
from types import SimpleNamespace

from service import keys, signatures
from service.testing.signing import OF_PLACES, own_key, signature_of

sys.path.insert(0, str(Path(__file__).resolve().parents[3] / "outside"))
import codec
import messages
from messages import REPLY, REQUEST


def read(path):
    return tomllib.loads(Path(path).read_text())


@cache
def signing_key(path):
    return keys.signing_key_in(Path(path).read_text())


class Signing:
    """The key by which clients sign, and the file of its next index, which is counted before it is used."""

    def __init__(self, key, indexes):
        self.key, self.indexes = signing_key(key), Path(indexes)

    def sign(self, requests):
        """Those requests, signed at once by the next index."""
        index = int(self.indexes.read_text())
        self.count(index + 1)
        made = signatures.sign_texts(self.key, index, [request.body for request in requests])
        return [messages.Signed(request, (), signature) for request, signature in zip(requests, made, strict=True)]

    def count(self, number):
        """It may be killed at any moment: a new file takes the old one's place."""
        beside = self.indexes.with_suffix(".new")
        beside.unlink(missing_ok=True)
        keys.write_new(beside, f"{number}\n", 0o600)
        beside.replace(self.indexes)


verified = lru_cache(4_096)(signatures.verify_text)


class OwnKeys:
    """The keys of one principal of a cluster, from its document; of a client whose requests are signed, with what signs them; of a replica that signs, with its key."""

    def __init__(self, path, cluster, signing=None):
        document = read(path)
        ((self.role, self.me),) = document["me"].items()
        pairs = lambda name: [tuple(bytes.fromhex(pair[way]) for way in ("sending", "receiving")) for pair in document.get(name, [])]
        self.replicas, self.clients = pairs("replicas"), pairs("clients")
        self.settings = SimpleNamespace(replicas=len(self.replicas), faults=(len(self.replicas) - 1) // 3, clients=cluster["clients"])
        public_keys = lambda name: [bytes.fromhex(text) for text in cluster.get(name, [])]
        self.signers, self.replica_signers = public_keys("signers"), public_keys("replica_signers")
        self.signing, self.own = signing, own_key(path)

    def sign(self, message):
        """By its key, or else by keyed hashes."""
        if self.signing:
            return self.signing.sign([message])[0]
        signature = signature_of(self.own, message.body)
        return self.hashed(message) if signature is None else messages.Signed(message, (), signature)

    def hashed(self, message):
        """With an entry for each replica, or the client that a REPLY goes to."""
        to = [self.clients[message.client]] if message.tag == REPLY else self.replicas
        return messages.Signed(message, tuple(hmac.digest(sending, message.body, "sha256") for sending, _ in to))

    def passes(self, signed, me):
        """Whether the sender's signature, or its entry for this principal, is right."""
        message = signed.message
        signers = self.signers if message.tag == REQUEST else self.replica_signers if message.tag in OF_PLACES else []
        if signers:
            is_known = message.sender < len(signers) and signed.signature is not None
            return is_known and verified(signers[message.sender], message.body, signed.signature)
        known = self.clients if message.tag == REQUEST else self.replicas
        place = me if self.role == "replica" else 0
        is_known = message.sender < len(known) and place < len(signed.entries)
        return is_known and hmac.compare_digest(hmac.digest(known[message.sender][1], message.body, "sha256"), signed.entries[place])
