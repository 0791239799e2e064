"""Keyed hashes (RFC 2104 section 2) in the place of signatures: each pair of principals has a key for each direction."""
import hmac
from functools import cache

from messages import REPLY, REQUEST, Signed
from xdr import words

FIRST_CLIENT = 4_096  # the principal of client 0; replicas are those from 0 on


def keyed_hash(key, text):
    return hmac.digest(key, text, "sha256")


class Keys:
    """All keys of a run, as whoever has its secret can derive them."""

    def __init__(self, settings):
        self.settings = settings
        self.between = cache(self.derive)
        self.entry = cache(self.hashed)

    def derive(self, sender, receiver):
        return keyed_hash(self.settings.secret, words(sender, receiver))

    def hashed(self, sender, receiver, text):
        return keyed_hash(self.between(sender, receiver), text)

    def sign(self, message):
        """With an entry for each replica, or the client that a REPLY goes to."""
        if message.tag == REPLY:
            return Signed(message, (self.entry(message.sender, FIRST_CLIENT + message.client, message.body),))
        sender = FIRST_CLIENT + message.sender if message.tag == REQUEST else message.sender
        return Signed(message, tuple(self.entry(sender, replica, message.body) for replica in range(self.settings.replicas)))

    def passes(self, signed, receiver):
        """Whether a replica finds its sender's entry for itself right."""
        message = signed.message
        if message.tag == REQUEST:
            known, sender = message.sender < self.settings.clients, FIRST_CLIENT + message.sender
        else:
            known, sender = message.sender < self.settings.replicas, message.sender
        return known and receiver < len(signed.entries) and signed.entries[receiver] == self.entry(sender, receiver, message.body)

    def client_passes(self, signed, client):
        """Whether a client finds a REPLY to it right."""
        message = signed.message
        if message.tag != REPLY or message.client != client or message.sender >= self.settings.replicas:
            return False
        return signed.entries[:1] == (self.entry(message.sender, FIRST_CLIENT + client, message.body),)
