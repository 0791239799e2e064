"""Items of XDR (RFC 4506): a reader that takes them off bytes, and functions that spell them."""
import struct

ALL_ONES = 0xFFFFFFFF


class Fault(Exception):
    """The bytes do not spell what is read from them."""


def padding(length):
    """How many bytes follow so many, up to a multiple of four (RFC 4506 section 3)."""
    return -length % 4


def words(*numbers):
    """Unsigned integers (RFC 4506 section 4.2)."""
    return struct.pack(f">{len(numbers)}I", *numbers)


def double(number):
    """An unsigned hyper integer (RFC 4506 section 4.5)."""
    return struct.pack(">Q", number)


def opaque(data):
    """Variable-length opaque data, or a string (RFC 4506 sections 4.10 and 4.11)."""
    return words(len(data)) + data + bytes(padding(len(data)))


class Reader:
    """Reads items one after another. A strict one wants zeros as padding, another any bytes."""

    def __init__(self, data, strict=False):
        self.data = data
        self.strict = strict
        self.place = 0

    def raw(self, length):
        """So many bytes, without padding."""
        end = self.place + length
        if end > len(self.data):
            raise Fault("short")
        taken = self.data[self.place : end]
        self.place = end
        return taken

    def word(self):
        return int.from_bytes(self.raw(4), "big")

    def double(self):
        return int.from_bytes(self.raw(8), "big")

    def boolean(self):
        """A boolean (RFC 4506 section 4.4): 0 or 1 and nothing else."""
        number = self.word()
        if number > 1:
            raise Fault("no boolean")
        return number == 1

    def fixed(self, length):
        """Fixed-length opaque data (RFC 4506 section 4.9)."""
        taken = self.raw(length)
        if any(self.raw(padding(length))) and self.strict:
            raise Fault("padding")
        return taken

    def opaque(self, most):
        length = self.word()
        if length > most:
            raise Fault("long")
        return self.fixed(length)

    def count(self, most):
        """How many items a list has (RFC 4506 section 4.13)."""
        number = self.word()
        if number > most:
            raise Fault("many")
        return number

    def end(self):
        """Nothing may be left."""
        if self.place != len(self.data):
            raise Fault("bytes left")
