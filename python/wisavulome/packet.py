"""A packet's bits: header, delimiter, then the frame, low bit first."""

PREAMBLE = (1, 0) * 31 + (1, 1)  # seven octets of bits 10101010, and the delimiter 10101011


def packet_bits(frame):
    """The bits of a frame's packet, in the order in which they go out."""
    return PREAMBLE + tuple(octet >> bit & 1 for octet in frame for bit in range(8))


def octets_of_bits(bits):
    """The whole octets of bits, low bit first; bits over are dropped."""
    whole = len(bits) - len(bits) % 8
    return bytes(sum(bits[at + bit] << bit for bit in range(8)) for at in range(0, whole, 8))
