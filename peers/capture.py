"""A capture file of CLDAP searches for the attribute Netlogon: each ping as a request, and its reply."""

import struct

PORT = 389
CLIENT_PORT = 40000
LINK_RAW_IPV4 = 228
# tshark knows it in small letters alone.
ATTRIBUTE = b"netlogon"


def element(tag, *parts):
    """A BER element; a length over 127 takes two octets after the first."""
    body = b"".join(parts)
    length = len(body)
    if length < 0x80:
        return bytes([tag, length]) + body
    return bytes([tag, 0x82]) + struct.pack(">H", length) + body


def message(number, *operation):
    # One bit more than the number has, for its sign.
    octets = number.to_bytes(number.bit_length() // 8 + 1, "big")
    return element(0x30, element(0x02, octets), *operation)


def search_request(number, search_filter):
    scope_and_limits = bytes.fromhex("0a0100 0a0100 020100 020100 010100")
    attributes = element(0x30, element(0x04, ATTRIBUTE))
    return message(number, element(0x63, element(0x04), scope_and_limits, search_filter, attributes))


def search_result(number, reply):
    """The entry with the reply, and the end of the search, as one datagram."""
    attribute = element(0x30, element(0x04, ATTRIBUTE), element(0x31, element(0x04, reply)))
    entry = message(number, element(0x64, element(0x04), element(0x30, attribute)))
    return entry + message(number, element(0x65, bytes.fromhex("0a0100 0400 0400")))


def datagram(source, source_port, target, target_port, payload):
    """IPv4 and UDP headers; a UDP checksum of 0 is none."""
    udp = struct.pack(">HHHH", source_port, target_port, 8 + len(payload), 0) + payload
    header = [0x45, 0, 20 + len(udp), 0, 0, 64, 17, 0, source, target]
    header[7] = internet_checksum(struct.pack(">BBHHHBBH4s4s", *header))
    return struct.pack(">BBHHHBBH4s4s", *header) + udp


def internet_checksum(octets):
    total = sum(struct.unpack(f">{len(octets) // 2}H", octets))
    while total > 0xFFFF:
        total = (total & 0xFFFF) + (total >> 16)
    return ~total & 0xFFFF


def capture(pings, replies):
    """Two packets for each ping, numbered from 1."""
    client, server = bytes([10, 0, 0, 1]), bytes([10, 0, 0, 2])
    out = [struct.pack("<IHHiIII", 0xA1B2C3D4, 2, 4, 0, 0, 0x40000, LINK_RAW_IPV4)]
    for place, (ping, reply) in enumerate(zip(pings, replies)):
        number = place + 1
        search_filter = bytes.fromhex(ping.ping.split(" ")[2])
        asked = datagram(client, CLIENT_PORT, server, PORT, search_request(number, search_filter))
        answered = datagram(server, PORT, client, CLIENT_PORT, search_result(number, reply))
        for packet in (asked, answered):
            out.append(struct.pack("<IIII", number, 0, len(packet), len(packet)) + packet)
    return b"".join(out)
