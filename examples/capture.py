#!/usr/bin/env python3
"""Takes the router-LSAs of one area out of a packet capture: `capture.py AREA <file.pcap >file.lsas`, AREA as 0.0.0.0. Of each router it takes the newest LSA
that an LS Update has, none if that one has MaxAge, and writes them by Router ID. To standard error go how many they are, and each router that they list as a
neighbour and that has none. It reads what `tcpdump -w` writes; packets in fragments are passed over. Needs Python 3.8."""

import ipaddress
import sys

ORDER = {b"\xd4\xc3\xb2\xa1": "little", b"\x4d\x3c\xb2\xa1": "little", b"\xa1\xb2\xc3\xd4": "big", b"\xa1\xb2\x3c\x4d": "big"}
LINK_HEADER = {1: 14, 101: 0, 113: 16, 276: 20}  # Ethernet, IP alone, and `-i any` in its two forms


def packets(capture):
    """The IP packets of a capture."""
    order = ORDER.get(capture[:4], "big")
    kind, at = int.from_bytes(capture[20:24], order) & 0xFFFF, 24
    if capture[:4] not in ORDER or kind not in LINK_HEADER:
        sys.exit("this is no capture as `tcpdump -w` writes it, of Ethernet or of IP")
    while at < len(capture):
        end = at + 16 + int.from_bytes(capture[at + 8 : at + 12], order)
        yield capture[at + 16 + LINK_HEADER[kind] : end]
        at = end


def updates(capture, area):
    """What follows the header of each LS Update (RFC 2328, A.3.1 and A.3.5), 24 bytes, and the number of its LSAs, 4 bytes."""
    for ip in packets(capture):
        if len(ip) < 20 or ip[0] >> 4 != 4 or ip[9] != 89 or int.from_bytes(ip[6:8], "big") & 0x3FFF:
            continue  # not OSPF over IP version 4, or a fragment
        ospf = ip[4 * (ip[0] & 15) :]
        if ospf[:2] == b"\2\4" and ospf[8:12] == area:
            yield ospf[28 : int.from_bytes(ospf[2:4], "big")]


def router_lsas(capture, area):
    """The router-LSAs of the updates, up to where one is cut short."""
    for rest in updates(capture, area):
        while 20 <= (size := int.from_bytes(rest[18:20], "big")) <= len(rest):
            if rest[3] == 1:
                yield rest[:size]
            rest = rest[size:]


def turn(lsa):
    """The LS sequence number."""
    return int.from_bytes(lsa[12:16], "big", signed=True)


def is_flushed(lsa):
    """Whether its age, without the DoNotAge bit, is MaxAge."""
    return int.from_bytes(lsa[:2], "big") & 0x7FFF >= 3600


def replaces(new, old):
    """Whether an LSA is at least as new as one before it (RFC 2328, 13.1), by LS sequence number, checksum and MaxAge, or follows a flush of another number."""
    if is_flushed(old) and turn(new) != turn(old):
        return True
    return (turn(new), new[16:18], is_flushed(new)) >= (turn(old), old[16:18], is_flushed(old))


def newest(capture, area):
    """The newest LSA of each router that is not flushed, by Router ID."""
    found = {}
    for lsa in router_lsas(capture, area):
        router = lsa[8:12]
        if router not in found or replaces(lsa, found[router]):
            found[router] = lsa
    return [lsa for _, lsa in sorted(found.items()) if not is_flushed(lsa)]


def neighbours(lsa):
    """The Link IDs of its links of type 1 (RFC 2328, A.4.2), up to where one is cut short."""
    links = lsa[24:]
    while len(links) >= 12:
        if links[8] == 1:
            yield links[:4]
        links = links[12 + 4 * links[9] :]


def missing(lsas):
    """The routers that these list as neighbours and that have no LSA among them, by Router ID."""
    return sorted({router for lsa in lsas for router in neighbours(lsa)} - {lsa[8:12] for lsa in lsas})


if __name__ == "__main__":
    try:
        (area,) = map(ipaddress.IPv4Address, sys.argv[1:])
    except ValueError:
        sys.exit("usage: capture.py AREA <file.pcap >file.lsas, AREA four octets as 0.0.0.0")
    lsas = newest(sys.stdin.buffer.read(), area.packed)
    sys.stdout.buffer.write(b"".join(lsas))
    print("routers: %d" % len(lsas), file=sys.stderr)
    for router in missing(lsas):
        print("no LSA of %s, which these list" % ipaddress.IPv4Address(router), file=sys.stderr)
