#!/usr/bin/env python3
"""Makes a file of OSPF router-LSAs, on standard output, of a list of links on standard input, as `stream` makes a stream of it. A router lists a link of type 1
for each of its links, in the order of the list, and last itself as a stub network. A limit is refused: LSAs have none. Needs Python 3.8."""

import sys


def link(id, metric, kind=1, tos=0):
    """RFC 2328, A.4.2: a stub network, type 3, has the mask of a host; TOS entries have the link's metric."""
    data, cost = b"\377\377\377\377" if kind == 3 else b"\0\0\0\0", metric.to_bytes(2, "big")
    return id.to_bytes(4, "big") + data + bytes([kind, tos]) + cost + (b"\0\0" + cost) * tos


def sealed(lsa):
    """RFC 2328, 12.1.7: with a checksum that makes both sums 0 modulo 255. An octet of 255 counts as 0, so that the checksum is never zero."""
    lsa = bytearray(lsa)
    lsa[16:18] = b"\0\0"
    c0 = sum(lsa[2:])
    c1 = sum(octet * (len(lsa) - place) for place, octet in enumerate(lsa) if place >= 2)
    lsa[16] = (c0 * (len(lsa) - 17) - c1) % 255 or 255
    lsa[17] = -(c0 + lsa[16]) % 255 or 255
    return bytes(lsa)


def lsa(router, links):
    """RFC 2328, A.4.1 and A.4.2: an LSA of age 1 and the first sequence number."""
    id, body = router.to_bytes(4, "big"), b"\0\0" + len(links).to_bytes(2, "big") + b"".join(links)
    return sealed(b"\0\1\2\1" + id + id + b"\200\0\0\1\0\0" + (20 + len(body)).to_bytes(2, "big") + body)


def fits(words, most):
    return all(word.isdecimal() and int(word) <= most for word in words)


def main():
    listed = {}
    for number, line in enumerate(sys.stdin, 1):
        words = line.split("#")[0].split()
        if len(words) == 2 and words[0] == "router" and fits(words[1:], 2**32 - 1):
            listed.setdefault(int(words[1]), [])
        elif len(words) in (3, 4) and fits(words[:2], 2**32 - 1) and fits(words[2:], 65535):
            first, second = int(words[0]), int(words[1])
            listed.setdefault(first, []).append(link(second, int(words[2])))
            listed.setdefault(second, []).append(link(first, int(words[-1])))
        elif words:
            sys.exit("line %d is no link or router: %s" % (number, line.rstrip()))
    sys.stdout.buffer.write(b"".join(lsa(router, links + [link(router, 0, 3)]) for router, links in listed.items()))


if __name__ == "__main__":
    main()
