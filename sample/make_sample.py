#!/usr/bin/env python3
"""Makes the sample log: two carousel instances with files, repair symbols, loss and disorder.

It has its own encoder, after RFC 5510, section 8, and shares no code with the program. Run as `make_sample.py
FILE`; it prints what of the log was lost.
"""
import random
import struct
import sys


# ---- GF(256), made with x^8 + x^4 + x^3 + x^2 + 1

def double(a):
    a <<= 1
    return a ^ 0x11D if a & 0x100 else a


def mul(a, b):
    out = 0
    while b:
        if b & 1:
            out ^= a
        a, b = double(a), b >> 1
    return out


POWER = [1]
for _ in range(254):
    POWER.append(double(POWER[-1]))


def inverse(a):
    return next(b for b in range(1, 256) if mul(a, b) == 1)


def symbol(rows, j):
    """Encoding symbol j of the block with these source rows: at each byte place the value at alpha^j of the one
    polynomial of degree below k with the source bytes at alpha^0, alpha^1, .. (Lagrange)."""
    k = len(rows)
    if j < k:
        return rows[j]
    out = bytearray(len(rows[0]))
    for i in range(k):
        top, bottom = 1, 1
        for m in range(k):
            if m != i:
                top = mul(top, POWER[j] ^ POWER[m])
                bottom = mul(bottom, POWER[i] ^ POWER[m])
        weight = mul(top, inverse(bottom))
        for at, byte in enumerate(rows[i]):
            out[at] ^= mul(weight, byte)
    return bytes(out)


# ---- objects

def checksum(data):
    data = data + b"\0" * (len(data) % 2)
    total = sum(struct.unpack(f">{len(data) // 2}H", data))
    while total >> 16:
        total = (total & 0xFFFF) + (total >> 16)
    return total ^ 0xFFFF


def compound(descriptor, metadata, body):
    length = 8 + len(metadata)
    head = bytes([3 if descriptor else 2, 0, 0, 0]) + struct.pack(">I", length)
    whole = head + metadata + b"\0" * (-length % 4) + body
    return whole[:2] + struct.pack(">H", checksum(whole)) + whole[4:]


def file_object(location, kind, body):
    fields = f"Content-Location: {location}\r\n"
    if kind is not None:
        fields += f"Content-Type: {kind}\r\n"
    fields += f"Content-Length: {len(body)}\r\n"
    return compound(False, fields.encode(), body)


def descriptor_object(number, listed):
    return compound(True, f"Fcast-CID-ID: {number}\r\n".encode(), ",".join(map(str, listed)).encode())


# ---- packets

def blocks_of(length, size, most):
    """The number of source symbols of each block (RFC 5052, section 9.1)."""
    sources = -(-length // size)
    count = -(-sources // most)
    large, small = -(-sources // count), sources // count
    first = sources - small * count
    return [large] * first + [small] * (count - first)


def packets(toi, data, size, most, max_n, tsi=1):
    """All packets of the object: the first symbols of each block, then the second ones, and so on."""
    counts = blocks_of(len(data), size, most)
    filled = data + b"\0" * (sum(counts) * size - len(data))
    out, start = [], 0
    for block, k in enumerate(counts):
        rows = [filled[(start + i) * size:(start + i + 1) * size] for i in range(k)]
        start += k
        for j in range(k * max_n // most):
            header = bytes([0x10, 0xA0, 7, 5]) + struct.pack(">III", 0, tsi, toi)
            fti = bytes([0x40, 3]) + struct.pack(">HIHBB", 0, len(data), size, most, max_n)
            place = struct.pack(">I", block << 8 | j)
            out.append((j, block, header + fti + place + symbol(rows, j)))
    return [datagram for _, _, datagram in sorted(out)]


def log(datagrams):
    return b"FCASTLG1" + b"".join(struct.pack(">H", len(d)) + d for d in datagrams)


def sample():
    """The log, and what of it was sent and lost."""
    page = b"<h1>Station</h1>\n" + b"".join(b"<p>hour %d</p>\n" % hour for hour in range(24))
    table = b"hour;wind\n" + b"".join(b"%d;%d\n" % (hour, (7 * hour) % 11) for hour in range(96))
    objects = {
        1: file_object("station/index.html", "text/html", page),
        2: descriptor_object(1, [1]),
        3: file_object("station/wind.csv", None, table),
        4: descriptor_object(2, [1, 3]),
    }
    sent = [d for toi, data in objects.items() for d in packets(toi, data, 64, 8, 16)]
    # Each third datagram is lost; the rest comes in another order, some of it twice.
    arrived = [d for at, d in enumerate(sent) if at % 3 != 2]
    lost = len(sent) - len(arrived)
    random.Random(5510).shuffle(arrived)
    arrived += arrived[:4]
    return log(arrived), len(sent), lost, page, table


if __name__ == "__main__":
    whole, sent, lost, page, table = sample()
    with open(sys.argv[1], "wb") as out:
        out.write(whole)
    print(f"{sent} datagrams sent, {lost} lost; index.html {len(page)} bytes, wind.csv {len(table)} bytes")
