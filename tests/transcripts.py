"""Transcripts for the tests of the programs, made by the second implementation as a shared object."""
import ctypes
import random
import struct

MOST = 65536    # how much of a file a program reads


def lists(*data):
    return [x for d in data for x in (d, ctypes.c_size_t(len(d)))]


def message(library, number, *inputs):
    call, out = getattr(library, f"ref_message_{number}"), ctypes.create_string_buffer(MOST)
    call.restype = ctypes.c_int64
    length = call(*lists(*inputs), out, ctypes.c_size_t(MOST), ctypes.c_uint64(0))
    if length < 0:
        raise ValueError(f"message {number} is refused with {-length}")
    return out.raw[:length]


def file_of(parts):
    head = [x for p in range(7) for x in (56 + sum(map(len, parts[:p])), len(parts[p]))]
    return struct.pack("<14I", *head) + b"".join(parts)


def largest(library):
    """The largest key and its longest transcript: one execution opened, party N hidden nowhere."""
    rng, (q, n, m, N, M) = random.Random("largest"), (2147483647, 32, 128, 32, 32)
    A, secret = [[rng.randrange(q) for _ in range(m)] for _ in range(n)], rng.choices((0, 1), k=m)
    t = [sum(x for x, s in zip(row, secret) if s) % q for row in A]
    key = struct.pack(f"<{6 + n * (m + 1)}I", q, n, m, N, M, 1, *(x for row in A for x in row), *t)
    seeds, K, L, E = rng.randbytes(16 * M), rng.randbytes(16), rng.randbytes(16), bytes([M // 2])
    hidden, given = bytes(rng.randrange(1, N) for _ in range(M - 1)), (key, seeds, bytes(secret), E, K)
    run = file_of([message(library, 1, key, seeds), E, message(library, 3, *given), L, message(library, 5, *given, L), hidden,
                   message(library, 7, *given, L, hidden)])
    if len(run) != 52436:
        raise ValueError(f"the longest transcript has {len(run)} bytes")
    return key, run


def filled(run, end):
    """The transcript with part 7 filled up to this place, and a head that says so: 13 if all of that is read, and no more."""
    offset = struct.unpack_from("<I", run, 48)[0]
    return run[:52] + struct.pack("<I", end - offset) + run[56:] + bytes(end - len(run))
