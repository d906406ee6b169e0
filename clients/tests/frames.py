"""Frames for the tests, as bytes: requests as a client sends them, and replies as a server sends them."""
import struct

END = b"\0\0\0\1\x08"
ENDED = b"\0\0\0\1\x09"


def frame(text):
    return struct.pack(">I", len(text)) + text


DONE = frame(b"\3")


def denied(number):
    return frame(bytes([8, number]))


def define(file):
    return frame(b"\1" + file)


def put(key, value):
    return frame(struct.pack(">Bqq", 2, key, value))


def get(key):
    return frame(struct.pack(">Bq", 3, key))


def invoke(number, key):
    return frame(struct.pack(">BIqB", 6, number, key, 0))


def invoke_all(number, keys):
    return frame(struct.pack(f">BIH{len(keys)}qB", 7, number, len(keys), *keys, 0))


def value(it):
    return frame(b"\4\0" if it is None else struct.pack(">BBq", 4, 1, it))


def result(it):
    return frame(struct.pack(">BBBq", 6, 0, 1, it))


def results(pairs):
    """The reply to an invokeAll whose keys returned these values."""
    return frame(struct.pack(">BH", 7, len(pairs)) + b"".join(struct.pack(">qBBq", key, 0, 1, it) for key, it in pairs))
