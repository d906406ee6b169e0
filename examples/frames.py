#!/usr/bin/env python3
"""frames: turns lines into request frames for `jentry serve`, and its reply frames into lines.

    frames.py <LINES >FRAMES            requests
    frames.py --replies <FRAMES >LINES  replies, each as soon as it is there

Requests, one a line: define FILE, put KEY VALUE, get KEY, remove KEY, contains KEY,
invoke CLASS KEY [ARGS..], invokeall CLASS KEY,KEY,.. [ARGS..], end (of a round).
CLASS is the number that the reply to the class's definition told. ARGS are decimal numbers
(Long), numbers followed by i (Integer), true, false or null.
A reply's text=N is the index of an exception's text in the constant pool of its class.
"""
import struct
import sys

# generated from the tables in protocol/ by protocol/generate.py --write
FAULTS = {
    1: "ArithmeticException",
    2: "ArrayIndexOutOfBoundsException",
    3: "NullPointerException",
    4: "ClassCastException",
    5: "IncompatibleClassChangeError",
    6: "CacheLoaderException",
    7: "EntryProcessorException",
    8: "IllegalArgumentException",
    9: "IllegalStateException",
    10: "UnsupportedOperationException",
}
DENIALS = {1: "UnknownClass", 2: "JournalFull", 3: "NoMemory", 4: "TooManyClasses", 5: "TooManyJobs"}
# end of the generated part
WORDS = {"null": b"\0", "false": b"\3", "true": b"\4"}
ON_ONE_KEY = {"get": 3, "remove": 4, "contains": 5}


def long_text(word):
    return struct.pack(">q", int(word))


def arg_text(word):
    if word in WORDS:
        return WORDS[word]
    if word.endswith("i"):
        return b"\2" + struct.pack(">i", int(word[:-1]))
    return b"\1" + long_text(word)


def args_text(words):
    return bytes([len(words)]) + b"".join(map(arg_text, words))


def request_text(kind, *words):
    """The kind and the body of a request."""
    if kind == "define":
        with open(words[0], "rb") as file:
            return b"\1" + file.read()
    if kind == "put":
        return b"\2" + long_text(words[0]) + long_text(words[1])
    if kind in ON_ONE_KEY:
        return bytes([ON_ONE_KEY[kind]]) + long_text(words[0])
    if kind == "invoke":
        return b"\6" + struct.pack(">I", int(words[0])) + long_text(words[1]) + args_text(words[2:])
    if kind == "invokeall":
        keys = words[1].split(",")
        head = struct.pack(">IH", int(words[0]), len(keys))
        return b"\7" + head + b"".join(map(long_text, keys)) + args_text(words[2:])
    if kind == "end":
        return b"\10"
    sys.exit(f"frames: no such request: {kind}")


def arg_of(body):
    """The argument at the front of a body, and what follows it."""
    for word, text in WORDS.items():
        if body[:1] == text:
            return word, body[1:]
    if body[0] == 1:
        return str(struct.unpack_from(">q", body, 1)[0]), body[9:]
    return f"{struct.unpack_from('>i', body, 1)[0]}i", body[5:]


def outcome_of(body):
    """The outcome at the front of a body, and what follows it."""
    if body[0] == 0:
        return arg_of(body[1:])
    if body[0] == 1:
        return f"threw {body[1]} {FAULTS[body[1]]}", body[2:]
    if body[0] == 3:
        number, text = struct.unpack_from(">BH", body, 1)
        return f"threw {number} {FAULTS[number]}" + (f" text={text}" if text else ""), body[4:]
    return f"denied {body[1]} {DENIALS[body[1]]}", body[2:]


def results_of(body):
    (count,), rest, told = struct.unpack_from(">H", body), body[2:], []
    for _ in range(count):
        (key,) = struct.unpack_from(">q", rest)
        outcome, rest = outcome_of(rest[8:])
        told.append(f"{key}: {outcome}")
    return "results " + ", ".join(told) if told else "results"


def reply_line(text):
    kind, body = text[0], text[1:]
    if kind == 1:
        return "defined class=%d steps=%d words=%d" % struct.unpack(">III", body)
    if kind == 2:
        return "refused %d, detail %d" % struct.unpack(">BI", body)
    if kind == 4:
        return "value " + ("none" if body[0] == 0 else arg_of(body)[0])
    if kind == 5:
        return "flag " + ("true" if body[0] else "false")
    if kind == 6:
        told = outcome_of(body)[0]
        return told if body[0] else "result " + told
    if kind == 7:
        return results_of(body)
    if kind == 8:
        return f"denied {body[0]} {DENIALS[body[0]]}"
    return {3: "done", 9: "end"}[kind]


def frame(text):
    return struct.pack(">I", len(text)) + text


def write_requests():
    for line in sys.stdin:
        words = line.split()
        if words and not words[0].startswith("#"):
            sys.stdout.buffer.write(frame(request_text(*words)))
            if words[0] == "end":
                sys.stdout.buffer.flush()


def write_replies():
    while head := sys.stdin.buffer.read(4):
        (length,) = struct.unpack(">I", head)
        print(reply_line(sys.stdin.buffer.read(length)), flush=True)


if __name__ == "__main__":
    if sys.argv[1:] == ["--replies"]:
        write_replies()
    elif not sys.argv[1:]:
        write_requests()
    else:
        sys.exit(__doc__)
