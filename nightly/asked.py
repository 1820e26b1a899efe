"""Asks a plug-in about every Unicode character in a stage: for the programs `blanks` and `names`."""
import os
import struct
import subprocess
import sys

HERE = os.path.dirname(os.path.abspath(__file__))
CHARACTERS = [code for code in range(0x110000) if not 0xD800 <= code < 0xE000]


def item(frame, code):
    stage = frame.replace("@", chr(code)).encode()
    return b"s" + struct.pack("<I", len(stage)) + stage


def accepted(frame, codes, name, command=None):
    """Those of the characters with which in place of each `@` the plug-in accepts the frame."""
    items = b"".join(item(frame, code) for code in codes)
    command = command or os.path.join(HERE, "plugins", name)
    answers = subprocess.run(command, shell=True, check=True, input=items, stdout=subprocess.PIPE).stdout
    heads = [line.startswith(b"ok") for line in answers.split(b"\n") if line.startswith((b"ok ", b"no ", b"skip "))]
    if len(heads) != len(codes):
        sys.exit("%s: %d answers to %d items" % (name, len(heads), len(codes)))
    return {code for code, is_good in zip(codes, heads) if is_good}


def words(codes):
    """The characters by ranges, and how many there are where they are more than a few."""
    spans = []
    for code in sorted(codes):
        if spans and spans[-1][1] + 1 == code:
            spans[-1][1] = code
        else:
            spans.append([code, code])
    text = " ".join("U+%04X" % first if first == last else "U+%04X-%04X" % (first, last) for first, last in spans)
    return text + (" (%d)" % len(codes) if len(codes) > 9 else "") or "none"


def told(name, what, right, taken):
    """Prints what is refused of those that are right, and what is taken beyond them; whether there is any."""
    print("%s, %s: refuses of the %d: %s;" % (name, what, len(right), words(right - taken)), end=" ")
    print("takes beyond them: %s" % words(taken - right), flush=True)
    return taken != right
