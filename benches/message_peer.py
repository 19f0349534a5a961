"""Lists the request messages of a file, as `ccpp message FILE` does: what a user would write over `struct`. No part of the program."""
import struct
import sys

NAMES = {1: "call", 2: "get", 3: "put", 4: "make", 5: "reply", 6: "cast"}


class Bad(Exception):
    pass


def value(data, at, void_allowed):
    tag = data[at]
    if tag == 1:
        return str(struct.unpack_from(">q", data, at + 1)[0]), at + 9
    if tag == 2:
        return "null", at + 1
    if tag == 3:
        return "%d:%d:%d" % struct.unpack_from(">III", data, at + 1), at + 13
    if tag == 0 and void_allowed:
        return "void", at + 1
    raise Bad("BadTag", at)


def values(data, at):
    count = data[at]
    if count > 8:
        raise Bad("BadCount", at)
    at += 1
    texts = []
    for _ in range(count):
        text, at = value(data, at, False)
        texts.append(text)
    return "(" + ", ".join(texts) + ")", at


def message(data, at):
    if data[at] != 0x52:
        raise Bad("BadMagic", at)
    if data[at + 1] != 1:
        raise Bad("BadVersion", at + 1)
    kind = data[at + 2]
    if kind not in NAMES:
        raise Bad("BadKind", at + 2)
    head = "%s to %d from %d ticket %d" % ((NAMES[kind],) + struct.unpack_from(">III", data, at + 3))
    at += 15
    if kind in (1, 6):
        target = struct.unpack_from(">IH", data, at)
        text, at = values(data, at + 6)
        return "%s object %d handler %d %s" % ((head,) + target + (text,)), at
    if kind == 2:
        return "%s object %d offset %d" % ((head,) + struct.unpack_from(">II", data, at)), at + 8
    if kind == 3:
        target = struct.unpack_from(">II", data, at)
        text, at = value(data, at + 8, False)
        return "%s object %d offset %d %s" % ((head,) + target + (text,)), at
    if kind == 4:
        number = struct.unpack_from(">H", data, at)[0]
        text, at = values(data, at + 2)
        return "%s class %d %s" % (head, number, text), at
    text, at = value(data, at, True)
    return "%s %s" % (head, text), at


def main():
    data = open(sys.argv[1], "rb").read()
    lines, at = [], 0
    try:
        while at < len(data):
            line, at = message(data, at)
            lines.append(line)
    except Bad as bad:
        print("no %s at %d" % bad.args)
        sys.exit(9)
    except (IndexError, struct.error):
        print("no Short at %d" % len(data))
        sys.exit(9)
    lines.append("== messages %d\n" % len(lines))
    sys.stdout.write("\n".join(lines))


main()
