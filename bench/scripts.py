#!/usr/bin/env python3
"""Makes the scripts that `check` is timed on, into the folder that is named.

chain-D-K    D nested repeats, each of which moves K names by one place in a turn, so that a reading in
             the innermost takes many turns to come to the outermost: the worst that is known for the check
ifs-D-K      the same chain of K names in one repeat, inside D nested ifs, each of which is looked through
             again for the names that it assigns
tokens       2,048 tokens, which is as many as a script may have
bytes        8,192 bytes, which is as many as a script may have
smallest     main { }
"""
import os
import sys


def chain(depth, width):
    """Each level hands its last name to the level around it; the innermost reads a channel."""
    names = ["n%d" % i for i in range(depth * width)]
    decls = []
    for i, name in enumerate(names):
        # the last 64 are locals, since a reading goes to a local
        decls.append("cell %s=0;" % name if i < len(names) - 64 else "var %s;" % name)
    target = names[-1]
    body = "%s=in 1;" % target
    order = list(reversed(names))  # order[0] is read, order[-1] is reached last
    for level in range(depth):
        part = order[level * width:(level + 1) * width]
        before = order[level * width - 1] if level else None
        moves = ["%s=%s;" % (part[i], part[i - 1]) for i in range(width - 1, 0, -1)]
        if before:
            moves.append("%s=%s;" % (part[0], before))
        body = "repeat 1{%s%s}" % ("".join(moves), body)
    return "%smain{%stogether %s;}" % ("".join(decls), body, names[0])


def ifs(depth, width):
    names = ["n%d" % i for i in range(width)]
    decls = "".join("cell %s=0;" % n if i < width - 64 else "var %s;" % n for i, n in enumerate(names))
    moves = "".join("%s=%s;" % (names[i], names[i + 1]) for i in range(width - 1))
    body = moves + "%s=in 1;" % names[-1]
    for _ in range(depth):
        body = "if %s{%s}" % (names[0], body)
    return "%smain{repeat 1{%s}together %s;}" % (decls, body, names[0])


def tokens(count):
    """One block of assignments with exactly so many tokens."""
    head = "cell c=0;main{"  # 5 + 2 tokens
    left = count - 7 - 1
    statements, rest = divmod(left, 4)
    text = head + "c=1;" * (statements - 1)
    extra = 4 + rest
    if extra % 2 == 0:
        text += "c=1" + "+1" * ((extra - 4) // 2) + ";"
    else:
        text += "c=-1" + "+1" * ((extra - 5) // 2) + ";"
    return text + "}"


def padded(size):
    text = "cell c=0;main{" + "c = c + 1; " * 300 + "}"
    return text + " " * (size - len(text))


def main(folder):
    os.makedirs(folder, exist_ok=True)
    made = {"smallest": "main { }", "tokens": tokens(2048), "bytes": padded(8192)}
    for depth in (1, 2, 4, 8, 15):
        made["chain-%d-8" % depth] = chain(depth, 8)
    made["chain-8-16"] = chain(8, 16)
    made["chain-1-128"] = chain(1, 128)
    made["ifs-14-128"] = ifs(14, 128)
    for name, text in made.items():
        with open(os.path.join(folder, name + ".drive"), "w") as out:
            out.write(text)


if __name__ == "__main__":
    main(sys.argv[1])
