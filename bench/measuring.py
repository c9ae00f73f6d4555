"""What the benchmarks share: frames, files of them, the least of several times, and the bars that are wanted."""


def sealed(body, begin=b"FIX.4.2"):
    """The frame of these fields, as bytes."""
    text = b"8=%s\x019=%d\x01" % (begin, len(body)) + body
    return text + b"10=%03d\x01" % (sum(text) % 256)


def frame(fields, begin="FIX.4.2"):
    """The same of fields as a text, in which `|` is an SOH."""
    return sealed(fields.replace("|", "\x01").encode(), begin.encode())


def written(path, pieces):
    with open(path, "wb") as out:
        out.writelines(pieces)
    return path


def least(one, other):
    return other if one is None else min(one, other)


def bar(what, ratio, bound, at_least=False):
    met = ratio >= bound if at_least else ratio <= bound
    print("  %s: %.2f, wanted %s %s: %s" % (what, ratio, "at least" if at_least else "at most", bound, "met" if met else "MISSED"))
