#!/usr/bin/env python3
"""A made dictionary of the size that a FIX version's has: 900 fields and 90 types of messages.

    bench/dictionary.py json FILE      in the form that Dictionary::read reads
    bench/dictionary.py xml FILE       the same as a data dictionary of QuickFIX

The tags are 1 to 900. The header, the trailer and the first fields of type D are those of the
samples; every message has 60 further plain fields and five groups of six members, one of them
required, with a group of three inside the first. Which tags these are goes round through all."""
import json
import sys

HEADER = [(8, True), (9, True), (35, True), (34, True), (49, True), (52, True), (56, True)] + [
    (tag, False) for tag in (43, 50, 57, 97, 115, 116, 122, 128, 129)]
TRAILER = [(93, False), (89, False), (10, True)]
ORDER = [(11, True), (1, False), (21, True), (55, True), (54, True), (38, False), (60, True), (40, True), (44, False), (58, False), (59, False)]
TYPES = ["D"] + [text for text in ["8"] + [chr(a) + chr(b) for a in range(65, 75) for b in range(65, 76)]][:89]
GROUPS = 60
KINDS = {9: "LENGTH", 34: "SEQNUM", 38: "QTY", 43: "BOOLEAN", 44: "PRICE", 52: "UTCTIMESTAMP", 60: "UTCTIMESTAMP",
         89: "DATA", 93: "LENGTH", 97: "BOOLEAN", 122: "UTCTIMESTAMP", 21: "CHAR", 40: "CHAR", 54: "CHAR", 59: "CHAR"}
VALUES = {21: "123", 54: "123456789"}
LENGTHS = {90: 91, 95: 96, 212: 213, 348: 349, 350: 351, 352: 353, 354: 355, 356: 357, 358: 359, 360: 361, 362: 363, 364: 365, 445: 446, 618: 619, 621: 622}
COUNTS = range(700, 700 + GROUPS)
FREE = [tag for tag in range(1, 901) if tag not in dict(HEADER + TRAILER + ORDER) and tag not in COUNTS
        and tag not in LENGTHS and tag not in LENGTHS.values()]


def kind(tag):
    if tag in COUNTS:
        return "NUMINGROUP"
    if tag in LENGTHS:
        return "LENGTH"
    if tag in LENGTHS.values():
        return "DATA"
    return KINDS.get(tag) or ("STRING", "INT", "PRICE", "STRING", "CHAR")[tag % 5 if tag in FREE else 0]


def members(number):
    """Members of the message with this number: a pair is a field, a triple a group."""
    take = lambda place: FREE[(number * 37 + place) % len(FREE)]
    plain = ORDER if number == 0 else []
    plain = plain + [(take(place), False) for place in range(60)]
    groups = []
    for group in range(5):
        base = 60 + group * 10
        inner = [(take(base + place), place == 0) for place in range(6)]
        if group == 0:
            inner.append((COUNTS[(number * 7 + 50) % GROUPS], False, [(take(base + place), place == 6) for place in range(6, 9)]))
        groups.append((COUNTS[(number * 7 + group) % GROUPS], False, inner))
    return plain + groups


def json_member(member):
    if len(member) == 2:
        return {"tag": member[0], "required": member[1]}
    return {"group": member[0], "required": member[1], "members": [json_member(inner) for inner in member[2]]}


def as_json():
    fields = []
    for tag in range(1, 901):
        field = {"tag": tag, "name": "F%d" % tag, "type": kind(tag)}
        if tag in VALUES:
            field["values"] = list(VALUES[tag])
        fields.append(field)
    messages = [{"type": text, "name": "M" + text, "members": [json_member(m) for m in members(n)]} for n, text in enumerate(TYPES)]
    return json.dumps({"begin": "FIX.4.2", "fields": fields, "header": [json_member(m) for m in HEADER],
                       "trailer": [json_member(m) for m in TRAILER], "messages": messages}, indent=1)


def xml_member(member):
    need = "YN"[not member[1]]
    if len(member) == 2:
        return "<field name='F%d' required='%s'/>" % (member[0], need)
    return "<group name='F%d' required='%s'>%s</group>" % (member[0], need, "".join(xml_member(inner) for inner in member[2]))


def as_xml():
    lines = ["<fix type='FIX' major='4' minor='2'>", "<header>"] + [xml_member(m) for m in HEADER] + ["</header>", "<trailer>"]
    lines += [xml_member(m) for m in TRAILER] + ["</trailer>", "<messages>"]
    for number, text in enumerate(TYPES):
        lines.append("<message name='M%s' msgtype='%s' msgcat='app'>%s</message>" % (text, text, "".join(xml_member(m) for m in members(number))))
    lines += ["</messages>", "<fields>"]
    for tag in range(1, 901):
        values = "".join("<value enum='%s' description='V%s'/>" % (v, v) for v in VALUES.get(tag, ""))
        lines.append("<field number='%d' name='F%d' type='%s'>%s</field>" % (tag, tag, kind(tag), values))
    return "\n".join(lines + ["</fields>", "</fix>", ""])


def main():
    form, path = sys.argv[1:]
    with open(path, "w") as out:
        out.write(as_json() if form == "json" else as_xml())


if __name__ == "__main__":
    main()
