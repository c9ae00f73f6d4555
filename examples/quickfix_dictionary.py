#!/usr/bin/env python3
"""Turns a QuickFIX data dictionary (XML, FIX 4.2 or 4.4) into Vahpelo's JSON form.

    python3 examples/quickfix_dictionary.py FIX44.xml > FIX44.json

Components are put in where they are named, and a member of one that isn't required isn't required either. What the
JSON form can't say is left out, and named on standard error: a tag that a message has twice (the first place stays),
a group that begins with a group or has no members, and a group inside eight others. A type that is no kind of
FIX 4.2 or 4.4 becomes STRING. The status is 0, or 1 where the file is no such dictionary.
"""

import json
import sys
import xml.etree.ElementTree as ElementTree

KINDS = {
    "INT", "LENGTH", "NUMINGROUP", "SEQNUM", "PRICE", "QTY", "AMT", "PRICEOFFSET", "PERCENTAGE", "FLOAT", "CHAR",
    "BOOLEAN", "UTCTIMESTAMP", "UTCTIMEONLY", "UTCDATEONLY", "LOCALMKTDATE", "MONTHYEAR", "DAYOFMONTH", "STRING",
    "CURRENCY", "EXCHANGE", "COUNTRY", "DATA", "MULTIPLEVALUESTRING",
}

# Names of kinds in QuickFIX's files that have another name here.
OTHER_NAMES = {
    "UTCDATE": "UTCDATEONLY",
    "DATE": "LOCALMKTDATE",
    "TIME": "UTCTIMESTAMP",
    "QUANTITY": "QTY",
    "MULTIPLECHARVALUE": "MULTIPLEVALUESTRING",
    "MULTIPLESTRINGVALUE": "MULTIPLEVALUESTRING",
    "XMLDATA": "DATA",
}

# A group may be inside so many others.
DEEPEST = 8


class BadDictionary(Exception):
    """The file is no dictionary that can be turned."""


def note(text):
    print(f"quickfix_dictionary: {text}", file=sys.stderr)


def kind_of(name, field):
    kind = OTHER_NAMES.get(field.get("type", "").upper(), field.get("type", "").upper())
    if kind not in KINDS:
        note(f"{name}: the type {kind or 'that is missing'} becomes STRING")
        return "STRING"
    return kind


def fields_of(root):
    """The fields as JSON, and the tag of each name."""
    fields, tags = [], {}
    for field in root.findall("fields/field"):
        name, tag = field.get("name"), int(field.get("number"))
        if name in tags or tag in tags.values():
            note(f"{name} ({tag}): a field is there twice, and the second is left out")
            continue
        tags[name] = tag
        made = {"tag": tag, "name": name, "type": kind_of(name, field)}
        values = [v.get("enum") for v in field.findall("value") if v.get("enum")]
        if values:
            made["values"] = values
        fields.append(made)
    return fields, tags


class Members:
    """Reads the members of one message, or those of header and trailer, each tag once."""

    def __init__(self, place, tags, components):
        self.place = place
        self.tags = tags
        self.components = components
        self.seen = set()

    def tag(self, name):
        if name not in self.tags:
            raise BadDictionary(f"{self.place}: {name} is none of the fields")
        return self.tags[name]

    def is_new(self, tag, name):
        if tag in self.seen:
            note(f"{self.place}: {name} ({tag}) is there twice, and the second is left out")
            return False
        self.seen.add(tag)
        return True

    def read(self, parent, required=True, depth=0, within=()):
        out = []
        for child in parent:
            name = child.get("name")
            needed = required and child.get("required", "N") == "Y"
            if child.tag == "field":
                tag = self.tag(name)
                if self.is_new(tag, name):
                    out.append({"tag": tag, "required": needed})
            elif child.tag == "component":
                if name not in self.components:
                    raise BadDictionary(f"{self.place}: {name} is none of the components")
                if name in within:
                    raise BadDictionary(f"{self.place}: the component {name} names itself")
                out += self.read(self.components[name], needed, depth, within + (name,))
            elif child.tag == "group":
                out += self.group(child, name, needed, depth, within)
        return out

    def group(self, child, name, needed, depth, within):
        tag = self.tag(name)
        if not self.is_new(tag, name):
            return []
        if depth >= DEEPEST:
            note(f"{self.place}: the group {name} is inside {DEEPEST} others, and is left out")
            return []
        # What a group requires, each of its instances has, whether the group is required or not.
        members = self.read(child, True, depth + 1, within)
        if not members or "group" in members[0]:
            note(f"{self.place}: the group {name} doesn't begin with a field, and is left out")
            return []
        return [{"group": tag, "required": needed, "members": members}]


def dictionary_of(root):
    version = (root.get("type", "FIX"), root.get("major"), root.get("minor"))
    if root.tag != "fix" or version not in {("FIX", "4", "2"), ("FIX", "4", "4")}:
        raise BadDictionary("the file is no dictionary of FIX 4.2 or 4.4")
    fields, tags = fields_of(root)
    components = {c.get("name"): c for c in root.findall("components/component")}
    ends = Members("header and trailer", tags, components)
    header = ends.read(root.find("header"))
    trailer = ends.read(root.find("trailer"))
    messages = []
    for message in root.findall("messages/message"):
        name, kind = message.get("name"), message.get("msgtype")
        if any(made["type"] == kind for made in messages):
            note(f"{name}: a message of type {kind} is there twice, and the second is left out")
            continue
        members = Members(name, tags, components).read(message)
        messages.append({"type": kind, "name": name, "members": members})
    return {
        "begin": f"FIX.4.{version[2]}",
        "fields": fields,
        "header": header,
        "trailer": trailer,
        "messages": messages,
    }


def main(arguments):
    if len(arguments) != 2 or arguments[1] in {"-h", "--help"}:
        print(__doc__.strip())
        return 0 if len(arguments) == 2 else 1
    try:
        made = dictionary_of(ElementTree.parse(arguments[1]).getroot())
    except (OSError, ElementTree.ParseError, BadDictionary, TypeError, ValueError) as fault:
        note(f"{arguments[1]}: {fault}")
        return 1
    json.dump(made, sys.stdout, indent=1)
    print()
    return 0


if __name__ == "__main__":
    sys.exit(main(sys.argv))
