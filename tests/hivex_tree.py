#!/usr/bin/env python3
"""Prints the tree of a hive's file as the Python module of hivex reads it, for tests/hive_bindings.py:

    tests/hivex_tree.py FILE

A line of JSON for each key: the names of its path, when it was last written, and its values: name, type and data in hexadecimal digits.
"""
import json
import sys

import hivex


def rows(hive, node, path):
    """The key and those below it."""
    values = [[hive.value_key(value), hive.value_value(value)[0], hive.value_value(value)[1].hex()] for value in hive.node_values(node)]
    yield path, hive.node_timestamp(node), values
    for child in hive.node_children(node):
        yield from rows(hive, child, [*path, hive.node_name(child)])


def main():
    sys.setrecursionlimit(5_000)
    hive = hivex.Hivex(sys.argv[1])
    for row in rows(hive, hive.root(), []):
        print(json.dumps(row))


main()
