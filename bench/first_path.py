#!/usr/bin/env python3
"""Writes a script: bundles in a chain whose consumers come before their providers, starts, stops with their cascades,
and questions.

usage: first_path.py [BUNDLES [LINES]]      (100 bundles and 400 lines where nothing is said)

Bundle k needs the service of bundle k + 1. So the stop of the last one takes all instances away, one callback after
the other, and its start brings them all back.
"""
import json
import sys


def document(number, bundles):
    """Bundle `number` references the interface of the next one, so that levels run through all of them. The first one
    has no service: so it is immediate, and all others are wanted for its sake."""
    description = {"name": f"c{number}", "implementationClass": "Bench"}
    if number > 1:
        description["serviceInterfaces"] = [f"I{number}"]
    if number < bundles:
        description["references"] = [{"name": "next", "interfaceName": f"I{number + 1}"}]
    return json.dumps({"location": f"b{number}", "components": {"entry": description}})


def lines(bundles, count):
    for number in range(1, bundles + 1):
        yield f"install {document(number, bundles)}"
    for number in range(1, bundles + 1):
        yield f"start {number}"
    for place in range(count - 2 * bundles):
        kind = place % 5
        target = bundles - place // 5 % bundles
        if kind == 0:
            yield "components"
        elif kind == 1:
            yield f"install {document(target, bundles)}"
        elif kind == 2:
            yield f"stop {target}"
        elif kind == 3:
            yield f"start {target}"
        else:
            yield f"held {place}"


def main():
    if not all(word.isdecimal() for word in sys.argv[1:]) or len(sys.argv) > 3:
        sys.exit("usage: first_path.py [BUNDLES [LINES]]")
    bundles = int(sys.argv[1]) if len(sys.argv) > 1 else 100
    count = int(sys.argv[2]) if len(sys.argv) > 2 else 400
    for line in lines(bundles, count):
        print(line)


if __name__ == "__main__":
    main()
