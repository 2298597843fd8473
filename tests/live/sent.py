#!/usr/bin/env python3
"""Checks what tests/live/recorder kept in a folder: each tool was sent only whole requests that read or take a reservation, and
after them at most a first part of one. Prints the number of requests."""
import os
import re
import sys

# Get FRU Inventory Area Info, Read FRU Data, Get SDR Repository Info, Reserve SDR Repository, Get SDR, Get SEL Info, Reserve SEL,
# Get SEL Entry, Get Sensor Reading, Get Device ID (IPMI v2.0, appendix G)
READ = {(0x0A, command) for command in (0x10, 0x11, 0x20, 0x22, 0x23, 0x40, 0x42, 0x43)} | {(0x04, 0x2D), (0x06, 0x01)}
# ipmitool is sent Get Device ID first, also if no more of it is sent. A request to ipmi-raw begins with its logical unit.
FIRST = {"ipmitool": b"raw 0x06 0x01\necho .\n", "freeipmi": b""}
REQUEST = {"ipmitool": rb"raw((?: 0x[0-9a-f]{2})+)\necho \.\n", "freeipmi": rb"0[0-3]((?: [0-9A-F]{2})+)\n"}
requests = set()
parts = []
count = 0
for name in os.listdir(sys.argv[1]):
    kind = name.split(".")[0]
    text = open(os.path.join(sys.argv[1], name), "rb").read()
    first = FIRST[kind]
    if not text.startswith(first):
        parts.append((name, {first}, text))
        continue
    place = len(first)
    while request := re.compile(REQUEST[kind]).match(text, place):
        function, command, *_ = (int(word, 16) for word in request[1].split())
        if (function, command) not in READ:
            sys.exit("%s: %r" % (name, request[0]))
        requests.add(request[0])
        count += 1
        place = request.end()
    if place < len(text):
        parts.append((name, requests, text[place:]))
for name, wholes, part in parts:
    if not any(whole.startswith(part) for whole in wholes):
        sys.exit("%s: %r is no first part of a request" % (name, part))
print(count)
