#!/usr/bin/env python3
"""Prints the number of requests that reading the image $1 from a controller needs, in parts of $2 bytes. $3 is what is read:

sensor   a reservation; each sensor data record in parts; the reading of each sensor of the controller with a full or compact record
fru      a reservation; each sensor data record in parts; for device 0 and each logical device of the controller with a locator, the
         size and the inventory in parts, or the size alone if there is none
capture  the same as both; each event in parts, and a reservation for them; two infos; the size of an inventory once more if there
         is none (IPMI v2.0, sections 33.12, 34.2 and 43)"""
import sys

CONTROLLER = 0x20
records, events, inventories = [], [], {}
for line in open(sys.argv[1], encoding="ascii").read().split("\n")[1:]:
    word, *fields = line.split(" ")
    if word == "sdr":
        records.append(bytes.fromhex(fields[2]))
    elif word == "sel":
        events.append(bytes.fromhex(fields[2]))
    elif word == "fru":
        inventories[int(fields[0], 16)] = inventories.get(int(fields[0], 16), b"") + bytes.fromhex(fields[1])


def parts(count):
    return -(-count // int(sys.argv[2]))


def shelf(rows):
    return 1 + sum(parts(len(row)) for row in rows)


sensors = {(record[6] % 4, record[7]) for record in records if record[3] in (1, 2) and record[5] == CONTROLLER}
devices = {0} | {record[6] for record in records if record[3] == 0x11 and record[5] == CONTROLLER and record[7] & 0x98 == 0x80}
present = sum(1 + parts(len(inventories[device])) for device in devices if device in inventories)
absent = len(devices - set(inventories))
print({
    "sensor": shelf(records) + len(sensors),
    "fru": shelf(records) + present + absent,
    "capture": shelf(records) + shelf(events) + 2 + len(sensors) + present + 2 * absent,
}[sys.argv[3]])
