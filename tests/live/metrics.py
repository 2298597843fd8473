#!/usr/bin/env python3
"""Compares metrics of the program with what tools of monitoring make of them, or say of the same controller. scripts/monitor_test runs it.

metrics.py served FOLDER URL            node_exporter at URL serves the files *.prom in FOLDER
metrics.py stored FILE URL JOB          Prometheus at URL answers with FILE, which it scraped in JOB
metrics.py alerted FOLDER URL           the rules of docs/monitoring.md raise in Prometheus what is wrong in FOLDER
metrics.py exported FILE URL            ipmi_exporter has the values in FILE
metrics.py plugged FILE CHECK PLUGIN    check_ipmi_sensor, which printed PLUGIN, judges as FILE, and as `check --perfdata`, which printed CHECK
metrics.py offer FOLDER PORT            a server of the files in FOLDER, as OpenMetrics

Prints what was compared, and a line for each difference. The status is 0 if there is none.
"""
import functools
import http.server
import json
import math
import os
import pathlib
import re
import sys
import time
import urllib.parse
import urllib.request

SAMPLE = re.compile(r"([a-z_]+)(?:\{(.*)\})? (\S+)")
LABEL = re.compile(r'([a-z_]+)="((?:[^"\\]|\\.)*)"(?:,|$)')

# FreeIPMI prints two decimals.
ROUNDING = 0.0051

# What the exporter has under another name or not at all, and why. Each has to occur, so that the list stays true.
RENAMED = {"ipmi_sel_logs_count": "ipmi_sel_entries"}  # promtool warns of `_count`, with which histograms end
ONLY_THERE = {
    "ipmi_scrape_duration_seconds": "the time that the exporter took",
    'ipmi_up{collector="sel"}': "here the families of the log are missing if it can't be read",
}
ONLY_HERE = {
    "ipmi_sensor_threshold": "the exporter has no thresholds",
    "ipmi_sensor_info": "the exporter has no more of a record",
    "ipmi_sdr_faulty_records": "FreeIPMI passes over such a record",
}
# What FreeIPMI says of sensors, and the program says otherwise, as (state there, state here).
NOT_CRITICAL = "FreeIPMI's file says Nominal of a non-critical threshold that is passed"
OTHER_STATES = {"Outlet Temp": (0, 1, NOT_CRITICAL), "VRM2 Temp": (0, 1, NOT_CRITICAL)}
OTHER_UNIT = "FreeIPMI asks only logical unit 0"
OTHER_READINGS = {"LUN1 Temp": OTHER_UNIT, "LUN3 Temp": OTHER_UNIT}


# ---- texts


def key_of(name, labels):
    """How a sample is named here, whatever the order of its labels."""
    return name + ("{%s}" % ",".join(f'{key}="{labels[key]}"' for key in sorted(labels)) if labels else "")


def labels_of(text):
    """The labels between the braces of a line."""
    found, place = {}, 0
    while place < len(text):
        match = LABEL.match(text, place)
        if not match or match[1] in found:
            sys.exit(f"metrics.py: labels that can't be read: {text}")
        found[match[1]] = re.sub(r"\\(.)", lambda escape: "\n" if escape[1] == "n" else escape[1], match[2])
        place = match.end()
    return found


def samples_of(text):
    """The value of each sample of a text, with its name and labels."""
    found = {}
    for line in text.split("\n"):
        match = SAMPLE.fullmatch(line)
        if match:
            key = key_of(match[1], labels_of(match[2] or ""))
            if key in found:
                sys.exit(f"metrics.py: {key} stands twice")
            found[key] = (match[1], labels_of(match[2] or ""), float(match[3]))
        elif line and not line.startswith("# "):
            sys.exit(f"metrics.py: a line that is no sample: {line}")
    return found


def samples_in(path):
    """The samples of a file."""
    return samples_of(pathlib.Path(path).read_text(encoding="utf-8"))


def samples_at(url):
    """The samples that a server has of controllers."""
    with urllib.request.urlopen(url, timeout=90) as reply:
        text = reply.read().decode()
    lines = [line for line in text.split("\n") if line.startswith(("ipmi_", "node_textfile_scrape_error "))]
    return samples_of("\n".join(lines))


def is_same(one, other, tolerance=0.0):
    """Whether two values are the same, or both none."""
    return (math.isnan(one) and math.isnan(other)) or abs(one - other) <= tolerance


def differences(wanted, found, whose):
    """The samples of the program that another one lacks or has otherwise, and those that only the other one has."""
    for key, (_, _, value) in wanted.items():
        if key not in found:
            yield f"{whose} lacks {key}"
        elif not is_same(value, found[key][2]):
            yield f"{whose} has {found[key][2]} for {key}, not {value}"
    for key in found.keys() - wanted.keys():
        yield f"{whose} has {key}, which is not in the text"


# ---- node_exporter and Prometheus


def texts_in(folder):
    """The samples of all texts in a folder."""
    return samples_of("\n".join(path.read_text(encoding="utf-8") for path in sorted(pathlib.Path(folder).glob("*.prom"))))


def served(folder, url):
    """node_exporter serves the texts of a folder."""
    wanted, found = texts_in(folder), samples_at(url)
    error = found.pop("node_textfile_scrape_error", ("", {}, math.nan))[2]
    if error != 0:
        yield f"node_exporter: node_textfile_scrape_error is {error}"
    yield from differences(wanted, found, "node_exporter")
    print(f"compared: {len(wanted)} samples with node_exporter")


def answer(url, path):
    """The data of an answer of Prometheus."""
    with urllib.request.urlopen(url + path, timeout=10) as reply:
        return json.load(reply)["data"]


def queried(url, job):
    """The samples that Prometheus has of a job."""
    found = {}
    for one in answer(url, "/api/v1/query?query=" + urllib.parse.quote('{__name__=~"ipmi_.*",job="%s"}' % job))["result"]:
        name = one["metric"].pop("__name__")
        labels = {key: value for key, value in one["metric"].items() if key not in ("instance", "job")}
        found[key_of(name, labels)] = (name, labels, float(one["value"][1]))
    return found


def in_time(ask):
    """The differences that are left after a while: Prometheus scrapes each second."""
    for _ in range(30):
        left = list(ask())
        if not left:
            break
        time.sleep(1)
    return left


def stored(path, url, job):
    """Prometheus answers with the samples of a file, or of a folder's files."""
    wanted = texts_in(path) if os.path.isdir(path) else samples_in(path)
    yield from in_time(lambda: differences(wanted, queried(url, job), f"Prometheus, job {job},"))
    print(f"compared: {len(wanted)} samples with Prometheus' answer to a query, job {job}")


def to_be_raised(folder):
    """What has to be raised: critical sensors, machines that were not read, and old files."""
    for name, labels, value in texts_in(folder).values():
        if name.endswith("_state") and value == 2:
            yield "IpmiSensorCritical " + labels.get("host", "") + " " + labels["id"]
        if name == "ipmi_up" and value == 0:
            yield "IpmiNotRead " + labels.get("host", "")
    for path in pathlib.Path(folder).glob("*.prom"):
        if time.time() - path.stat().st_mtime > 3600:
            yield f"IpmiOld {path}"


def raised(url):
    """What Prometheus raises, or is about to raise, of node_exporter."""
    for labels in (alert["labels"] for alert in answer(url, "/api/v1/alerts")["alerts"]):
        if labels.get("job") != "node":
            continue
        words = {"IpmiSensorCritical": ["host", "id"], "IpmiNotRead": ["host"], "IpmiOld": ["file"]}.get(labels["alertname"], [])
        yield " ".join([labels["alertname"]] + [labels.get(word, "") for word in words])


def alerted(folder, url):
    """The rules raise what they are to raise, and nothing else."""
    wanted = sorted(to_be_raised(folder))
    for rule in ("IpmiSensorCritical", "IpmiNotRead", "IpmiOld"):
        if not any(one.startswith(rule + " ") for one in wanted):
            yield f"nothing in {folder} is a reason for {rule}"
    yield from in_time(lambda: [] if sorted(raised(url)) == wanted else [f"raised: {sorted(raised(url))}, not {wanted}"])
    print(f"compared: {len(wanted)} alerts of the rules in docs/monitoring.md")


# ---- FreeIPMI's readers


def in_our_words(key, name, labels):
    """The key that the program has for a sample of the exporter, if any."""
    if name in RENAMED:
        return key_of(RENAMED[name], labels)
    return None if name in ONLY_THERE or key in ONLY_THERE else key


def compare_exported(key, there, here, seen):
    """What is different in a sample of the exporter. Adds to `seen` which exception it is."""
    name, labels, value = there
    other = OTHER_STATES.get(labels.get("name"))
    if other and name.endswith("_state") and (value, here[2]) == other[:2]:
        seen.add(labels["name"])
        return []
    tolerance = 0.0 if name.endswith("_state") else ROUNDING
    return [] if is_same(value, here[2], tolerance) else [f"ipmi_exporter has {value} for {key}, not {here[2]}"]


def compare_missing(key, here, seen):
    """What is wrong with a sample that the exporter lacks: it leaves out sensors without a reading."""
    name, labels, value = here
    if name in ONLY_HERE:
        seen.add(name)
    elif labels.get("name") in OTHER_READINGS and not math.isnan(value):
        seen.add(labels["name"])
    elif not (name.endswith(("_state", *UNITS)) and math.isnan(value)):
        return [f"ipmi_exporter lacks {key}, which is {value}"]
    return []


UNITS = ("_celsius", "_rpm", "_volts", "_amperes", "_watts", "ipmi_sensor_value")


def exported(path, url):
    """The exporter has the values of a file, but for the exceptions above."""
    here, there, seen, matched = samples_in(path), samples_at(url), set(), set()
    for key, sample in there.items():
        ours = in_our_words(key, sample[0], sample[1])
        if ours != key:
            seen.add(key if key in ONLY_THERE else sample[0])
        if ours in here:
            matched.add(ours)
            yield from compare_exported(key, sample, here[ours], seen)
        elif ours:
            yield f"ipmi_exporter has {key}, which is not in the text"
    for key in here.keys() - matched:
        yield from compare_missing(key, here[key], seen)
    for exception in {*RENAMED, *ONLY_THERE, *ONLY_HERE, *OTHER_STATES, *OTHER_READINGS} - seen:
        yield f"ipmi_exporter: the exception {exception} did not occur"
    values = [key for key in matched if not math.isnan(here[key][2])]
    print(f"compared: {len(matched)} samples with ipmi_exporter, {len(values)} of them with a value, to {ROUNDING}")
    print(f"only here: {len(here) - len(matched)} samples: no reading, or {', '.join(sorted({*ONLY_HERE.values(), *OTHER_READINGS.values()}))}")
    print(f"otherwise: {', '.join(sorted(OTHER_STATES))}: {NOT_CRITICAL}")


# ---- plugins


def data_of(text):
    """The values and ranges in the performance data of a plugin, by their labels."""
    found = {}
    for label, values in re.findall(r"'((?:[^']|'')*)'=(\S*)", text.partition("|")[2]):
        found[label] = tuple(re.split("[;:]", values.rstrip(";")))
    return found


def is_same_end(one, other):
    """Whether two ends of ranges, or values, are the same, to the rounding."""
    return one == other or ("~" not in one + other and "" not in (one, other) and is_same(float(one), float(other), ROUNDING))


def is_same_datum(one, other):
    """Whether two data have the same value and ranges."""
    return len(one) == len(other) and all(map(is_same_end, one, other))


def plugged(path, check, plugin):
    """check_ipmi_sensor has the critical sensors of a file and of `check`, and their performance data."""
    said, theirs = (pathlib.Path(file).read_text(encoding="utf-8") for file in (check, plugin))
    states = re.findall(r"([^\[,=]+) = (Critical|Warning) \(", theirs)
    for word, number in ("Critical", 2), ("Warning", 1):
        wanted = {name.strip() for name, state in states if state == word}
        wanted |= {name for name, (_, here, _) in OTHER_STATES.items() if here == number}
        in_text = {labels["name"] for name, labels, value in samples_in(path).values() if name.endswith("_state") and value == number}
        judged = set(re.findall(rf"^{word.lower()}: (.*?) \(", said, re.MULTILINE))
        for whose, found in ("the metrics", in_text), ("check", judged):
            if not wanted or found != wanted:
                yield f"{word}: {sorted(found)} by {whose}, {sorted(wanted)} by check_ipmi_sensor and the exceptions"
        print(f"compared: {len(wanted)} sensors that are {word} with check_ipmi_sensor: {', '.join(sorted(wanted))}")
    ours, found = data_of(said.split("\n", maxsplit=1)[0]), data_of(theirs)
    if not found:
        yield "check_ipmi_sensor has no performance data"
    for label in found.keys() | ours.keys() - OTHER_READINGS.keys():
        if label not in found or label not in ours or not is_same_datum(ours[label], found[label]):
            yield f"performance data of {label}: {ours.get(label)}, {found.get(label)} by check_ipmi_sensor"
    print(f"compared: {len(found)} performance data with check_ipmi_sensor")


# ---- OpenMetrics


class OpenMetrics(http.server.SimpleHTTPRequestHandler):
    """Serves files as OpenMetrics."""

    def guess_type(self, path):
        return "application/openmetrics-text; version=1.0.0; charset=utf-8"

    def log_message(self, *words):
        pass


def offer(folder, port):
    """Serves the files of a folder until it is killed."""
    http.server.HTTPServer(("127.0.0.1", int(port)), functools.partial(OpenMetrics, directory=folder)).serve_forever()


def main():
    """Runs the comparison that the words name."""
    command, *words = sys.argv[1:]
    if command == "offer":
        offer(*words)
    commands = {"served": served, "stored": stored, "alerted": alerted, "exported": exported, "plugged": plugged}
    left = list(commands[command](*words))
    for line in left:
        print(line, file=sys.stderr)
    sys.exit(1 if left else 0)


if __name__ == "__main__":
    main()
