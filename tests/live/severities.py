#!/usr/bin/env python3
"""Compares the severities of events that are asserted with FreeIPMI's defaults, in JSON and by `sel list --worse`.

severities.py PROGRAM FILE, where FILE is FreeIPMI's freeipmi_interpret_sel.conf. It has a group for each sensor type, and for each pair
of a sensor type and a generic type, with a line for each offset in the order of the standard.
"""
import json
import subprocess
import sys
import tempfile

SENSOR_TYPES = {
    "Threshold_Sensor": 0x01, "Temperature": 0x01, "Voltage": 0x02, "Current": 0x03, "Fan": 0x04, "Physical_Security": 0x05,
    "Platform_Security_Violation_Attempt": 0x06, "Processor": 0x07, "Power_Supply": 0x08, "Power_Unit": 0x09, "Cooling_Device": 0x0A, "Memory": 0x0C,
    "Drive_Slot": 0x0D, "POST_Memory_Resize": 0x0E, "System_Firmware_Progress": 0x0F, "Event_Logging_Disabled": 0x10,
    "System_Event": 0x12, "Critical_Interrupt": 0x13, "Button_Switch": 0x14, "Module_Board": 0x15, "Chassis": 0x18, "Chip_Set": 0x19,
    "Cable_Interconnect": 0x1B, "System_Boot_Initiated": 0x1D, "Boot_Error": 0x1E, "OS_Boot": 0x1F, "OS_Critical_Stop": 0x20,
    "Slot_Connector": 0x21, "System_ACPI_Power_State": 0x22, "Watchdog2": 0x23, "Platform_Alert": 0x24, "Entity_Presence": 0x25,
    "LAN": 0x27, "Management_Subsystem_Health": 0x28, "Battery": 0x29, "Session_Audit": 0x2A, "Version_Change": 0x2B, "FRU_State": 0x2C,
}
GENERIC_TYPES = {
    "_Transition_State": 0x02, "_State": 0x03, "_Predictive_Failure": 0x04, "_Limit": 0x05, "_Performance": 0x06,
    "_Transition_Severity": 0x07, "_Device_Present": 0x08, "_Transition_Availability": 0x0A, "_Redundancy": 0x0B,
}

# The severities that are others here, as docs/DECISIONS.md says; None where the standard reserves the offset.
DIFFERENCES = {
    "Fan_Transition_Availability_To_On_Line": "nominal",
    "Processor_Terminator_Presence_Detected": "nominal",
    "Processor_State_Asserted": "warning",
    "Memory_State_Asserted": "warning",
    "Drive_Slot_State_Deasserted": "nominal",
    "Drive_Slot_State_Asserted": "warning",
    "Button_Switch_State_Asserted": "warning",
    "Module_Board_State_Asserted": "warning",
    "Boot_Error_State_Asserted": "warning",
    "OS_Critical_Stop_State_Asserted": "warning",
    "Platform_Alert_State_Asserted": "warning",
    "System_ACPI_Power_State_Unspecified": None,
    "Watchdog2_Reserved1": None,
    "Watchdog2_Reserved2": None,
    "Watchdog2_Reserved3": None,
    "Watchdog2_Reserved4": None,
}

# The file has these two the other way round.
OFFSETS = {"LAN_Heartbeat_Lost": 0, "LAN_Heartbeat": 1}


def types_of(group):
    """The event/reading type and the sensor type of a group."""
    if group == "Threshold_Sensor":
        return 0x01, 0x01
    if group in SENSOR_TYPES:
        return 0x6F, SENSOR_TYPES[group]
    for suffix, generic in GENERIC_TYPES.items():
        if group.endswith(suffix) and group.removesuffix(suffix) in SENSOR_TYPES:
            return generic, SENSOR_TYPES[group.removesuffix(suffix)]
    return None


def defaults(path):
    """The name, the types, the offset and the severity of each line."""
    found = []
    group, offset = None, 0
    with open(path, encoding="ascii", errors="replace") as lines:
        for line in lines:
            words = line.strip("# \n").split()
            if len(words) == 1 and line.startswith("## IPMI_"):
                group, offset = words[0].removeprefix("IPMI_"), 0
                if types_of(group) is None:
                    sys.exit(f"severities.py: a group of unknown types: {group}")
            elif group and len(words) in (2, 3) and words[0].startswith("IPMI_" + group + "_"):
                name = words[0].removeprefix("IPMI_")
                found.append((name, *types_of(group), OFFSETS.get(name, offset), words[1].lower()))
                offset += 1
    return found


def image_of(found, direction):
    """An image of a log with one event for each line."""
    text = ["ipmi-image 1"]
    for at, (_, event_type, sensor_type, offset, _) in enumerate(found, start=1):
        after = 0xFFFF if at == len(found) else at + 1
        bytes_of_id = at.to_bytes(2, "little")
        data = bytes_of_id + bytes([2, 0, 0, 0, 0x60, 0x20, 0, 4, sensor_type, 0x30, direction | event_type, offset, 0xFF, 0xFF])
        text.append(f"sel {at:04x} {after:04x} {data.hex()}")
    return "\n".join(text + ["end", ""])


def severities(program, image):
    """The severity of each entry, by its id; and those that `--worse` lists."""
    def lines(*words):
        run = subprocess.run([program, "--json", "sel", "list", *words], input=image, check=True, capture_output=True, text=True)
        return {line["record_id"]: line["severity"] for line in map(json.loads, run.stdout.splitlines()[:-1])}
    told = lines()
    for worse, listed in ("warning", ("warning", "critical")), ("critical", ("critical",)):
        if lines("--worse", worse) != {at: severity for at, severity in told.items() if severity in listed}:
            sys.exit(f"severities.py: --worse {worse} lists others than those of this severity")
    return told


def main():
    program, path = sys.argv[1:]
    found = defaults(path)
    told = severities(program, image_of(found, 0x00))
    ended = severities(program, image_of(found, 0x80))
    differ = {line[0]: told[at] for at, line in enumerate(found, start=1) if told[at] != line[4]}
    if differ != DIFFERENCES:
        sys.exit(f"severities.py: not as expected: {sorted(differ.keys() ^ DIFFERENCES.keys()) or differ}")
    if any(ended[at] != (severity and "nominal") for at, severity in told.items()):
        sys.exit("severities.py: an event that was deasserted is not nominal")
    print(f"ok: {len(found) - len(differ)} of {len(found)} severities are FreeIPMI's; {len(differ)} others are decided")


if __name__ == "__main__":
    main()
