"""A stand-in for a gateway with very many devices, which are actuators with two channels (D2-01-12). It answers `list`,
`status` and `base` at a desk as a gateway does, any other order with ok, and reads the desk as fast as one: 256 bytes,
ten times a second. Existing lines are kept; with --readings it first writes two readings of each device.

    tests/around/gateway.py DESK LINES COUNT [--readings]
"""
import json
import sys
import time

STATUS = {"ignored": 0, "mode": "closed", "readings": 0, "refused": 0, "responses": 0, "teach": 0, "type": "status"}
RESPONSE = {"code": 0, "data": "FF800000", "name": "OK", "type": "response"}


def line_of_reading(device, channel):
    number_by_reading = {"PF": 0, "PFD": 0, "OC": 0, "IO": channel, "LC": 1}
    readings = [{"name": name, "raw": number} for name, number in number_by_reading.items()]
    readings += [{"name": "EL", "word": "ok"}, {"den": 1, "name": "OV", "num": 100, "unit": "%"}]
    return {"dbm": -45, "eep": "D2-01-12", "id": device, "readings": readings, "type": "reading"}


def answer_lines(order, devices):
    if order == "list":
        yield from ({"eep": "D2-01-12", "id": name, "label": "", "maker": 70, "type": "device"} for name in devices)
        yield {"count": len(devices), "type": "list"}
    elif order == "status":
        yield STATUS
    else:
        yield {"type": "ok"}
        yield from [RESPONSE] if order == "base" else []


def main():
    devices = [f"{0x01800000 + device_number:08X}" for device_number in range(int(sys.argv[3]))]
    with open(sys.argv[1], "w+", encoding="utf-8") as desk, open(sys.argv[2], "a", encoding="utf-8") as lines:
        def write_lines(new_lines):
            lines.write("".join(json.dumps(line, separators=(",", ":")) + "\n" for line in new_lines))
            lines.flush()
        if "--readings" in sys.argv:
            write_lines(line_of_reading(name, channel) for name in devices for channel in (0, 1))
        unended_text = ""
        while True:
            *orders, unended_text = (unended_text + desk.read(256)).split("\n")
            for order in orders:
                write_lines(answer_lines(order, devices))
            time.sleep(0.1)


main()
