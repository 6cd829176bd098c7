"""Lines of the gateway that more than one module needs. Python makes the JSON."""
import json


def json_line(members):
    return json.dumps(members, sort_keys=True, separators=(",", ":")) + "\n"


OK_LINE = json_line({"type": "ok"})


def error_line(name):
    return json_line({"error": name, "type": "error"})


def teach_line(sender, eep, maker, result):
    return json_line({"eep": eep, "id": f"{sender:08X}", "maker": maker, "result": result, "type": "teach"})


def device_lines(devices, labels={}):
    """The devices are profiles and makers by sender. A sender without a label has the empty label."""
    sorted_devices = sorted(devices.items())
    return "".join(
        json_line(
            {"eep": eep, "id": f"{sender:08X}", "label": labels.get(sender, ""), "maker": maker, "type": "device"}
        )
        for sender, (eep, maker) in sorted_devices
    ) + json_line({"count": len(sorted_devices), "type": "list"})
