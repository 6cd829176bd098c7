"""What Home Assistant is shown, from the messages of its discovery (TOPIC PAYLOAD in each line of standard input): the
devices, their entities and their device triggers. Parts that all of them share are checked here and not printed. A
template is replaced by its result for 0, 50, 100 and unknown, or for the members of JSON below, with the template
language of Home Assistant. SECONDS is the time after which cyclic readings expire, if they do: an entity that has it is
printed with the word `expires`.

    tests/around/shown.py NAME [SECONDS] <messages
"""
import json
import re
import sys

import jinja2

SAMPLE_VALUES = ("0", "50", "100", "unknown")
SAMPLE_JSON = {"event_type": "AI", "readings": 1, "responses": 2, "teach": 3, "ignored": 4, "refused": 5}
# The entities that each device has, by the ends of their names.
ENTITIES_OF_EVERY_DEVICE = {
    "dbm": {
        "name": "Signal strength", "device_class": "signal_strength", "state_class": "measurement",
        "unit_of_measurement": "dBm", "entity_category": "diagnostic", "enabled_by_default": False,
    },
    "last_seen": {
        "name": "Last seen", "device_class": "timestamp", "entity_category": "diagnostic", "enabled_by_default": False,
    },
}


def is_number(template_value):
    """The filter of Home Assistant."""
    try:
        return abs(float(template_value)) < float("inf")
    except ValueError:
        return False


engine = jinja2.Environment(undefined=jinja2.StrictUndefined)
engine.filters["is_number"] = is_number


def rendered_results(template):
    """The results of a template."""
    values = [{"value": sample} for sample in SAMPLE_VALUES]
    samples = [{"value_json": SAMPLE_JSON}] if "value_json" in template else values
    return [engine.from_string(template).render(sample) for sample in samples]


def fact_text(key, fact):
    """A key and its value, as one text."""
    if key == "availability":
        fact = [f"{availability.pop('topic')}{availability or ''}" for availability in fact]
    elif key.endswith("template"):
        fact = rendered_results(fact)
    if isinstance(fact, list):
        fact = "|".join(fact)
    return f"{key}={'' if fact is None else fact}"


class ShownEntities:
    """The contents of the messages of a gateway."""

    def __init__(self, name, seconds):
        self.name, self.seconds = name, seconds
        # the descriptions of the devices by their identifiers, the versions of the bridge, and the printed entities
        self.devices, self.versions, self.entities, self.everywhere = {}, set(), [], {}

    def add_message(self, topic, config):
        """Reads a message."""
        _, component, node, name, topic_end = topic.split("/")
        device, origin = config.pop("device"), config.pop("origin")
        self.versions.add(origin.pop("sw"))
        assert (node, topic_end, origin) == (f"enogate_{self.name}", "config", {"name": "enogate-mqtt"}), topic
        (identifier,) = device.pop("identifiers")
        assert self.devices.setdefault(identifier, device) == device, topic
        if component == "device_automation":
            self.check_trigger(topic, name, config)
        else:
            assert config.pop("unique_id") == f"enogate_{self.name}_{name}", topic
        if identifier != node:
            self.check_common_parts(topic, component, name, identifier, config)
        if config:
            assert config.get("expire_after", self.seconds) == self.seconds, topic
            words = ["    expires"] if config.pop("expire_after", None) else []
            facts = [f"    {fact_text(*key_and_value)}" for key_and_value in sorted(config.items())]
            self.entities.append([f"{component} {name}", *facts, *words])

    def check_trigger(self, topic, name, config):
        """Checks what all triggers have alike."""
        device, trigger_name, _ = name.split("_", 2)
        assert config.pop("automation_type") == "trigger", topic
        assert config.pop("topic") == f"enogate/{self.name}/{device}/{trigger_name}", topic
        assert rendered_results(config.pop("value_template")) == [SAMPLE_JSON["event_type"]], topic
        kind = config.pop("payload")
        assert (name, config.pop("subtype")) == (f"{device}_{trigger_name}_{kind}", kind), topic

    def check_common_parts(self, topic, component, name, identifier, config):
        """Checks what all entities and triggers of devices have alike."""
        device, entity_name = name.split("_", 1)
        topic_root = f"enogate/{self.name}"
        assert identifier == f"enogate_{self.name}_{device}", topic
        if component == "device_automation":
            return
        states = [{"topic": f"{topic_root}/{name}"} for name in ("status", "gateway", "module")]
        assert config.pop("availability") == states, topic
        assert config.pop("availability_mode") == "all", topic
        if entity_name in ENTITIES_OF_EVERY_DEVICE:
            expected_members = {**ENTITIES_OF_EVERY_DEVICE[entity_name],
                                "state_topic": f"{topic_root}/{device}/{entity_name}"}
            assert component == "sensor" and config == expected_members
            self.everywhere.setdefault(identifier, set()).add(entity_name)
            config.clear()

    def check_devices(self):
        """Checks what holds of all messages together."""
        gateway, (version,) = f"enogate_{self.name}", self.versions
        assert re.fullmatch(r"\d+\.\d+\.\d+", version), version
        assert self.devices[gateway].pop("sw_version") == version, "the gateway's version"
        for identifier, device in self.devices.items():
            if identifier != gateway:
                assert device.pop("via_device") == gateway, identifier
                assert device.pop("serial_number") == identifier.removeprefix(f"{gateway}_"), identifier
                assert self.everywhere.get(identifier) == set(ENTITIES_OF_EVERY_DEVICE), identifier

    def print_all(self):
        for identifier, device in sorted(self.devices.items()):
            facts = (f"{key}={value}" for key, value in sorted(device.items()))
            print(f"device {identifier.removeprefix(f'enogate_{self.name}_')}", *facts)
        for words in sorted(self.entities):
            print(*words, sep="\n")


def main():
    shown_entities = ShownEntities(sys.argv[1], int(sys.argv[2]) if len(sys.argv) > 2 else None)
    for line in sys.stdin:
        topic, payload = line.rstrip("\n").split(" ", 1)
        shown_entities.add_message(topic, json.loads(payload))
    shown_entities.check_devices()
    shown_entities.print_all()


main()
