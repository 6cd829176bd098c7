"""Home Assistant's MQTT discovery: one message for each entity, and one for each device trigger."""
from __future__ import annotations

import functools
import json
from collections.abc import Callable, Collection, Iterable
from typing import Any

from enogate_lines.entities import EntityRow
from enogate_tools import VERSION, share

from .topics import Topics

Config = dict[str, Any]
# Entities by their component of Home Assistant and their name, which is unique for the gateway.
Entities = dict[tuple[str, str], Config]

# The names of the table's keys in a message.
CONFIG_KEYS = {"class": "device_class", "state": "state_class", "unit": "unit_of_measurement", "on": "payload_on",
               "off": "payload_off"}

# The counters of the gateway, with the names of their entities.
COUNTER_TITLES = {"readings": "Readings", "responses": "Module responses", "teach": "Teach-in telegrams",
                  "ignored": "Ignored packets", "refused": "Refused packets and orders"}

# A word instead of a number, such as `unknown` or `out_of_range`, makes a state unknown.
NUMBER_OR_NONE_TEMPLATE = "{{ value if value | is_number else None }}"
NUMBER_OR_NOTHING_TEMPLATE = "{{ value if value | is_number else '' }}"
ON_OFF_OR_NONE_TEMPLATE = "{{ None if not value | is_number else 'OFF' if value | float == 0 else 'ON' }}"
OPEN_CLOSED_OR_NONE_TEMPLATE = "{{ None if not value | is_number else 'closed' if value | float == 100 else 'open' }}"
EVENT_TYPE_TEMPLATE = "{{ value_json.event_type }}"


def device_configs(topics: Topics, device: str, identity: str, about: Config, rows: Iterable[EntityRow],
                   subtopics: Collection[str], expire_after: int | None) -> dict[str, str]:
    """The messages of a device, by topic. The IDs of its entities have `identity`, `about` describes the device, and
    `reported` has the subtopics of its readings. A cyclic reading becomes unavailable some time after the last one:
    `expire_after` is the setting for it."""
    entities = entities_of_rows(topics, device, identity, rows, subtopics, expire_after)
    shared_config = {"device": about, **availability(topics.status, topics.gateway, topics.module)}
    messages = config_messages(topics, entities | entities_of_every_device(topics, device, identity), shared_config)
    return messages | trigger_configs(topics, about, entities)


def gateway_configs(topics: Topics) -> dict[str, str]:
    """The messages of the gateway itself, by topic."""
    identifier = f"enogate_{topics.name}"
    about = {"identifiers": [identifier], "name": f"enogate {topics.name}", "model": "enogate", "sw_version": VERSION}
    # whether the bridge is connected is known even if it is not
    entities: Entities = {("binary_sensor", "status"): connectivity("Bridge", topics.status)}
    for name, title, state_topic in [("gateway", "Gateway", topics.gateway), ("module", "Radio module", topics.module)]:
        entities["binary_sensor", name] = {**connectivity(title, state_topic), **availability(topics.status)}
    with_gateway = availability(topics.status, topics.gateway)
    for name, title in COUNTER_TITLES.items():
        entities["sensor", name] = {
            "name": title, "state_topic": topics.counters, "value_template": f"{{{{ value_json.{name} }}}}",
            "state_class": "total_increasing", **visibility("hidden"), **with_gateway,
        }
    entities["switch", "learn"] = {
        "name": "Learn window", "state_topic": topics.learn, "command_topic": topics.learn_command,
        "icon": "mdi:access-point-plus", "entity_category": "config", **with_gateway,
    }
    return config_messages(topics, entities, {"device": about})


def device_description(topics: Topics, device: str, identity: str, eep: str, label: str, maker: int | None) -> Config:
    """The description of a device, which each of its entities contains."""
    about = {
        "identifiers": [f"enogate_{topics.name}_{identity}"], "name": label or f"{eep} {device}",
        "model": model_name(eep), "serial_number": device, "via_device": f"enogate_{topics.name}",
    }
    return about if maker is None else {**about, "manufacturer": manufacturer_name(maker)}


def model_name(eep: str) -> str:
    """The kind of a device with this profile, and the profile."""
    kind = share.device_kind(eep)
    return f"{kind} ({eep})" if kind else eep


def manufacturer_name(maker: int) -> str:
    return manufacturer_names().get(maker, f"EnOcean manufacturer ID {maker}")


@functools.cache
def manufacturer_names() -> dict[int, str]:
    """The names of manufacturers by their numbers."""
    return {int(number, 16): name for number, name in (row.split("\t") for row in share.table_lines("manufacturers"))}


def config_messages(topics: Topics, entities: Entities, shared_config: Config) -> dict[str, str]:
    """The messages of these entities, by topic. All of them contain `shared`."""
    return {
        topics.config(component, name): config_payload(
            {**config, **shared_config, "unique_id": f"enogate_{topics.name}_{name}"})
        for (component, name), config in entities.items()
    }


def config_payload(config: Config) -> str:
    config = {**config, "origin": {"name": "enogate-mqtt", "sw": VERSION}}
    return json.dumps(config, ensure_ascii=False, sort_keys=True, separators=(",", ":"))


def availability(*state_topics: str) -> Config:
    """An entity is available while all these topics are `online`, the word that Home Assistant expects."""
    return {"availability": [{"topic": topic} for topic in state_topics], "availability_mode": "all"}


def connectivity(title: str, state_topic: str) -> Config:
    return {"name": title, "state_topic": state_topic, "payload_on": "online", "payload_off": "offline",
            "device_class": "connectivity", **visibility("diagnostic")}


def entities_of_rows(topics: Topics, device: str, identity: str, rows: Iterable[EntityRow], subtopics: Collection[str],
                     expire_after: int | None) -> Entities:
    """The entities of a device according to the table. Rows with the same topic are one entity."""
    configs: Entities = {}
    for row in rows:
        for number in row.entity_numbers(subtopics) if row.entity else []:
            key = row.entity, f"{identity}_{row.subtopic(number).replace('/', '_')}"
            config = entity_config(topics, device, row, number)
            seconds = row.expires_after(expire_after)
            if seconds is not None:
                config["expire_after"] = seconds
            if row.entity == "event" and key in configs:
                config["event_types"] = list(dict.fromkeys(configs[key]["event_types"] + config["event_types"]))
            configs[key] = config
    return configs


def entities_of_every_device(topics: Topics, device: str, identity: str) -> Entities:
    """The entities that each device has, whatever its profile is."""
    return {
        ("sensor", f"{identity}_dbm"): {
            "name": "Signal strength", "state_topic": topics.reading(device, "dbm"), "device_class": "signal_strength",
            "state_class": "measurement", "unit_of_measurement": "dBm", **visibility("hidden"),
        },
        ("sensor", f"{identity}_last_seen"): {
            "name": "Last seen", "state_topic": topics.last_seen(device), "device_class": "timestamp",
            **visibility("hidden"),
        },
    }


def trigger_configs(topics: Topics, about: Config, entities: Entities) -> dict[str, str]:
    """The messages of the device triggers, by topic: one for each type of an event. Home Assistant does not define an
    ID or an availability for them."""
    triggers = {}
    for (component, name), config in entities.items():
        for kind in config["event_types"] if component == "event" else []:
            triggers[topics.config("device_automation", f"{name}_{kind}")] = config_payload({
                "automation_type": "trigger", "subtype": kind,
                "type": "button_short_release" if kind == "released" else "button_short_press",
                "topic": config["state_topic"], "value_template": EVENT_TYPE_TEMPLATE, "payload": kind, "device": about,
            })
    return triggers


def entity_config(topics: Topics, device: str, row: EntityRow, number: int | None) -> Config:
    """The configuration of one entity, without what all entities of the device share."""
    subtopic = row.subtopic(number)
    special = CONFIG_BY_COMPONENT[row.entity](row, topics.reading(device, subtopic), topics.command(device, subtopic))
    words: Config = {CONFIG_KEYS[key]: value for key, value in row.more.items() if key in CONFIG_KEYS}
    if row.digits is not None:
        words["suggested_display_precision"] = row.digits
    return {"name": row.title(number), **words, **special, **visibility(*row.more)}


def visibility(*words: str) -> Config:
    """How an entity is shown, according to the keys of its row."""
    if "hidden" in words:
        return {"entity_category": "diagnostic", "enabled_by_default": False}
    return {"entity_category": "diagnostic"} if "diagnostic" in words else {}


def sensor_config(row: EntityRow, state_topic: str, _command: str) -> Config:
    config: Config = {"state_topic": state_topic}
    if row.words("options"):
        config |= {"device_class": "enum", "options": row.words("options")}
    elif row.unit:
        config["value_template"] = NUMBER_OR_NONE_TEMPLATE
    return config


def binary_sensor_config(_row: EntityRow, state_topic: str, _command: str) -> Config:
    return {"state_topic": state_topic}


def event_config(row: EntityRow, state_topic: str, _command: str) -> Config:
    return {"state_topic": state_topic, "event_types": row.words("types")}


def switch_config(_row: EntityRow, state_topic: str, command: str) -> Config:
    return {"state_topic": state_topic, "value_template": ON_OFF_OR_NONE_TEMPLATE, "command_topic": command}


def light_config(_row: EntityRow, state_topic: str, command: str) -> Config:
    return {
        "state_topic": state_topic, "state_value_template": ON_OFF_OR_NONE_TEMPLATE, "command_topic": command,
        "brightness_state_topic": state_topic, "brightness_value_template": NUMBER_OR_NOTHING_TEMPLATE,
        "brightness_command_topic": command, "brightness_scale": 100, "on_command_type": "brightness",
    }


def cover_config(_row: EntityRow, state_topic: str, command: str) -> Config:
    """In the profile, 0 % is open and 100 % is closed."""
    return {
        "state_topic": state_topic, "value_template": OPEN_CLOSED_OR_NONE_TEMPLATE, "command_topic": command,
        "position_topic": state_topic, "position_template": NUMBER_OR_NOTHING_TEMPLATE, "set_position_topic": command,
        "position_open": 0, "position_closed": 100,
    }


CONFIG_BY_COMPONENT: dict[str, Callable[[EntityRow, str, str], Config]] = {
    "sensor": sensor_config, "binary_sensor": binary_sensor_config, "event": event_config, "switch": switch_config,
    "light": light_config, "cover": cover_config,
}
# The components of Home Assistant that have entities or triggers of this bridge.
COMPONENTS = {"device_automation", *CONFIG_BY_COMPONENT}
