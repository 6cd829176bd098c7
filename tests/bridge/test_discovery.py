"""Tests of the messages of Home Assistant's discovery."""
from __future__ import annotations

import json
import re
import unittest

from enogate_lines.entities import AUTO, Table
from enogate_mqtt import discovery
from enogate_mqtt.topics import Topics
from enogate_tools import VERSION, share

TOPICS = Topics("hall", "homeassistant")
TABLE = Table()
DEVICE = "01800ABC"
DEVICE_TOPIC = f"enogate/hall/{DEVICE}"
GATEWAY_AVAILABILITY = {"availability": [{"topic": "enogate/hall/status"}, {"topic": "enogate/hall/gateway"}],
                        "availability_mode": "all"}
MODULE_AVAILABILITY = {**GATEWAY_AVAILABILITY, "availability": [*GATEWAY_AVAILABILITY["availability"],
                                                                {"topic": "enogate/hall/module"}]}
BRIDGE_AVAILABILITY = {"availability": [{"topic": "enogate/hall/status"}], "availability_mode": "all"}
ORIGIN = {"name": "enogate-mqtt", "sw": VERSION}


def configs_of_messages(messages: dict[str, str]) -> dict[str, dict]:
    """The messages by component and name: `sensor TMP` for the topic homeassistant/sensor/enogate_hall/ID_TMP/config,
    and `sensor teach` for .../enogate_hall/teach/config."""
    config_by_key = {}
    for topic, text in messages.items():
        prefix, component, node, name, topic_end = topic.split("/")
        assert (prefix, node, topic_end) == ("homeassistant", "enogate_hall", "config"), topic
        config_by_key[f"{component} {name.removeprefix(DEVICE + '_')}"] = json.loads(text)
    return config_by_key


def device_about(eep: str, label: str = "", maker: int | None = None) -> dict:
    return discovery.device_description(TOPICS, DEVICE, DEVICE, eep, label, maker)


def device_configs(eep: str, *subtopics: str, expire_after: int | None = None) -> dict[str, dict]:
    """The messages of a device with this profile and readings on these subtopics."""
    rows = TABLE.rows_of_profile(eep).values()
    return configs_of_messages(discovery.device_configs(TOPICS, DEVICE, DEVICE, device_about(eep), rows, subtopics,
                                                        expire_after))


def rendered_template(template: str, template_value: str) -> str:
    """What Home Assistant makes of a value. Only the filters and words of the discovery messages are known: a template
    becomes an expression of Python. tests/around/shown.py asks Jinja itself."""
    def is_number(text):
        return re.fullmatch(r"-?\d+(\.\d+)?", text) is not None
    expression = re.sub(r"value \| (\w+)", r"\1(value)", template.removeprefix("{{").removesuffix("}}").strip())
    return str(eval(expression, {"is_number": is_number, "float": float, "value": template_value}))


class DeviceEntities(unittest.TestCase):
    """One message of each kind, as a whole."""

    def setUp(self):
        self.maxDiff = None

    def check(self, eep: str, key: str, expected_config: dict, *subtopics: str):
        name = key.split()[1]
        expected_config = {**expected_config, **MODULE_AVAILABILITY, "unique_id": f"enogate_hall_{DEVICE}_{name}",
                           "device": device_about(eep),
                           "origin": ORIGIN}
        self.assertEqual(device_configs(eep, *subtopics)[key], expected_config)

    def test_a_contact(self):
        self.check("D5-00-01", "binary_sensor CO", {
            "name": "Contact", "state_topic": f"{DEVICE_TOPIC}/CO", "device_class": "opening", "payload_on": "open",
            "payload_off": "closed"})

    def test_a_measured_value(self):
        self.check("A5-02-05", "sensor TMP", {
            "name": "Temperature", "state_topic": f"{DEVICE_TOPIC}/TMP", "device_class": "temperature",
            "state_class": "measurement", "unit_of_measurement": "°C", "suggested_display_precision": 1,
            "value_template": "{{ value if value | is_number else None }}"})

    def test_a_diagnostic_value(self):
        self.check("A5-06-01", "sensor SVC", {
            "name": "Supply voltage", "state_topic": f"{DEVICE_TOPIC}/SVC", "device_class": "voltage",
            "state_class": "measurement", "unit_of_measurement": "V", "entity_category": "diagnostic",
            "suggested_display_precision": 2, "value_template": "{{ value if value | is_number else None }}"})

    def test_a_plain_number(self):
        self.check("A5-10-05", "sensor SP", {
            "name": "Set point", "state_topic": f"{DEVICE_TOPIC}/SP", "state_class": "measurement",
            "suggested_display_precision": 0})

    def test_an_occupancy_button(self):
        for eep in ["A5-08-01", "A5-10-05"]:
            self.check(eep, "binary_sensor OCC", {
                "name": "Occupancy button", "state_topic": f"{DEVICE_TOPIC}/OCC", "payload_on": "pressed",
                "payload_off": "released"})

    def test_named_states(self):
        self.check("D2-01-12", "sensor EL_1", {
            "name": "Error level 1", "state_topic": f"{DEVICE_TOPIC}/EL/1", "device_class": "enum",
            "options": ["ok", "warning", "failure", "not_supported"], "entity_category": "diagnostic"})

    def test_a_hidden_entity(self):
        self.check("D2-01-0F", "binary_sensor LC_0", {
            "name": "Local control", "state_topic": f"{DEVICE_TOPIC}/LC/0", "payload_on": "1", "payload_off": "0",
            "entity_category": "diagnostic", "enabled_by_default": False})

    def test_a_rocker_switch(self):
        self.check("F6-02-01", "event press", {
            "name": "Rocker", "state_topic": f"{DEVICE_TOPIC}/press", "device_class": "button",
            "event_types": ["AI", "A0", "BI", "B0", "three_or_four", "released"]})

    def test_a_switch(self):
        self.check("D2-01-12", "switch OV_1", {
            "name": "Channel 1", "state_topic": f"{DEVICE_TOPIC}/OV/1", "command_topic": f"{DEVICE_TOPIC}/OV/1/set",
            "value_template": discovery.ON_OFF_OR_NONE_TEMPLATE})

    def test_a_dimmer(self):
        self.check("D2-01-02", "light OV_0", {
            "name": None, "state_topic": f"{DEVICE_TOPIC}/OV/0", "command_topic": f"{DEVICE_TOPIC}/OV/0/set",
            "state_value_template": discovery.ON_OFF_OR_NONE_TEMPLATE, "brightness_state_topic": f"{DEVICE_TOPIC}/OV/0",
            "brightness_value_template": discovery.NUMBER_OR_NOTHING_TEMPLATE,
            "brightness_command_topic": f"{DEVICE_TOPIC}/OV/0/set", "brightness_scale": 100,
            "on_command_type": "brightness"})

    def test_a_blind(self):
        self.check("D2-05-00", "cover POS_0", {
            "name": None, "device_class": "blind", "state_topic": f"{DEVICE_TOPIC}/POS/0",
            "command_topic": f"{DEVICE_TOPIC}/POS/0/set",
            "value_template": discovery.OPEN_CLOSED_OR_NONE_TEMPLATE, "position_topic": f"{DEVICE_TOPIC}/POS/0",
            "position_template": discovery.NUMBER_OR_NOTHING_TEMPLATE,
            "set_position_topic": f"{DEVICE_TOPIC}/POS/0/set",
            "position_open": 0, "position_closed": 100})

    def test_what_each_device_has(self):
        for eep in ["D5-00-01", "F6-02-01", "A5-FF-FF"]:
            self.check(eep, "sensor dbm", {
                "name": "Signal strength", "state_topic": f"{DEVICE_TOPIC}/dbm", "device_class": "signal_strength",
                "state_class": "measurement", "unit_of_measurement": "dBm", "entity_category": "diagnostic",
                "enabled_by_default": False})
            self.check(eep, "sensor last_seen", {
                "name": "Last seen", "state_topic": f"{DEVICE_TOPIC}/last_seen", "device_class": "timestamp",
                "entity_category": "diagnostic", "enabled_by_default": False})
        self.assertEqual(set(device_configs("A5-FF-FF")), {"sensor dbm", "sensor last_seen"})


class Devices(unittest.TestCase):
    """The messages of a device together."""

    def test_the_channels_of_an_actuator(self):
        expected_keys = {f"{kind}_{number}" for number in [0, 1] for kind in [
            "switch OV", "binary_sensor PF", "binary_sensor PFD", "binary_sensor OC", "sensor EL", "binary_sensor LC"]}
        expected_keys |= {"sensor dbm", "sensor last_seen"}
        self.assertEqual(set(device_configs("D2-01-12")), expected_keys)
        self.assertEqual(set(device_configs("D2-01-12", "IO", "OV", "OV/1", "MV_W/0", "MV", "dbm")),
                         expected_keys | {"sensor MV_W_0"})

    def test_channel_30_takes_no_command(self):
        config_keys = device_configs("D2-01-0F", "OV/30", "OV/29", "PF/30").keys()
        self.assertEqual({key for key in config_keys if key.startswith("switch")}, {"switch OV_0", "switch OV_29"})
        self.assertIn("binary_sensor PF_30", config_keys)

    def test_two_readings_of_one_entity(self):
        self.assertEqual(set(device_configs("A5-06-01", "ILL", "ILL1", "ILL2")),
                         {"sensor SVC", "sensor ILL", "sensor dbm", "sensor last_seen"})

    def test_every_message(self):
        for eep in ["D5-00-01", "F6-03-01", "A5-08-01", "A5-12-01", "D2-01-02", "D2-01-12", "D2-05-00"]:
            for key, config in device_configs(eep, expire_after=60).items():
                self.assertEqual((config["device"], config["origin"]), (device_about(eep), ORIGIN), key)
                if not key.startswith("device_automation"):
                    self.assertEqual({name: config[name] for name in MODULE_AVAILABILITY}, MODULE_AVAILABILITY, key)
                    self.assertEqual(config["unique_id"], f"enogate_hall_{DEVICE}_{key.split()[1]}")

    def test_names_of_gateway_and_device_in_topics(self):
        topics = Topics("roof", "ha/found")
        rows = TABLE.rows_of_profile("F6-01-01").values()
        messages = discovery.device_configs(topics, "0000000A", "0000000A", {}, rows, [], None)
        self.assertEqual(set(messages), {
            "ha/found/event/enogate_roof/0000000A_press/config", "ha/found/sensor/enogate_roof/0000000A_dbm/config",
            "ha/found/sensor/enogate_roof/0000000A_last_seen/config",
            "ha/found/device_automation/enogate_roof/0000000A_press_pressed/config",
            "ha/found/device_automation/enogate_roof/0000000A_press_released/config"})
        config = json.loads(messages["ha/found/event/enogate_roof/0000000A_press/config"])
        self.assertEqual((config["state_topic"], config["unique_id"], config["availability"]), (
            "enogate/roof/0000000A/press", "enogate_roof_0000000A_press",
            [{"topic": f"enogate/roof/{name}"} for name in ("status", "gateway", "module")]))

    def test_a_device_in_place_of_another_one(self):
        """The IDs of its entities are those of the other one; its topics and its number are its own."""
        device_about = discovery.device_description(TOPICS, DEVICE, "01800AC1", "D2-01-12", "Lamp", None)
        self.assertEqual((device_about["identifiers"], device_about["serial_number"]),
                         (["enogate_hall_01800AC1"], DEVICE))
        rows = TABLE.rows_of_profile("D2-01-12").values()
        messages = discovery.device_configs(TOPICS, DEVICE, "01800AC1", device_about, rows, [], None)
        self.assertEqual({topic.split("/")[3][:9] for topic in messages}, {"01800AC1_"})
        for topic, text in messages.items():
            config = json.loads(text)
            self.assertEqual(config["unique_id"], f"enogate_hall_{topic.split('/')[3]}")
            self.assertTrue(config["state_topic"].startswith(DEVICE_TOPIC), topic)
            self.assertTrue(config.get("command_topic", DEVICE_TOPIC).startswith(DEVICE_TOPIC), topic)

    def test_the_text_of_a_message(self):
        rows = TABLE.rows_of_profile("F6-01-01").values()
        messages = discovery.device_configs(TOPICS, DEVICE, DEVICE, {"name": 'Tür "A" \\'}, rows, [], None)
        self.assertEqual(
            messages[f"homeassistant/device_automation/enogate_hall/{DEVICE}_press_released/config"],
            '{"automation_type":"trigger","device":{"name":"Tür \\"A\\" \\\\"},'
            f'"origin":{{"name":"enogate-mqtt","sw":"{VERSION}"}},"payload":"released","subtype":"released",'
            f'"topic":"enogate/hall/{DEVICE}/press","type":"button_short_release",'
            '"value_template":"{{ value_json.event_type }}"}')


class ExpiryTimes(unittest.TestCase):
    """Which entities expire."""

    def expiry_times(self, eep: str, *subtopics: str) -> set[str]:
        times_by_key = {key: config["expire_after"]
                        for key, config in device_configs(eep, *subtopics, expire_after=7200).items()
                        if "expire_after" in config}
        self.assertEqual(set(times_by_key.values()) | {7200}, {7200})
        return set(times_by_key)

    def test_devices_that_send_at_intervals(self):
        self.assertEqual(self.expiry_times("D5-00-01"), {"binary_sensor CO"})
        self.assertEqual(self.expiry_times("A5-02-05"), {"sensor TMP"})
        self.assertEqual(self.expiry_times("A5-04-01"), {"sensor HUM", "sensor TMP"})
        self.assertEqual(self.expiry_times("A5-06-01"), {"sensor SVC", "sensor ILL"})
        self.assertEqual(self.expiry_times("A5-07-01"), {"sensor SVC", "binary_sensor PIRS"})
        self.assertEqual(self.expiry_times("A5-08-01"), {"sensor SVC", "sensor ILL", "sensor TMP", "binary_sensor PIRS",
                                                         "binary_sensor OCC"})
        self.assertEqual(self.expiry_times("A5-09-04"), {"sensor HUM", "sensor CONC", "sensor TMP"})
        self.assertEqual(self.expiry_times("A5-10-05"), {"sensor SP", "sensor TMP", "binary_sensor OCC"})

    def test_devices_that_do_not(self):
        for eep in ["F6-01-01", "F6-02-01", "F6-03-01", "A5-12-01", "A5-12-02", "A5-12-03", "D2-01-02", "D2-01-12",
                    "D2-05-00"]:
            self.assertEqual(self.expiry_times(eep, "MV_W/0", "MR_W/1"), set(), eep)

    def test_times_of_their_own(self):
        for eep, key, seconds in [("D5-00-01", "binary_sensor CO", 5400), ("A5-02-05", "sensor TMP", 3600),
                                  ("A5-07-01", "sensor SVC", 5400), ("A5-06-01", "sensor SVC", 3600)]:
            self.assertEqual(device_configs(eep, expire_after=AUTO)[key]["expire_after"], seconds, eep)
        for key, config in device_configs("D2-01-12", expire_after=AUTO).items():
            self.assertNotIn("expire_after", config, key)

    def test_without_a_time(self):
        for key, config in device_configs("A5-08-01", expire_after=None).items():
            self.assertNotIn("expire_after", config, key)


class DeviceTriggers(unittest.TestCase):
    """The device triggers of switches."""

    def triggers(self, eep: str) -> dict[str, dict]:
        return {key.split()[1]: config for key, config in device_configs(eep, expire_after=60).items()
                if key.startswith("device_automation")}

    def trigger(self, eep: str, word: str, kind: str) -> dict:
        return {
            "automation_type": "trigger", "type": kind, "subtype": word, "topic": f"{DEVICE_TOPIC}/press",
            "payload": word,
            "value_template": "{{ value_json.event_type }}", "device": device_about(eep), "origin": ORIGIN}

    def test_the_triggers_of_each_switch(self):
        for eep, words in [
            ("F6-01-01", ["pressed"]), ("F6-02-02", ["AI", "A0", "BI", "B0", "three_or_four"]),
            ("F6-03-02", ["AI", "A0", "BI", "B0", "CI", "C0", "DI", "D0"]),
        ]:
            expected_triggers = {f"press_{word}": self.trigger(eep, word, "button_short_press") for word in words}
            expected_triggers["press_released"] = self.trigger(eep, "released", "button_short_release")
            self.assertEqual(self.triggers(eep), expected_triggers, eep)

    def test_no_other_device_has_triggers(self):
        for eep in ["D5-00-01", "A5-08-01", "A5-10-05", "D2-01-12", "D2-05-00"]:
            self.assertEqual(self.triggers(eep), {}, eep)


class GatewayEntities(unittest.TestCase):
    """The entities of the gateway itself."""

    def setUp(self):
        self.maxDiff = None
        self.config_by_key = configs_of_messages(discovery.gateway_configs(TOPICS))

    def test_its_entities(self):
        device = {"identifiers": ["enogate_hall"], "name": "enogate hall", "model": "enogate", "sw_version": VERSION}
        self.assertEqual(set(self.config_by_key), {
            "binary_sensor status", "binary_sensor gateway", "binary_sensor module", "switch learn", "sensor readings",
            "sensor responses", "sensor teach", "sensor ignored", "sensor refused"})
        for key, config in self.config_by_key.items():
            self.assertEqual((config.pop("device"), config.pop("origin")), (device, ORIGIN), key)
            self.assertEqual(config.pop("unique_id"), f"enogate_hall_{key.split()[1]}")

    def check(self, key: str, expected_config: dict):
        own_members = {name: member for name, member in self.config_by_key[key].items()
                       if name not in ("device", "origin", "unique_id")}
        self.assertEqual(own_members, expected_config)

    def test_what_is_connected(self):
        for name, title, available in [("status", "Bridge", {}), ("gateway", "Gateway", BRIDGE_AVAILABILITY),
                                       ("module", "Radio module", BRIDGE_AVAILABILITY)]:
            self.check(f"binary_sensor {name}", {
                "name": title, "state_topic": f"enogate/hall/{name}", "device_class": "connectivity",
                "payload_on": "online", "payload_off": "offline", "entity_category": "diagnostic", **available})

    def test_its_counters(self):
        for name, title in [
            ("readings", "Readings"), ("responses", "Module responses"), ("teach", "Teach-in telegrams"),
            ("ignored", "Ignored packets"), ("refused", "Refused packets and orders"),
        ]:
            self.check(f"sensor {name}", {
                "name": title, "state_topic": "enogate/hall/counters", "state_class": "total_increasing",
                "value_template": f"{{{{ value_json.{name} }}}}", "entity_category": "diagnostic",
                "enabled_by_default": False, **GATEWAY_AVAILABILITY})

    def test_the_learn_window(self):
        self.check("switch learn", {
            "name": "Learn window", "state_topic": "enogate/hall/learn", "command_topic": "enogate/hall/learn/set",
            "icon": "mdi:access-point-plus", "entity_category": "config", **GATEWAY_AVAILABILITY})


class Descriptions(unittest.TestCase):
    """The description of a device."""

    def test_a_device(self):
        self.assertEqual(device_about("D2-01-12"), {
            "identifiers": ["enogate_hall_01800ABC"], "name": "D2-01-12 01800ABC",
            "model": "Electronic switch, 2 channels (D2-01-12)", "serial_number": "01800ABC",
            "via_device": "enogate_hall"})

    def test_its_label(self):
        for label in ["Front door", 'Meter "A" \\', "Tür", "{{ 1 }}"]:
            self.assertEqual(device_about("D5-00-01", label)["name"], label)
            self.assertEqual(device_about("D5-00-01", label)["serial_number"], "01800ABC")
            rows = TABLE.rows_of_profile("D5-00-01").values()
            messages = discovery.device_configs(TOPICS, DEVICE, DEVICE, device_about("D5-00-01", label), rows, [], None)
            for text in messages.values():
                self.assertEqual(json.loads(text)["device"]["name"], label)
                self.assertNotIn("\n", text)

    def test_models(self):
        for eep, kind in [
            ("F6-01-01", "Push button"), ("F6-02-01", "Rocker switch, 2 rockers"),
            ("F6-02-02", "Rocker switch, 2 rockers"), ("F6-03-02", "Rocker switch, 4 rockers"), ("D5-00-01", "Contact"),
            ("A5-02-30", "Temperature sensor"), ("A5-04-02", "Temperature and humidity sensor"),
            ("A5-06-01", "Light sensor"), ("A5-07-01", "Motion sensor"),
            ("A5-08-03", "Light, temperature and motion sensor"),
            ("A5-09-04", "Carbon dioxide, humidity and temperature sensor"), ("A5-10-03", "Room operating panel"),
            ("A5-12-01", "Electricity meter"), ("A5-12-02", "Gas meter"), ("A5-12-03", "Water meter"),
            ("D2-01-00", "Electronic switch, 1 channel"), ("D2-01-0F", "Electronic switch, 1 channel"),
            ("D2-01-10", "Electronic switch, 2 channels"), ("D2-05-00", "Blind control"),
        ]:
            self.assertEqual(device_about(eep)["model"], f"{kind} ({eep})")
        self.assertEqual(device_about("A5-FF-FF")["model"], "A5-FF-FF")

    def test_models_of_actuators_are_those_of_their_entities(self):
        for number in range(0x13):
            eep = f"D2-01-{number:02X}"
            rows = TABLE.rows_of_profile(eep)
            kind = {"light": "Dimmer", "switch": "Electronic switch"}[rows["OV", "%"].entity]
            channels = {1: "1 channel", 2: "2 channels"}[rows["OV", "%"].count]
            self.assertEqual(device_about(eep)["model"], f"{kind}, {channels} ({eep})")

    def test_manufacturers(self):
        self.assertNotIn("manufacturer", device_about("D5-00-01"))
        for maker, name in [
            (0x001, "PEHA"), (0x00D, "Eltako"), (70, "NodOn (ID-RF)"), (0, "EnOcean manufacturer ID 0"),
            (2047, "EnOcean manufacturer ID 2047"), (1999, "EnOcean manufacturer ID 1999"),
        ]:
            self.assertEqual(device_about("D5-00-01", maker=maker)["manufacturer"], name)

    def test_the_table_of_manufacturers(self):
        rows = list(share.table_lines("manufacturers"))
        for row in rows:
            self.assertRegex(row, r"^[0-7][0-9A-F]{2}\t\S[^\t]*\S$")
        manufacturer_ids = [row[:3] for row in rows]
        self.assertEqual(manufacturer_ids, sorted(set(manufacturer_ids)))
        self.assertEqual(len({row[4:] for row in rows}), len(rows))
        self.assertLess(int(manufacturer_ids[-1], 16), 2047)


class Templates(unittest.TestCase):
    """What Home Assistant makes of values and of words."""

    def check(self, template: str, expected_results: dict[str, str]):
        self.assertEqual({template_value: rendered_template(template, template_value)
                          for template_value in expected_results},
                         expected_results)

    def test_a_number(self):
        unchanged_values = {template_value: template_value for template_value in ["0", "20.0784", "-40", "4294967295"]}
        self.check(discovery.NUMBER_OR_NONE_TEMPLATE, {**unchanged_values, "unknown": "None", "out_of_range": "None"})
        self.check(discovery.NUMBER_OR_NOTHING_TEMPLATE, {**unchanged_values, "unknown": "", "out_of_range": ""})

    def test_a_switch(self):
        self.check(discovery.ON_OFF_OR_NONE_TEMPLATE, {
            "0": "OFF", "1": "ON", "100": "ON", "not_applicable": "None", "out_of_range": "None"})

    def test_a_cover(self):
        self.check(discovery.OPEN_CLOSED_OR_NONE_TEMPLATE, {
            "0": "open", "99": "open", "100": "closed", "unknown": "None", "out_of_range": "None"})


class KnownComponents(unittest.TestCase):
    def test_those_of_the_table(self):
        self.assertEqual({row.entity for row in TABLE.rows}, {*discovery.CONFIG_BY_COMPONENT, ""})


class Manufacturers(unittest.TestCase):
    def test_some_that_everybody_knows(self):
        for maker, name in (
            (0x001, "PEHA"), (0x002, "Thermokon"), (0x003, "Servodan"), (0x004, "Echoflex Solutions"), (0x005, None),
            (0x009, "Distech Controls"), (0x00A, "Kieback&Peter"), (0x00B, "EnOcean"), (0x00D, "Eltako"),
            (0x00E, "Leviton"), (0x00F, "Honeywell"), (0x010, "Spartan Peripheral Devices"), (0x011, "Siemens"),
            (0x014, "Elsner Elektronik"), (0x015, "Diehl Controls"), (0x016, "BSC Computer"),
            (0x019, "Intesis Software"), (0x01A, "Viessmann"), (0x01D, "Sauter"), (0x01F, "Osram Sylvania"),
            (0x021, "Delta Controls"), (0x023, "NanoSense"), (0x027, "Maico"), (0x029, "Magnum Energy Solutions"),
            (0x02D, "Afriso-Euro-Index"), (0x033, "Permundo"), (0x034, "Eurotronic Technology"),
            (0x03C, "Pressac Communications"), (0x040, "Jäger Direkt"), (0x046, "NodOn (ID-RF)"), (0x049, "Micropelt"),
            (0x04A, "Caleffi"), (0x053, "Oventrop"), (0x05C, "Hoppe"), (0x05D, "Siegenia-Aubi"), (0x7FF, None),
        ):
            with self.subTest(maker):
                manufacturer = discovery.device_description(TOPICS, DEVICE, DEVICE, "D5-00-01", "",
                                                            maker)["manufacturer"]
                self.assertEqual(manufacturer, name or f"EnOcean manufacturer ID {maker}")


if __name__ == "__main__":
    unittest.main()
