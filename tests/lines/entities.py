"""Compares the table of entities with the profiles of tests/oracle/profiles.py, and prints what is wrong. Each
reading of each profile has a line, each line is for a reading, with the words that the profile has for it, and Home
Assistant knows what a line declares. It reads the table with code of its own.

    PYTHONPATH=tests tests/lines/entities.py contrib/share/entities
"""
import fnmatch
import shlex
import sys
from fractions import Fraction

from oracle.profiles import (
    ACTUATOR_STATE_FIELDS,
    BLIND_STATE_FIELDS,
    FOUR_BYTE_PROFILES,
    METER_READING_FIELDS,
    SWITCH_PROFILES,
    VARIABLE_LENGTH_PROFILES,
)

# The units and the state classes that Home Assistant allows for a device class, and how it writes units of profiles.
MEASURED_STATES, COUNTED_STATES = {"measurement"}, {"total", "total_increasing"}
SENSOR_CLASSES = {
    "temperature": ({"°C"}, MEASURED_STATES), "humidity": ({"%"}, MEASURED_STATES),
    "illuminance": ({"lx"}, MEASURED_STATES), "voltage": ({"V"}, MEASURED_STATES),
    "carbon_dioxide": ({"ppm"}, MEASURED_STATES), "power": ({"W", "kW"}, MEASURED_STATES),
    "energy": ({"Wh", "kWh"}, COUNTED_STATES), "gas": ({"m³"}, COUNTED_STATES), "water": ({"m³"}, COUNTED_STATES),
}
UNITS_AS_WRITTEN = {"C": "°C", "m3": "m³", "l/s": "L/s"}
CLASSES_BY_COMPONENT = {
    "sensor": {*SENSOR_CLASSES, None}, "binary_sensor": {"opening", "motion", "problem", None}, "event": {"button"},
    "switch": {None}, "light": {None}, "cover": {"blind"}, "-": {None},
}
# The words for the page and enogatectl, and those for Home Assistant.
KEYS_FOR_PEOPLE = {"say", "normal", "detail"}
ROW_KEYS = {"class", "state", "unit", "digits", "on", "off", "options", "types", "diagnostic", "hidden", "cyclic",
            *KEYS_FOR_PEOPLE}

# The units of values that only grow: meters and actuators count them. All other values go up and down.
GROWING_UNITS = {"Ws", "Wh", "kWh", "m3"}
# The words of switches that are neither a press nor a release: EB reports a press beside its rocker.
WORDS_WITHOUT_EVENT = {("EB", "pressed"), ("buttons", "none")}
# D2-01 of EnOcean Equipment Profiles 2.6: the types that dim, and those with two channels. The others have one.
DIMMING_TYPES = {"02", "03", "04", "05", "09"}
TWO_CHANNEL_TYPES = {"10", "11", "12"}
# Of these profiles the device chooses the resolution: at most so many digits after the point.
MAX_CHOSEN_DIGITS = {"A5-12": 3}
# The profiles of devices that send at intervals.
CYCLIC_PROFILES = {"D5-00", "A5-02", "A5-04", "A5-06", "A5-07", "A5-08", "A5-09", "A5-10"}
# The reading that drives an actuator, and the number in a reading of a channel or a tariff.
DRIVING_READINGS = {"D2-01": "OV", "D2-05": "POS"}
NUMBER_READINGS = {"A5-12": "TI", "D2-01": "IO", "D2-05": "CHN"}


def rows_by_profile():
    """The rows of each profile."""
    yield from SWITCH_PROFILES.items()
    yield from FOUR_BYTE_PROFILES.items()
    for eep in VARIABLE_LENGTH_PROFILES:
        yield eep, BLIND_STATE_FIELDS if eep == "D2-05-00" else ACTUATOR_STATE_FIELDS + METER_READING_FIELDS


def values_of_row(decoder, length):
    """The values of a row that are numbers, by ascending raw number."""
    readings = [decoder(number, "0" * 64) for number in range(2 ** min(length, 10))]
    return [Fraction(reading["num"], reading["den"]) if "num" in reading else Fraction(reading["raw"])
            for reading in readings
            if "num" in reading or "raw" in reading]


def fewest_decimals(eep, name, unit):
    """The fewest digits after the point with which adjacent raw numbers look different."""
    decoders = [(decoder, length) for profile, rows in rows_by_profile() if profile == eep
                for row, _offset, length, _condition, decoder in rows
                if row == name and unit in units_and_words(decoder, length)[0] | {"-"}]
    values = [value for decoder, length in decoders[:1] for value in values_of_row(decoder, length)]
    return next(digits for digits in range(10) if all(
        f"{float(value_text):.{digits}f}" != f"{float(next_value):.{digits}f}"
        for value_text, next_value in zip(values, values[1:])))


def units_and_words(decoder, length):
    """The units and the words of a row, and whether it has numbers without a unit."""
    units, words, is_plain = set(), set(), False
    for number in range(2 ** length) if length <= 10 else [0, 1]:
        reading = decoder(number, "0" * 64)
        units |= {reading["unit"]} if "unit" in reading else set()
        words |= {reading["word"]} if "word" in reading else set()
        is_plain |= "raw" in reading or "out_of_range" in reading and not units
    return units, words, is_plain


def words_by_reading():
    """Each reading of each profile: (profile, name, unit), with its words. A word beside values has their unit."""
    words_of_readings = {}
    for eep, rows in rows_by_profile():
        for name, _offset, length, _condition, kind in rows:
            units, words, is_plain = units_and_words(kind, length)
            for unit in units or {"-"}:
                words_of_readings.setdefault((eep, name, unit),
                                             set()).update(words or ({"0", "1"} if is_plain else set()))
    return words_of_readings


def is_line_of(line, reading):
    return fnmatch.fnmatchcase(reading[0], line[0]) and tuple(line[1:3]) == reading[1:]


def driving_component(reading):
    """The kind of entity that drives an actuator by this reading, or None."""
    eep, name, _unit = reading
    if DRIVING_READINGS.get(eep[:5]) != name:
        return None
    return "cover" if eep[:5] == "D2-05" else "light" if eep[6:] in DIMMING_TYPES else "switch"


def numbers_text(reading):
    """How the numbers of the entities of a reading are written in a line. What an actuator measures has no entity
    before it is reported."""
    eep, name, _unit = reading
    if eep[:5] not in NUMBER_READINGS:
        return "-"
    count = 2 if eep[:5] == "D2-01" and eep[6:] in TWO_CHANNEL_TYPES else 1
    return f"{NUMBER_READINGS[eep[:5]]}{'?' if name == 'MV' else ':'}{count}"


def faults_of_words(entity, config, reading, words):
    """The faults in the words that a line has for those of its reading."""
    own_words = {config[key] for key in ("on", "off") if key in config}
    own_words |= set("|".join(config[key] for key in ("options", "types") if key in config).split("|")) - {""}
    if entity == "event":
        words = {word for word in words if (reading[1], word) not in WORDS_WITHOUT_EVENT}
    has_words = entity in ("event", "binary_sensor") or "options" in config
    if own_words != (words if has_words else set()):
        yield "other words"
    if entity == "binary_sensor" and not {"on", "off"} <= config.keys():
        yield "a binary sensor without its two words"
    if not config.keys() <= ROW_KEYS or "unit" in config and entity != "sensor":
        yield "a word that an entity of this kind has not"


def faults_of_sensor(config, unit):
    """The faults of a sensor for values of this unit."""
    shown_unit = UNITS_AS_WRITTEN.get(unit, unit)
    units, states = SENSOR_CLASSES.get(config.get("class"), ({shown_unit}, MEASURED_STATES | COUNTED_STATES))
    state = config.get("state")
    if config.get("unit", "-") != shown_unit or shown_unit not in units:
        yield "another unit"
    if unit != "-" and state != ("total_increasing" if unit in GROWING_UNITS else "measurement"):
        yield "another state class"
    if state not in {*states, None}:
        yield "a state class that its class has not"
    if "class" not in config and shown_unit != "%" and any(shown_unit in units for units, _ in SENSOR_CLASSES.values()):
        yield "no class"


def faults_of_digits(entity, config, reading):
    """The faults in how many digits of a number are shown."""
    if (entity == "sensor" and ("unit" in config or "state" in config)) != ("digits" in config):
        yield "digits without a number, or the other way round"
    elif "digits" in config and reading[0][:5] in MAX_CHOSEN_DIGITS:
        if not 0 <= int(config["digits"]) <= MAX_CHOSEN_DIGITS[reading[0][:5]]:
            yield "too many digits"
    elif "digits" in config and int(config["digits"]) != fewest_decimals(*reading):
        yield f"{config['digits']} digits, and not {fewest_decimals(*reading)}"


def faults_of(line, reading, words):
    """The faults of a line for this reading."""
    _profiles, _name, unit, topic, channel_reading, entity, title, *config_words = line
    config_words = dict(word.partition("=")[::2] for word in config_words)
    if config_words.get("class") not in CLASSES_BY_COMPONENT[entity]:
        yield "an unknown class"
    if (entity == "-") != (topic == "-") or entity == "-" and (channel_reading != "-"
                                                               or config_words.keys() - KEYS_FOR_PEOPLE):
        yield "a topic without an entity, or the other way round"
    if title == "-" and "say" not in config_words:
        yield "no name for people"
    if not set(config_words.get("normal", "0").split("|")) <= {*words, "0"}:
        yield "a normal value that it has not"
    yield from faults_of_words(entity, config_words, reading, words)
    yield from faults_of_digits(entity, config_words, reading)
    if entity == "sensor":
        yield from faults_of_sensor(config_words, unit)
    driving = driving_component(reading)
    if driving not in (None, entity) or entity in ("switch", "light", "cover") and not driving:
        yield "an entity of another kind"
    if entity != "-" and channel_reading != numbers_text(reading):
        yield "other numbers"
    if (title == "-") != (entity == "-" or driving_component(reading) is not None
                          and not channel_reading.endswith("2")):
        yield "a name that it has not, or none"
    if ("cyclic" in config_words) != (entity != "-" and reading[0][:5] in CYCLIC_PROFILES):
        yield "it is cyclic and the device not, or the other way round"
    if not 100 <= int(config_words.get("cyclic", 100)) <= 1800:
        yield "a device that sends at another interval"


def main():
    with open(sys.argv[1], encoding="utf-8") as file:
        lines = [shlex.split(line, comments=True) for line in file]
    lines, used_lines, wrong_lines = [line for line in lines if line], set(), []
    words_of_readings = words_by_reading()
    for reading, words in words_of_readings.items():
        line = next((line for line in lines if is_line_of(line, reading)), None)
        if line is None:
            wrong_lines.append(f"{reading} has no line")
            continue
        used_lines.add(lines.index(line))
        wrong_lines += [f"{reading}: {fault}" for fault in faults_of(line, reading, words)]
    wrong_lines += [f"{line[:3]} is for no reading" for number, line in enumerate(lines) if number not in used_lines]
    if len(words_of_readings) < 357:
        wrong_lines.append(f"the profiles have {len(words_of_readings)} readings alone")
    print(*wrong_lines, sep="\n", end="\n" if wrong_lines else "")
    sys.exit(bool(wrong_lines))


main()
