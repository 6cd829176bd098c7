"""Metrics in the text format of Prometheus."""
from __future__ import annotations

from collections.abc import Iterable, Iterator, Mapping
from typing import NamedTuple

from enogate_tools import VERSION

from .gateway import GatewayState

# The names of the metrics, with their types and what they mean.
METRICS = {
    "enogate_info": ("gauge", "The version of enogate, and the base ID of the radio module, if it is known."),
    "enogate_unit_active": ("gauge", "Whether the unit of the gateway is active (1) or not (0)."),
    "enogate_stick_present": ("gauge", "Whether the serial port of the gateway exists (1) or not (0)."),
    "enogate_last_telegram_timestamp_seconds": ("gauge", "When the last telegram of a learned device was received."),
    "enogate_devices_learned": ("gauge", "How many devices are learned."),
    "enogate_devices_heard": ("gauge", "How many devices were heard, and are not silent."),
    "enogate_devices_silent": ("gauge", "How many devices have sent nothing for three times their usual interval."),
    "enogate_devices_weak": ("gauge", "How many devices have a weak signal."),
    "enogate_devices_low_battery": ("gauge", "How many devices have reported a low supply voltage."),
    "enogate_packets_total": ("counter", "The counters of the last status line, since the start of the gateway."),
    "enogate_free_bytes": ("gauge", "How many bytes are free in the file systems of the lines and the database."),
}


class Sample(NamedTuple):
    """A value of a metric, with its labels."""
    metric: str
    labels: Mapping[str, str]
    value: float | None


def samples_of(state: GatewayState) -> Iterator[Sample]:
    """The values for a gateway; None for those that are not known."""
    gateway, health = {"gateway": state.name}, state.health
    yield Sample("enogate_info", {**gateway, "version": VERSION, **({"base_id": state.base} if state.base else {})}, 1)
    yield Sample("enogate_unit_active", gateway, state.is_active)
    yield Sample("enogate_stick_present", gateway, state.has_stick)
    yield Sample("enogate_devices_learned", gateway, state.learned_count)
    if health:
        yield Sample("enogate_devices_weak", gateway, len(health.weak))
        yield Sample("enogate_devices_low_battery", gateway, len(health.low_battery))
    if health and state.has_times:
        yield Sample("enogate_last_telegram_timestamp_seconds", gateway, health.last_telegram)
        yield Sample("enogate_devices_heard", gateway, len(health.heard))
        yield Sample("enogate_devices_silent", gateway, len(health.silent))
    for kind, count in sorted(state.counters.items()):
        yield Sample("enogate_packets_total", {**gateway, "kind": kind}, count)
    for use, size in sorted(state.free_bytes.items()):
        yield Sample("enogate_free_bytes", {**gateway, "of": use}, size)


def exposition(states: Iterable[GatewayState]) -> str:
    """The metrics of these gateways. All values of a metric follow each other."""
    samples = [sample for state in states for sample in samples_of(state) if sample.value is not None]
    lines = []
    for metric, (metric_type, help_text) in METRICS.items():
        if sample_lines := [sample_line(sample) for sample in samples if sample.metric == metric]:
            lines += [f"# HELP {metric} {help_text}", f"# TYPE {metric} {metric_type}", *sample_lines]
    return "".join(f"{line}\n" for line in lines)


def sample_line(sample: Sample) -> str:
    """A sample as a line. A value that is a whole number has no exponent."""
    labels = ",".join(f'{name}="{escaped(value)}"' for name, value in sample.labels.items())
    value = sample.value or 0
    return f"{sample.metric}{{{labels}}} {int(value) if value == int(value) else value}"


def escaped(text: str) -> str:
    """The value of a label, as it stands between quotation marks."""
    return text.replace("\\", r"\\").replace("\n", r"\n").replace('"', r"\"")
