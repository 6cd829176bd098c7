"""Compares what the broker retains with what it should retain, device by device: a broker drops what does not fit into
the queue of a client, so it is never asked for everything at once."""
from __future__ import annotations

from collections import deque
from collections.abc import Callable, Collection, Iterable
from typing import Protocol

# So many devices are compared at the same time.
MAX_PARTS = 8
# A part is over after so many seconds without a message or an answer of the broker.
QUIET_SECONDS = 5.0
# So many topics that nobody knows are noted per part; a flood of them is not stored.
MAX_UNKNOWN = 1000


class RequestingConnection(Protocol):
    """What is needed of a connection."""
    unanswered_numbers: set[int]

    def request_retained(self, filters: list[str]) -> int: ...

    def cancel_request(self, filters: list[str]) -> int: ...


class Part:
    """A set of filters that is compared at once, with the messages that the broker retains for them. A large part, for
    which the broker may retain anything, is compared alone; of what it retains, messages that are expected are always
    noted."""

    def __init__(self, name: str, filters: list[str], is_large: bool = False, expected_topics: Collection[str] = ()):
        self.name, self.filters, self.is_large = name, filters, is_large
        self.exact_topics = {topic_filter for topic_filter in filters if "+" not in topic_filter}
        self.expected_topics = expected_topics
        self.unexpected_count = 0
        # the other filters, each as the text before its first wildcard and its levels
        self.wildcard_filters = [(topic_filter.partition("+")[0], topic_filter.split("/"))
                                 for topic_filter in filters if "+" in topic_filter]
        self.retained: dict[str, str] = {}
        # what the bridge has published since the request: an older message may still be under way
        self.published_topics: set[str] = set()
        self.request_number, self.is_cancelled = -1, False

    def has_topic(self, topic: str) -> bool:
        return topic in self.exact_topics or self.has_wildcard_topic(topic)

    def has_wildcard_topic(self, topic: str) -> bool:
        """Whether a filter with a wildcard matches a topic."""
        for start, levels in self.wildcard_filters:
            if topic.startswith(start) and is_match(levels, topic):
                return True
        return False

    def note_retained(self, topic: str, text: str) -> None:
        """A retained message has arrived."""
        if topic in self.published_topics:
            return
        is_expected = topic in self.exact_topics or topic in self.expected_topics or topic in self.retained
        self.unexpected_count += not is_expected
        if is_expected or self.unexpected_count <= MAX_UNKNOWN:
            self.retained[topic] = text


def is_match(levels: list[str], topic: str) -> bool:
    """Whether a topic matches the filter with these levels."""
    words = topic.split("/")
    return len(words) == len(levels) and all(level in ("+", word) for level, word in zip(levels, words))


class Reconciler:
    """Asks the broker for what it retains, in parts. `compare` gets each part when it is complete."""

    def __init__(self, clock: Callable[[], float], compare: Callable[[Part], None]):
        self.clock, self.compare = clock, compare
        self.waiting_parts: deque[Part] = deque()
        self.active_parts: list[Part] = []
        self.last_message_at = clock()

    def add(self, parts: Iterable[Part]) -> None:
        self.waiting_parts.extend(parts)

    @property
    def is_done(self) -> bool:
        return not self.waiting_parts and not self.active_parts

    def handle_retained(self, topic: str, text: str) -> None:
        """Handles a retained message."""
        self.last_message_at = self.clock()
        # most topics are in a filter as they are, and no other part has the same
        for part in ([part for part in self.active_parts if topic in part.exact_topics]
                     or [part for part in self.active_parts if part.has_wildcard_topic(topic)]):
            part.note_retained(topic, text)

    def note_published(self, topic: str, text: str) -> None:
        """The bridge has published a retained message."""
        for part in self.active_parts:
            if part.has_topic(topic):
                part.published_topics.add(topic)
                part.retained[topic] = text

    def turn(self, connection: RequestingConnection) -> None:
        """Starts parts, and compares those that are complete."""
        for part in list(self.active_parts):
            self.advance(part, connection)
        while self.waiting_parts and self.has_room(self.waiting_parts[0]):
            part = self.waiting_parts.popleft()
            part.request_number = connection.request_retained(part.filters)
            self.active_parts.append(part)
            self.last_message_at = self.clock()

    def has_room(self, part: Part) -> bool:
        """Whether this part may be started now."""
        if part.is_large or any(active_part.is_large for active_part in self.active_parts):
            return not self.active_parts
        return len(self.active_parts) < MAX_PARTS

    def advance(self, part: Part, connection: RequestingConnection) -> None:
        """What is retained comes before the answer to the request, or before the answer to its cancellation."""
        is_answered = part.request_number not in connection.unanswered_numbers
        if is_answered:
            self.last_message_at = self.clock()
        if not is_answered and self.clock() < self.last_message_at + QUIET_SECONDS:
            return
        if not part.is_cancelled:
            part.request_number, part.is_cancelled = connection.cancel_request(part.filters), True
            self.last_message_at = self.clock()
            return
        self.active_parts.remove(part)
        self.compare(part)

