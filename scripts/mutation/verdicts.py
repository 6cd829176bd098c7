"""What a check printed: a line for each function, and the verdict on the crate."""
import enum
import re

FUNCTION_LINE_PATTERN = re.compile(r"^fn (\S+): (.*)$", re.M)
LIMIT_MESSAGE_PATTERN = re.compile(
    r"antt ran out of (stack|the (steps|memory)\b)|(outgrew the memory limit|stopped at the step limit) \("
)
# (a mutant that only makes a statement false causes none of these)
UNREADABLE_MESSAGE_PATTERN = re.compile(
    r"is not in scope|has no field|is no name|operand is missing|expected the end|cannot continue"
)
STALE_MESSAGE_PATTERN = re.compile(r"Run the lower steps again")
# (the reasons why a function has no proof although its own does not fail: it uses another one without a proof)
CALLEE_REASON_PATTERN = re.compile(r"it calls|it passes|a call of")


class Outcome(enum.Enum):
    REFUSED_AT_OWN_FUNCTION = "refused at its own function"
    REFUSED_ALONE = "refused alone, at other functions or statements"
    REFUSED_BY_LIMIT = "refused by a limit of the prover"
    NOT_REFUSED = "NOT REFUSED"
    UNUSABLE = "CANNOT BE APPLIED"
    NOT_REPORTED = "ITS FUNCTION IS NOT REPORTED"
    NO_RESULT = "NO RESULT"

    @property
    def is_refusal(self):
        return self in (Outcome.REFUSED_AT_OWN_FUNCTION, Outcome.REFUSED_ALONE, Outcome.REFUSED_BY_LIMIT)


# How the last line of the output begins if a check of all functions, or of some, refused one.
REFUSAL_ENDS = ("logic=not-proved", "only=")


class CheckReport:
    """One check: its exit status, its output, and the paths of the files that were edited for it."""

    def __init__(self, status, output, edited_paths=()):
        self.status, self.output, self.edited_paths = status, output, edited_paths
        self.last_line = output.rstrip("\n").rpartition("\n")[2]
        self.functions = dict(FUNCTION_LINE_PATTERN.findall(output))

    @property
    def refused(self):
        """The functions whose own proofs fail. One that only calls such a function is not among them."""
        return [name for name, text in self.functions.items() if is_own_refusal(text)]

    @property
    def has_verdict(self):
        """Whether the check came to a verdict. Otherwise its lines do not decide about a mutant."""
        if self.status == 0:
            return not self.refused
        return (self.status == 1 and self.last_line.startswith(REFUSAL_ENDS)
                and not STALE_MESSAGE_PATTERN.search(self.output))

    def is_proved(self, names):
        return all(self.functions.get(name) == "proved" for name in names)

    @property
    def unreadable(self):
        """The first message that the prover cannot read a text of src/, specs/ or an edited file, or ""."""
        for line in self.output.split("\n"):
            match = re.match(r"(?:\./)?(\S+?):\d+:\d+: error: (`[^`]*`: )?(.*)", line)
            if not match or not match[1].startswith(("src/", "specs/")) and match[1] not in self.edited_paths:
                continue
            if not match[2] or UNREADABLE_MESSAGE_PATTERN.search(re.sub(r"`[^`]*`", "", match[3])):
                return line[:160]
        return ""

    @property
    def first_error(self):
        lines = self.output.rstrip("\n").split("\n")
        return next((line for line in lines if re.match(r"\S+:\d+:\d+: error|error", line)), lines[-1])[:160]

    def outcome(self, names):
        """The outcome for a mutant that was checked by itself, and the function or text that shows it.

        `names` are those of the function that it changes."""
        if STALE_MESSAGE_PATTERN.search(self.output):
            return Outcome.NO_RESULT, "the kept work of a library could not be used"
        if self.status == 1 and self.unreadable:
            return Outcome.UNUSABLE, self.unreadable
        if self.status == 1 and self.last_line.startswith(REFUSAL_ENDS):
            refused_names = [name for name in names if name in self.refused]
            return (Outcome.REFUSED_AT_OWN_FUNCTION,
                    refused_names[0]) if refused_names else (Outcome.REFUSED_ALONE, ", ".join(self.refused[:3])
                                                                          or self.first_error)
        if self.status == 0:
            return Outcome.NOT_REFUSED, names[0] if names else ""
        if self.status == 3 and LIMIT_MESSAGE_PATTERN.search(self.output):
            return Outcome.REFUSED_BY_LIMIT, self.first_error
        if self.status == 1:
            return Outcome.UNUSABLE, self.first_error
        return Outcome.NO_RESULT, f"status {self.status}: {self.first_error}"


def is_own_refusal(text):
    return text == "not proved" or text.startswith("no proof") and not CALLEE_REASON_PATTERN.search(text)
