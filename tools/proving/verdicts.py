"""Reads what a check of a crate with edits says, and decides which functions were refused for a reason of their own."""
import re

from .edits import lines_of
from .kit import rt, rtlib
from .twins import proof_folder

# A line about an item, and a line about a place in a file.
ITEM = re.compile(r"(?:fn|struct|enum|impl|trait|closure|union|type|const|static|mod) (\S+): (.*)")
PLACE = re.compile(r"(?:(note|warning|help): )?(?:\./)?((?:src|specs|proofs)/\S+?):(\d+):\d+: (.*)")
# A line about a place that the front end refuses. No proof is tried then.
FRONT_END = re.compile(r"(?:\./)?(src/\S+?):(\d+):\d+: error\[")
# How a message begins that says that a record has no field of a name. If it is long, the first line ends behind the
# record, or behind the names of fields that are nearest.
OF_A_RECORD = r"error: (?:`[^`]*`: )?record `"
# What says that a proof file names what went, and not that a goal is false.
NAME_IS_GONE = re.compile(
    rf"has no field|is not in scope|has no `|is no name|was not admitted|\(nearest: |{OF_A_RECORD}[^`]*`$"
)
# A line that may say this, or that is cut off before it says what is wrong.
MAY_LACK_A_FIELD = re.compile(rf"{OF_A_RECORD}|error: `[^`]*`?:? ?\w*$")
# What the line of a function says, if the function has a loop without a measure, and nothing else is known of its
# proof.
LACKS_A_MEASURE = re.compile(r"no proof: expected a measure in (?:\./)?(proofs/\S+)/Invariants\.antt")
# What a line says of an item that isn't proved since another one isn't, or that wasn't tried.
IS_ABOUT_OTHERS = re.compile(r"waits? for|has not tried")


class Reading:
    """What a check said: a line for each item, and the places of errors and of goals that aren't proved."""

    def __init__(self, status, text):
        self.status, self.lines = status, text.rstrip("\n").split("\n")
        self.items, self.places = {}, []
        for line in self.lines:
            item, place = ITEM.fullmatch(line), PLACE.match(line)
            if item:
                self.items.setdefault(item[1], item[2])
            elif place and self.is_refusal(place[1], place[2], place[4]):
                self.places.append((place[2], int(place[3]), line))

    def unread_places(self):
        """Returns the places that the front end refuses, each as a file and a line."""
        return [(at[1], int(at[2])) for at in map(FRONT_END.match, self.lines) if at]

    @staticmethod
    def is_refusal(kind, file, said):
        """Returns whether a line about a place says that something is refused there."""
        is_open_goal = kind == "note" and file.startswith("src/") and "it is not proved that" in said
        return said.startswith("error: ") or is_open_goal

    def why_no_verdict(self):
        """Returns why the check has no verdict on any function, or nothing."""
        unread = next((line for line in self.lines if rt.unread(line, ())), "")
        stale = next((line for line in self.lines if rtlib.STALE.search(line)), "")
        is_ended = self.status in (0, 1) and self.lines[-1].startswith("only=")
        return unread or stale or ("" if is_ended else f"status {self.status}: {self.lines[-1]}")


class Judge:
    """Judges twins, or functions edited in place, by what a check said of the text that has them, given the functions
    of that text."""

    def __init__(self, reading, tried, functions, sources):
        self.reading, self.tried = reading, tried
        place = {function.name: function for function in functions}
        self.lines = {it: lines_of(place[it.name], sources[it.function.file]) for it in tried}

    def unread_edits(self):
        """Returns the edits in whose functions the front end refuses a place."""
        places = self.reading.unread_places()
        is_in = lambda it, file, line: file == it.function.file and self.lines[it][0] <= line <= self.lines[it][1]
        return {it.edit for it in self.tried if it.edit and any(is_in(it, *place) for place in places)}

    def is_about(self, it, name):
        """Returns whether an item is a function that is tried, or is inside it, as a closure is."""
        return re.search(rf"(?<!\w){re.escape(it.short)}(?!\w)", name) is not None

    def refusals(self, it):
        """Returns the lines about places in a function, or in its own proof files."""
        first, last = self.lines[it]
        folder = f"{proof_folder(it.name)}/"
        is_own = lambda file, line: file == it.function.file and first <= line <= last or file.startswith(folder)
        return [said for file, line, said in self.reading.places if is_own(file, line)]

    def why_spoiled(self):
        """Returns what is refused in no function that is tried, if anything: then the check decides nothing."""
        own = {said for it in self.tried for said in self.refusals(it)}
        place = next((said for _, _, said in self.reading.places if said not in own), "")
        is_tried = lambda name: any(self.is_about(it, name) for it in self.tried)
        others = ((name, said) for name, said in self.reading.items.items() if not is_tried(name))
        refused = ((name, said) for name, said in others if not said.startswith(("proved", "assumed")))
        return place or next((f"{name}: {said}" for name, said in refused), "")

    def verdict(self, it):
        """Returns the line that refuses a function for a reason of its own, or nothing and why there is none."""
        said, refusals = self.reading.items.get(it.name, "no line says anything of it"), self.refusals(it)
        named = re.findall(r"`([^`]*::[^`]*)`", said)
        if any(copy.function == it.function and not self.is_proved(copy) for copy in self.tried if not copy.edit):
            return "", "a copy of the function as it is isn't proved"
        if not said.startswith(("no proof", "not proved")):
            return "", said
        if IS_ABOUT_OTHERS.search(said) or not all(self.is_about(it, name) for name in named):
            return "", f"another one isn't proved: {said}"
        if not refusals:
            measure = LACKS_A_MEASURE.fullmatch(said)
            is_own = measure and measure[1] == proof_folder(it.name)
            return (f"{it.name}: {said}", "") if is_own else ("", f"nothing in it is refused: {said}")
        if any("not admitted" in line for line in refusals):
            return "", f"it rests on what isn't admitted: {refusals[0]}"
        line = next((line for line in refusals if not NAME_IS_GONE.search(line)), "")
        return line, "" if line else f"only names are lacking: {refusals[0]}"

    def is_proved(self, it):
        return self.reading.items.get(it.name, "").startswith("proved")
