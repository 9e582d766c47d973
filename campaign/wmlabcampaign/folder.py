"""The folder of a campaign: what was asked, a file for each finished batch, the logs that are kept, and the table.

Each file is written to another name and renamed, so it is there whole or not at all."""
import json
import os
import tempfile
from typing import Any, NotRequired, TypedDict

from .batches import Batch
from .faults import Fault, WrongWords
from .worker import Histogram, KeptLog, Result

MANIFEST = "campaign.json"

# What was asked for, as JSON has it.
Manifest = dict[str, Any]


class Finished(TypedDict):
    """What is written of a finished batch: its counts, and the names of the logs that are kept."""

    number: int
    module: str
    counts: dict[str, int]
    kept: list[str]
    histograms: NotRequired[list[Histogram]]


def write_whole(path: str, data: bytes) -> None:
    new = ""
    try:
        with tempfile.NamedTemporaryFile(dir=os.path.dirname(path), prefix=".new-", delete=False) as file:
            new = file.name
            file.write(data)
            file.flush()
            os.fsync(file.fileno())
        os.chmod(new, 0o644)
        os.replace(new, path)
    except OSError as error:
        if os.path.exists(new):
            os.unlink(new)
        raise Fault(f"cannot write {path}: {error.strerror}") from error


def written_json(value: object) -> bytes:
    return json.dumps(value, indent=1).encode() + b"\n"


def manifest_in(path: str) -> Manifest | None:
    try:
        with open(os.path.join(path, MANIFEST), "rb") as file:
            found = json.load(file)
    except (OSError, ValueError):
        return None
    return found if isinstance(found, dict) else None


# What another campaign had, by the key of its manifest.
DIFFERENCES = {
    "program": "it was judged by another program",
    "batch": "its --batch was {}, and is {} now",
    "keep": "its --keep was {}, and is {} now",
}


def text_of(part: object) -> str:
    """A part of a plan, or of what was asked of it, in one line."""
    return json.dumps(part, ensure_ascii=False, separators=(", ", ": "))[:200]


def difference_of_parts(ours: list[Any], theirs: list[Any]) -> str:
    """The first part of a plan that is another one, with what is different in it."""
    for number, (our, their) in enumerate(zip(ours, theirs), 1):
        for key in dict.fromkeys([*their, *our]):
            if our.get(key) != their.get(key):
                return f"part {number} had {key} {text_of(their.get(key))}, and has {text_of(our.get(key))} now"
    counts = f"its parts were {len(theirs)}, and are {len(ours)} now: the next one"
    if len(theirs) > len(ours):
        return f"{counts} was {text_of(theirs[len(ours)])}"
    return f"{counts} is {text_of(ours[len(theirs)])}"


def first_difference(ours: Manifest, theirs: Manifest) -> str:
    """What differs between the campaign that is asked for and the one of the folder, in words."""
    parts = theirs.get("parts")
    are_parts = isinstance(parts, list) and all(isinstance(part, dict) for part in parts)
    if ours["format"] != theirs.get("format") or not are_parts:
        return "it was made by another version"
    if ours["parts"] != parts:
        return difference_of_parts(ours["parts"], theirs["parts"])
    for key, sentence in DIFFERENCES.items():
        if ours[key] != theirs.get(key):
            return sentence.format(theirs.get(key), ours[key])
    return "it was made by another version"


class Folder:
    """The results of one campaign."""

    def __init__(self, path: str) -> None:
        self.path = path

    def place(self, *names: str) -> str:
        return os.path.join(self.path, *names)

    def examine(self, manifest: Manifest, is_resumed: bool) -> None:
        """Refuses the folder of another campaign, or of something else."""
        there = manifest_in(self.path)
        if there and there != manifest:
            difference = first_difference(manifest, there)
            raise WrongWords(f"{self.path} has another campaign: {difference}; name a new folder")
        if not is_resumed:
            self.examine_new(there)
        elif there is None:
            raise WrongWords(f"{self.path} has no campaign to resume")

    def examine_new(self, there: Manifest | None) -> None:
        if there:
            raise WrongWords(f"{self.path} has this campaign already; --resume goes on with it")
        if os.path.isdir(self.path) and os.listdir(self.path):
            raise WrongWords(f"{self.path} is not empty, and has no campaign; name a new folder")

    def make(self, manifest: Manifest) -> None:
        try:
            for name in ("batches", "kept"):
                os.makedirs(self.place(name), exist_ok=True)
        except OSError as error:
            raise Fault(f"cannot write to the folder {self.path}: {error.strerror}") from error
        write_whole(self.place(MANIFEST), written_json(manifest))

    def finished(self, batch: Batch) -> Finished | None:
        """What is written of a finished batch; None if it is not finished."""
        try:
            with open(self.place("batches", f"{batch.name}.json"), "rb") as file:
                result: Finished = json.load(file)
        except (OSError, ValueError):
            return None
        return result if sum(result["counts"].values()) == batch.logs else None

    def finish(self, batch: Batch, result: Result) -> Finished:
        """Writes a result: first the logs to keep, then the file by which the batch is finished."""
        names = [self.keep(batch, log) for log in result["kept"]]
        finished: Finished = {
            "number": batch.number,
            "module": batch.module.path,
            "counts": result["counts"],
            "kept": names,
        }
        if "histograms" in result:
            finished["histograms"] = result["histograms"]
        write_whole(self.place("batches", f"{batch.name}.json"), written_json(finished))
        return finished

    def keep(self, batch: Batch, log: KeptLog) -> str:
        name = f"{batch.name[:16]}-{log['number'] + 1}{log['ending']}"
        text = f"{log['answer']}\nfrom {batch.origin(log['number'])}\n\n{log['explanation']}\n"
        write_whole(self.place("kept", f"{name}.json"), log["log"] + b"\n")
        write_whole(self.place("kept", f"{name}.txt"), text.encode())
        return name

    def write_table(self, text: str) -> None:
        write_whole(self.place("table.txt"), text.encode())
