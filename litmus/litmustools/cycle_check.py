"""Whether a log is one of a cycle, by the edges' words and the log's events alone. It shares no code with what made the
log: where each edge leads is found again, and each edge is looked up in the events."""
import json
from collections.abc import Collection, Sequence
from typing import Any

LOCATION_BYTES = 16
READS, WRITES = ("r", "x"), ("w", "x")

# The thread and the number of an event; events and threads as a log has them in JSON.
Place = tuple[int, int]
Event = list[Any]
Threads = list[list[Any]]


def places(words: Sequence[str]) -> list[Place]:
    """The thread and the number of each access in it, by the cycle's words."""
    found, thread, number = [], 0, 0
    for word in words:
        found.append((thread, number))
        if word.endswith("e") and not word.startswith("Po"):
            thread, number = thread + 1, 0
        else:
            number += 1
    return found


def address_of(event: Event) -> int:
    address: int = event[2]
    return address


def written_bytes(event: Event) -> range:
    return range(event[2], event[2] + event[3])


def writer_at(event: Event, address: int) -> list[int] | None:
    """The writer of a byte that is read, `[]` for the initial memory, or None if the byte is not read."""
    k = address - event[2]
    return event[-1][k] if 0 <= k < event[3] else None


def final_writer(threads: Threads, place: Place, used: Collection[Place]) -> list[list[int]] | None:
    """Who wrote the last read of a location that is not an access of the cycle, or None if there is none."""
    location = address_of(threads[place[0]][4][place[1]]) // LOCATION_BYTES
    for t, thread in enumerate(threads):
        for i, event in enumerate(thread[4]):
            if (t, i) not in used and event[0] == "r" and address_of(event) // LOCATION_BYTES == location:
                writers: list[list[int]] = event[-1]
                return writers
    return None


def is_before(threads: Threads, source: Place, target: Place, used: Collection[Place]) -> bool:
    """Whether the first write is the earlier one: in program order, or since the final value is of the second."""
    if source[0] == target[0] and source[1] < target[1]:
        return True
    final = final_writer(threads, target, used)
    return final is not None and all(writer == list(target) for writer in final)


def problem_of_program_order(word: str, threads: Threads, source: Place, target: Place) -> str | None:
    one, other = (threads[t][4][i] for t, i in (source, target))
    if source[0] != target[0] or target[1] != source[1] + 1:
        return "the accesses are not next to each other in program order"
    is_same = address_of(one) // LOCATION_BYTES == address_of(other) // LOCATION_BYTES
    if is_same != (word[2] == "s"):
        return "the locations are not as the edge has them"
    kinds = {"R": READS, "W": WRITES}
    return None if one[0] in kinds[word[3]] and other[0] in kinds[word[4]] else "the kinds of access differ"


KINDS = {"Rf": (WRITES, READS), "Fr": (READS, WRITES), "Co": (WRITES, WRITES)}


def problem_of_communication(
    word: str, threads: Threads, source: Place, target: Place, used: Collection[Place]
) -> str | None:
    one, other = (threads[t][4][i] for t, i in (source, target))
    first, second = KINDS[word[:2]]
    if one[0] not in first or other[0] not in second:
        return "the kinds of access differ"
    if (source[0] != target[0]) != word.endswith("e"):
        return "it leads to another thread or not, as the edge does not have it"
    if word.startswith("Rf"):
        is_read = other[0] in READS and list(source) in other[-1]
        return None if is_read else "the read takes no byte from the write"
    if word.startswith("Co"):
        return None if is_before(threads, source, target, used) else "the order of the writes is not shown"
    writers = [writer_at(one, at) for at in written_bytes(other) if writer_at(one, at) is not None]
    if not writers or list(target) in writers:
        return "the read does not come before the write"
    others = [(writer[0], writer[1]) for writer in writers if writer]
    is_shown = all(is_before(threads, writer, target, used) for writer in others)
    return None if is_shown else "the order of what is read and the write is not shown"


def problem_of_access(word: str, event: Event) -> str | None:
    """What is wrong with an event as the access of this word: `un`, `sc2@4`, `rmw`."""
    order, _, offset = word.partition("@")
    name = order.rstrip("1248")
    is_same = (event[2] % LOCATION_BYTES, event[3]) == (int(offset or 0), int(order.removeprefix(name) or 4))
    is_kind = event[1] == ("un" if name == "un" else "sc") and (event[0] == "x") == (name == "rmw")
    return None if is_same and is_kind else f"the event is not as {word} has it"


def problems(cycle: str, document: str | bytes) -> list[str]:
    """What is wrong with a log as one of a cycle, a sentence for each edge."""
    edges, _, accesses = cycle.partition(":")
    words = edges.replace("Ws", "Co").split()
    _, _, threads, order = json.loads(document)
    at = places(words)
    found: list[str] = []
    keys = [(t, i) for t, thread in enumerate(threads) for i, _ in enumerate(thread[4])]
    if sorted(map(tuple, order)) != keys:
        found.append("the order does not have each event once")
    if not set(at) <= set(keys):
        return [*found, "an access of the cycle is not an event"]
    for (t, i), word in zip(at, accesses.split() or ["un"] * len(words), strict=True):
        fault = problem_of_access(word, threads[t][4][i])
        found += [f"{t}.{i}: {fault}"] if fault else []
    for k, word in enumerate(words):
        source, target = at[k], at[(k + 1) % len(at)]
        if word.startswith("Po"):
            problem = problem_of_program_order(word, threads, source, target)
        else:
            problem = problem_of_communication(word, threads, source, target, set(at))
        if problem:
            found.append(f"{word} at {source[0]}.{source[1]}: {problem}")
    return found
