#!/usr/bin/env python3
"""Tests of the litmus suite. The last line is `N passed, N failed`.

    litmus/test.py             the tests of litmus/tests, and of litmus/run in node, minutes
    litmus/test.py --all       each test of the suite
    litmus/test.py --plain     what asks no program
"""
import json
import os
import shutil
import subprocess
import tempfile
from collections import Counter

from litmustools import bytewise, commands, cycle_check, gallery_tests, judges, outcome_tests, run_tests
from litmustools.accesses import BadCycle
from litmustools.buffers import WRONG, Machine, outcomes, script
from litmustools.candidates import Candidates, ask
from litmustools.cycles import cycle_of
from litmustools.gallery import Row, Seen
from litmustools.judges import Stream
from litmustools.logs import cycle_log
from litmustools.model import Model
from litmustools.modules import bytes_of, text_of
from litmustools.names import SHAPES, cycle_named, named, shape_of
from litmustools.suite import committed, suite
from litmustools.verdicts import expected_verdicts, proved_verdict, verdict_of
from litmustools.witnesses import witness_of_cycle
from wmlabtools import TOP, harness, wabt

HERE = os.path.join(TOP, "litmus")
LEAST_TESTS = 400
LEAST_COMMITTED = 60
# Of larger tests the outcomes of wrong engines are too many.
MOST_EVENTS_OF_ENGINES = 6

# A thread of a cycle; four of them have too many orders.
LONG_THREAD = "PosRR PosRR PosRR PosRW Rfe"

MISTAKES = {
    "": "no shape has this name",
    " : ": "no shape has this name",
    "PodWR Fre": "one edge to another thread",
    "PodWR Fre PosWR Fre": "one edge to another location",
    "PodWR Fre PodRR Fre": "Fre leads to W and PodRR begins at R",
    "Fre PodWR Fre PodWR": "has to lead to another thread",
    "PodXR Fre PodWR Fre": "PodXR: expected an edge",
    "Rfx Rfe": "Rfx: expected an edge",
    "PosRW PosWR": "ends with Rfi, Fri or Coi",
    "PodWR Fre PodWR Fre : sc": "1 accesses for 4 edges",
    "PodWR Fre PodWR Fre : sc sc sc sq": "sq: expected un, sc or rmw",
    "PodWR Fre PodWR Fre : sc sc sc sc3": "sc3: expected un, sc or rmw",
    "PodWR Fre PodWR Fre : sc sc sc sc@2": "sc@2: an atomic access is at a multiple of its width",
    "PodWR Fre PodWR Fre : un un un un8@12": "un8@12: a location has 16 bytes",
    "SB+sc+sc+sc": "accesses for 3 threads; the shape has 2",
    "SB+sc-sc-sc+sc": "3 accesses; the thread has 2",
    "SC": "no shape has this name",
}


def refusal(text):
    try:
        commands.test_named(text)
    except BadCycle as error:
        return str(error)
    return "nothing"


def test_cycles(tally, tests):
    for text, sentence in MISTAKES.items():
        tally.check(sentence in refusal(text), f"the cycle {text!r} is refused", refusal(text))
    for name, shape in SHAPES.items():
        cycle = shape_of(shape)
        turned = [cycle.rotated(k) for k in cycle.beginnings]
        tally.check(len({each.canonical for each in turned}) == 1, f"{name} is one cycle wherever it begins")
    wse = "PodWW Wse PodWW Wse"
    tally.check(cycle_of(wse).text == "PodWW Coe PodWW Coe" and named(cycle_of(wse))[0] == "2+2W", "Wse is Coe")
    again = [name for name, test in tests.items() if named(cycle_named(name)) != (name, test.cycle)]
    tally.check(not again, "each name of the suite is read as its cycle", again)
    texts = [name for name, test in tests.items() if cycle_of(test.cycle.text) != test.cycle]
    tally.check(not texts, "each cycle's text is read as the cycle", texts)


def test_suite(tally, tests):
    several = [test for test in tests.values() if len(test.threads) > 1]
    different = {test.cycle.canonical for test in several}
    tally.check(
        len(several) == len(different) >= LEAST_TESTS and max(len(test.threads) for test in several) == 4,
        "the suite has 400 tests of two to four threads, each once",
        len(different),
    )
    tally.check(len(set(committed(tests))) >= LEAST_COMMITTED, "60 tests are committed")
    modules = {bytes_of(test) for test in several}
    tally.check(len(modules) >= LEAST_TESTS, "they are 400 different modules", len(modules))
    for name, test in tests.items():
        found = cycle_check.problems(test.cycle.text, cycle_log(test))
        tally.check(not found, f"the log of {name} is one of its cycle", found)


def test_cycle_check(tally, tests):
    """Logs of another cycle are not taken for those of this one."""
    for name, other in (("SB", "MP"), ("MP", "S"), ("2+2W", "R"), ("CoRR", "CoWR"), ("LB", "SB+sc")):
        found = cycle_check.problems(tests[name].cycle.text, cycle_log(tests[other]))
        tally.check(found, f"the log of {other} is not one of {name}")
    changed = {
        "SB": ("4,0,[[],[],[],[]]", "4,1,[[1,0],[1,0],[1,0],[1,0]]"),
        "MP": ("[[0,1],[0,1],[0,1],[0,1]]", "[[],[],[],[]]"),
        "2+2W": ("[[1,0],[1,0],[1,0],[1,0]]", "[[0,1],[0,1],[0,1],[0,1]]"),
    }
    for name, (old, new) in changed.items():
        document = cycle_log(tests[name])
        found = cycle_check.problems(tests[name].cycle.text, document.replace(old, new, 1))
        tally.check(old in document and found, f"a changed writer in the log of {name} is found")


def files_of(folder):
    found = {}
    for name in sorted(os.listdir(folder)):
        with open(os.path.join(folder, name), "rb") as file:
            found[name] = file.read()
    return found


def test_files(tally, tests, room, is_all):
    command = [os.path.join(HERE, "generate"), os.path.join(room, "tests"), "--committed"]
    subprocess.run(command, check=True, stdout=subprocess.DEVNULL)
    made, there = files_of(os.path.join(room, "tests")), files_of(os.path.join(HERE, "tests"))
    for name in sorted({*made, *there}):
        tally.check(made.get(name) == there.get(name), f"litmus/tests/{name} is what the generator writes")
    if not shutil.which("wat2wasm"):
        print("wat2wasm is not there: texts and binaries are not compared")
        return
    for name in tests if is_all else committed(tests):
        same = wabt.assembled(text_of(tests[name])) == bytes_of(tests[name])
        tally.check(same, f"wat2wasm makes the same module of {name}")


def test_theorem(tally, tests, verdicts):
    """Without races no outcome of a cycle is permitted; across threads plain accesses of two locations permit each."""
    free = [name for name, test in tests.items() if test.is_free_of_races]
    permitted = [name for name in free if verdicts[name] == "permitted"]
    tally.check(len(free) > 50 and not permitted, "no outcome of a test without races is permitted", permitted)
    plain = [name for name, test in tests.items() if not any(access.is_atomic for access in test.cycle.accesses)]
    wide = [name for name in plain if len(set(tests[name].cycle.locations())) > 1]
    others = [name for name in wide if verdicts[name] != "permitted"]
    tally.check(len(wide) > 50 and not others, "each outcome of plain accesses of two locations is permitted", others)


def test_model(tally, tests, verdicts, names):
    """The rules as a plain program give the verdicts of the suite. `run_tests` leaves cases of rules out."""
    wrong = [name for name in names if verdict_of(tests[name], Model())[0] != verdicts[name]]
    tally.check(not wrong, "the plain model has the suite's verdicts", wrong)


def permits(test, values, judge):
    """Whether an outcome has an allowed candidate; bytes are chosen one by one if no other candidate has it."""
    for by_byte in (False, True):
        candidates = Candidates(test, by_byte, outcome=values)
        if candidates.count():
            return any(each.is_permitted for each in ask(candidates, judge, until_allowed=True).values())
    return False


def not_permitted(test, judge, wrong=None):
    """The outcomes of a machine, right or wrong on purpose, that no candidate permits."""
    return [values for values in outcomes(Machine(test, wrong)) if not permits(test, values, judge)]


def test_verdict(tally, test, expected, stream, program):
    """The verdict on the cycle's outcome, by candidates and by `witness`; and what `check` answers to a candidate."""
    verdict, witness = verdict_of(test, stream)
    tally.check(verdict == expected, f"the verdict on {test.name}", f"{verdict}, expected {expected}")
    proved = proved_verdict(witness_of_cycle(program, stream.module, test, test.cycle_values))
    tally.check(proved == expected, f"what is proved of {test.name}", f"{proved}, expected {expected}")
    if witness:
        document = judges.completed(program, stream.module, witness)
        answer = harness.run(program, ["check", stream.module, "-"], input=document.encode())[0]
        tally.check(answer.startswith("allowed"), f"check allows the witness of {test.name}", answer)


def test_script(tally, test, stream, program):
    """The script that the search found gives the outcome."""
    found = outcomes(Machine(test))
    if test.cycle_values in found:
        moves = [move for move in found[test.cycle_values] if move]
        words = ["drive", stream.module, script(test, moves), *test.starts]
        lines = harness.run(program, words)[0].split("\n")
        holds = lines[0] == f"outcome {test.outcome}" and lines[1].startswith("allowed")
        tally.check(holds, f"drive gives the outcome of {test.name}", lines[:2])


def test_engines(tally, test, stream, caught):
    """The store buffers give only what a candidate permits. `caught` has the first test that catches each engine that
    is wrong on purpose."""
    found = not_permitted(test, stream)
    tally.check(not found, f"{test.name}: what the store buffers give is permitted", found)
    for how in WRONG:
        if how not in caught and not_permitted(test, stream, how):
            caught[how] = test.name


def test_each(tally, tests, verdicts, names, stream_on, program):
    caught: dict[str, str] = {}
    for name in names:
        with stream_on(tests[name]) as stream:
            test_verdict(tally, tests[name], verdicts[name], stream, program)
            test_script(tally, tests[name], stream, program)
            if len(tests[name].events) <= MOST_EVENTS_OF_ENGINES:
                test_engines(tally, tests[name], stream, caught)
    for how, what in WRONG.items():
        tally.check(how in caught, f"an engine in which {what} is caught")
        print(f"{how}, an engine in which {what}, is caught by {caught.get(how, 'no test')}")


def smallest(tests):
    """The ten tests with the fewest candidates in the second enumeration, at most two of a shape."""
    several = {name: test for name, test in tests.items() if len(test.threads) > 1 and not test.finals}
    found: list[str] = []
    taken: Counter[str] = Counter()
    for _, name in sorted((bytewise.count(cycle_log(test)), name) for name, test in several.items()):
        shape = tests[name].cycle.shape
        if taken[shape] < 2 and len(found) < 10:
            taken[shape] += 1
            found.append(name)
    return found


def test_second_enumeration(tally, tests, stream_on):
    for name in smallest(tests):
        test, document = tests[name], cycle_log(tests[name])
        observed = [test.events[key].is_observed for key in bytewise.reads_of_document(document)]
        with stream_on(test) as stream:
            found = bytewise.permitted(document, stream)
            ours = ask(Candidates(test, by_byte=True), stream)
            whole = ask(Candidates(test), stream)
        second = {tuple(value for value, is_one in zip(values, observed) if is_one) for values in found}
        first = {flat(values) for values, each in ours.items() if each.is_permitted}
        tally.check(second == first, f"{name}: both enumerations permit the same outcomes", (second, first))
        agreed = all((flat(values) in second) == each.is_permitted for values, each in whole.items())
        tally.check(agreed, f"{name}: with one writer for the bytes that are accessed together, too")


def flat(values):
    return tuple(value for thread in values for value in thread)


def test_same_answers(tally, tests, stream_on):
    """The program and the plain model answer alike, on every candidate of some tests."""
    for name in ("SB+sc", "MP+un-sc+sc-un", "CoRR+sc+sc2@2", "SB+sc-sc@4+sc8-sc", "X+X+rmw", "X+W+rmw+un"):
        lines = [line for _, line in Candidates(tests[name], by_byte=name.startswith("CoRR"))]
        with stream_on(tests[name]) as stream:
            theirs = stream.answers(lines)
        ours = Model().answers(lines)
        alike = sum(their.startswith(our) for their, our in zip(theirs, ours, strict=True))
        tally.check(alike == len(lines), f"{name}: the program and the model answer alike", f"{alike} of {len(lines)}")


def ran(command, *words_of_command, path=None):
    """A run of a command, with the folders in which it looks for tools if they are given."""
    env = {**os.environ, "PATH": path} if path else None
    return harness.run(os.path.join(HERE, command), [*words_of_command], env=env)


def check_refusal(tally, sentence, command, *words_of_command, path=None):
    out, err, status = ran(command, *words_of_command, path=path)
    is_line = err.startswith(f"{command}: {sentence}") and err.count("\n") == 1
    is_refused = status == 2 and not out and is_line
    tally.check(is_refused, f"{command} {words_of_command} is refused in a line", out + err)


def test_refusals(tally, room):
    """Mistakes are refused in one line, with status 2."""
    fake = os.path.join(room, "fake")
    commands.write(fake, "#!/bin/sh\n[ $1 = help ] && echo 'stream MODULE' || exit 3\n")
    os.chmod(fake, 0o755)
    refused = [
        ("generate", "--test", "MP+nope"),
        ("generate", "/proc/none"),
        ("candidates", "PodWW Rfe"),
        ("candidates", "--wmlab", "/bin/true", "SB"),
        ("candidates", "--wmlab", fake, "SB"),
        ("candidates", "--all-orders", "--wmlab", fake, "3.2W"),
        ("candidates", "--wmlab", fake, f"{LONG_THREAD} {LONG_THREAD} {LONG_THREAD} {LONG_THREAD}"),
        ("candidates", "--most", "10", "--wmlab", fake, "SB"),
        ("gallery", "--test", "SB", "--wmlab", "/bin/true"),
    ]
    for command, *words_of_command in refused:
        check_refusal(tally, "", command, *words_of_command)
    for sentence, command, *words_of_command in (
        ("an empty name: no shape has this name", "candidates", ""),
        ("'SC': no shape has this name", "candidates", "SC"),
        ("'SB' names a test: --test SB prints it; a folder is written ./SB", "generate", "SB"),
        ("'2+2W+sc-nope' names a test", "generate", "2+2W+sc-nope"),
        ("'PodWR Fre' names a test", "generate", "PodWR Fre"),
        ("'nosuch': there is no such edit; they are litmus/left-out", "wrong-judges", "nosuch"),
        ("'edits': there is no such edit", "wrong-judges", "edits"),
        ("litmus/README.md: it changes nothing", "wrong-judges", "litmus/README.md"),
        ("/nowhere: this is not a program", "candidates", "--wmlab", "/nowhere", "SB"),
        ("/nowhere: this is not a program", "gallery", "--test", "SB", "--wmlab", "/nowhere"),
        ("--columns takes --seen ENGINE=FILE", "gallery", "--columns"),
        ("--columns takes --seen ENGINE=FILE", "gallery", "--columns", "--engine", "node"),
        ("--seen node: expected ENGINE=FILE", "gallery", "--columns", "--seen", "node"),
        ("node: line 1 is none of litmus/run --json: ", "gallery", "--test", "SB", "--seen", f"node={__file__}"),
        ("/proc/none: No such file", "gallery", "--test", "SB", "--seen", "node=/dev/full", "--out", "/proc/none"),
        ("/nowhere: this is not a program", "test.py", "--wmlab", "/nowhere"),
        (f"{room}: this is not a program", "test.py", "--wmlab", room),
        ("/bin/true: this program has no command stream", "test.py", "--wmlab", "/bin/true"),
    ):
        check_refusal(tally, sentence, command, *words_of_command)


def test_commands(tally, program, room):
    """The commands do what their pages say."""
    listed, _, status = ran("generate", "--list")
    tally.check(status == 0 and len(listed.splitlines()) >= LEAST_TESTS, "generate --list", status)
    shown, _, status = ran("generate", "--test", "MP+un-sc+sc-un")
    is_whole = "i32.atomic.store" in shown and '"wasm-litmus-log",2' in shown
    tally.check(status == 0 and is_whole, "generate --test", shown)
    drawn, err, status = ran("generate", "--test", "SB", os.path.join(room, "drawn"), "--pictures", "--wmlab", program)
    picture = os.path.join(room, "drawn/SB.dot")
    tally.check(status == 0 and os.path.getsize(picture) > 500, "generate --pictures", drawn + err)
    kept = os.path.join(room, "kept")
    asked, err, status = ran("candidates", "--wmlab", program, "SB+sc", "--all-orders", "--keep", kept)
    holds = status == 0 and "* not permitted  0 0" in asked and "96 candidates, 4 outcomes" in asked
    tally.check(holds, "candidates of SB+sc", asked + err)
    test_kept(tally, program, kept)
    words_of_gallery = ["--test", "SB", "--test", "SB+sc", "--test", "LB", "--iterations", "5000", "--run-rounds", "5"]
    words_of_gallery += ["--wmlab", program]
    html = os.path.join(room, "html")
    page, err, status = ran("gallery", *words_of_gallery, "--out", "-", "--html", html)
    rows = [line for line in page.splitlines() if line.startswith("| `SB")]
    is_shown = any("| permitted by 6 of 6 | `0*" in line for line in rows)
    holds = status == 0 and is_shown and "not permitted: 6 V5" in page
    tally.check(holds, "gallery of some tests", page + err)
    gallery_tests.test_explored_cells(tally, page)
    with open(os.path.join(html, "SB+sc.svg"), encoding="utf-8") as file:
        drawn = file.read()
    parts = ("Wsc x := 1</text>", "SB+sc, y=0; x=0. Not allowed: ", "fr: the first event reads")
    tally.check(all(part in drawn for part in parts), "a picture of the gallery has names, words and a legend", drawn)
    test_tools(tally, words_of_gallery, room)


def test_kept(tally, program, kept):
    """`candidates --keep` has the module, and each outcome's log in the folder of its verdict."""
    logs = {"permitted": {"SB+sc_0_1.json", "SB+sc_1_0.json", "SB+sc_1_1.json"}, "not-permitted": {"SB+sc_0_0.json"}}
    there = {name: set(os.listdir(os.path.join(kept, name))) for name in os.listdir(kept) if "." not in name}
    tally.check(there == logs and os.path.isfile(f"{kept}/SB+sc.wasm"), "candidates --keep SB+sc", there)
    for verdict, names in logs.items():
        for name in names:
            answer = harness.run(program, ["check", f"{kept}/SB+sc.wasm", f"{kept}/{verdict}/{name}"])[0]
            is_allowed = answer.startswith("allowed")
            tally.check(is_allowed == (verdict == "permitted"), f"check of {verdict}/{name}", answer)


def test_tools(tally, words_of_gallery, room):
    """A tool that is missing is named in a line. If an engine fails, the page has the verdicts."""
    tools = os.path.join(room, "tools")
    os.makedirs(tools)
    for name in ("env", "python3", "bash", "sh"):
        os.symlink(str(shutil.which(name)), os.path.join(tools, name))
    sentence = "node is not installed, which runs the tests also in browsers"
    check_refusal(tally, sentence, "gallery", *words_of_gallery, path=tools)
    commands.write(os.path.join(tools, "node"), "#!/bin/sh\nexit 1\n")
    os.chmod(os.path.join(tools, "node"), 0o755)
    page, err, status = ran("gallery", *words_of_gallery, "--out", "-", path=tools)
    rows = [line for line in page.splitlines() if line.startswith("| `SB")]
    holds = status == 2 and "node is left out: " in err and "no engine ran the tests" in err and ": none." in page
    tally.check(holds and len(rows) >= 2, "the gallery's verdicts are kept if each engine fails", page + err)
    test_kept_tables(tally, words_of_gallery, tools, room)


def test_kept_tables(tally, words_of_gallery, tools, room):
    """The tables that an engine finished before it failed are kept."""
    counts = '"iterations":5,"milliseconds":1,"tuples":[[["0","1"],5]],"others":0'
    lines = ('{"engine":"Fake"}', f'{{"result":{{"name":"SB",{counts},"pinned":0,"pinProblem":null}}}}')
    said = "".join(f"echo '{line}'\n" for line in lines)
    commands.write(os.path.join(tools, "node"), f"#!/bin/sh\n{said}exit 1\n")
    command = [os.path.join(HERE, "gallery"), *words_of_gallery, "--out", "-"]
    err = harness.run(command[0], command[1:], env={**os.environ, "PATH": tools}, cwd=room)[1]
    kept = os.path.join(room, "gallery-node.jsonl")
    tables = []
    if os.path.isfile(kept):
        with open(kept, encoding="utf-8") as file:
            tables = [json.loads(line)["name"] for line in file]
    holds = tables == ["SB"] and "gallery-node.jsonl has 1 tables" in err
    tally.check(holds, "the tables of an engine that failed later are kept", (tables, err))


def test_finds(tally, tests):
    """What the rules do not permit is a find, wherever it came."""
    allowed = {"allowed threads=2": 5}
    cases = [
        ("SB+sc", False, Seen({"0 0": 1, "0 1": 4}, allowed), "node gave the cycle's outcome"),
        ("SB+sc", False, Seen({"0 1": 5}, {"not permitted": 5}), "an outcome of node is not permitted"),
        ("SB+sc", False, Seen({"0 1": 5}, allowed), None),
        ("SB", True, Seen({"0 0": 5}, allowed), None),
    ]
    for name, is_permitted, seen, sentence in cases:
        row = Row(tests[name], "", is_permitted, engines={"node": seen})
        holds = len(row.finds) == 1 and sentence in row.finds[0] if sentence else not row.finds
        tally.check(holds, f"{name}: a find: {sentence}", row.finds)
    row = Row(tests["SB+sc"], "", script="0*5,1*5")
    tally.check("the store buffers gave" in row.finds[0], "a script for what is not permitted is a find")


def test_page(tally, tests, verdicts):
    """The page and the verdicts are of today's suite."""
    tally.check(list(verdicts) == list(tests), "verdicts.txt has each test of the suite")
    with open(os.path.join(TOP, "docs/GALLERY.md"), encoding="utf-8") as file:
        page = file.read()
    missing = []
    for name, verdict in verdicts.items():
        row = next((line for line in page.splitlines() if line.startswith(f"| `{name}` | ") and "=" in line), "")
        if f"| {verdict}" not in row:
            missing.append(name)
    tally.check(not missing, "docs/GALLERY.md has each verdict", missing)


def with_program(tally, tests, verdicts, program, is_all):
    names = list(tests) if is_all else committed(tests)
    with tempfile.TemporaryDirectory() as room:

        def stream_on(test):
            module = os.path.join(room, f"{test.name}.wasm")
            commands.write(module, bytes_of(test))
            return Stream(program, module)

        test_commands(tally, program, room)
        test_each(tally, tests, verdicts, names, stream_on, program)
        test_second_enumeration(tally, tests, stream_on)
        test_same_answers(tally, tests, stream_on)
        outcome_tests.test_command(tally, program, room)
        outcome_tests.test_scripts(tally, tests, stream_on, program)
        outcome_tests.test_explored(tally, tests, names, stream_on, program, is_all)
        run_tests.test_run(tally, program, room)


def without_program(tally, tests, verdicts, is_all):
    test_cycles(tally, tests)
    test_suite(tally, tests)
    test_cycle_check(tally, tests)
    test_finds(tally, tests)
    gallery_tests.test_listed(tally, tests)
    gallery_tests.test_columns(tally, tests)
    test_page(tally, tests, verdicts)
    test_theorem(tally, tests, verdicts)
    outcome_tests.test_patterns(tally)
    test_model(tally, tests, verdicts, list(tests) if is_all else committed(tests))
    with tempfile.TemporaryDirectory() as room:
        test_files(tally, tests, room, is_all)
        test_refusals(tally, room)


def main():
    parser = commands.arguments(__doc__)
    parser.add_argument("--all", action="store_true", help="each test of the suite")
    parser.add_argument("--plain", action="store_true", help="only what asks no program")
    options = parser.parse_args()
    program = None if options.plain else commands.program_of(options)
    tally, tests, verdicts = harness.Tally(), suite(), expected_verdicts()
    without_program(tally, tests, verdicts, options.all)
    if program:
        with_program(tally, tests, verdicts, program, options.all)
    tally.end()


if __name__ == "__main__":
    commands.ending(main)
