"""Command lines for the tests of the launcher and of the program: what each refuses, with its reason."""
from . import TOP


def no_command(word: str) -> str:
    return f"there is no command {word}; `wmlab help` lists them"


def hyphen(word: str) -> str:
    return f"the word '{word}' begins with a hyphen, as none of a command does; a file named -x is written ./-x"


# Words whose first is no command, and the reason why they are refused.
UNKNOWN_COMMANDS: tuple[tuple[list[str], str], ...] = (
    (["judge", "-"], no_command("'judge'")),
    (["-"], no_command("'-'")),
    (["", "-"], no_command("''")),
    (["Rules", "-"], no_command("'Rules'")),
    (["--json", "check", "a", "b"], hyphen("--json")),
    (["--", "rules", "-"], hyphen("--")),
    (["rules.", "-"], no_command("'rules.'")),
)
# Words too few or too many for a command, or with a hyphen, and the reason why they are refused.
WRONG_WORDS: tuple[tuple[list[str], str], ...] = (
    (["rules"], "expected: wmlab rules DOC"),
    (["rules", "a", "b"], "expected: wmlab rules DOC"),
    (["check"], "expected: wmlab check MODULE DOC"),
    (["check", "a"], "expected: wmlab check MODULE DOC"),
    (["check", "a", "b", "c"], "expected: wmlab check MODULE DOC"),
    (["explain"], "expected: wmlab explain [MODULE] DOC"),
    (["rules", "-x"], hyphen("-x")),
    (["rules", "--help"], hyphen("--help")),
    (["check", "-x", "-"], hyphen("-x")),
    (["check", "--", "-"], hyphen("--")),
    (["help", "rules"], "expected: wmlab help"),
    (["version", "now"], "expected: wmlab version"),
    (["drive"], "expected: wmlab drive MODULE TURNS START.."),
    (["drive", "a"], "expected: wmlab drive MODULE TURNS START.."),
    (["drive", "-m", "0", "a"], hyphen("-m")),
    (["drive", "m", "-1", "a"], hyphen("-1")),
    (["drive", "m", "0", "-a"], hyphen("-a")),
    (["trace"], "expected: wmlab trace MODULE TURNS START.."),
    (["trace", "m", "0", "-a"], hyphen("-a")),
    (["run", "m"], "expected: wmlab run MODULE ROUNDS START.."),
    (["run", "m", "1", "a", "--help"], hyphen("--help")),
)
MODULE = f"{TOP}/examples/store-buffering.wasm"
ITEM = (
    "Expected: N (a step of thread N), dN or dN/I (a store of its buffer), with *K after it if it repeats; K from 1,"
    " no number above 4294967295"
)
ROUNDS = "Expected: an integer from 1 to 10000"
ARGUMENT = "Expected: an unsigned decimal of at most 64 bits"
NOT_UTF8 = "a word is not UTF-8, as all words have to be, also the names of files"
# Words, the last word of the refusal, and the reason.
WRONG_SPELLINGS: tuple[tuple[list[str], str, str], ...] = (
    (["check", MODULE, "-x.json"], "words", hyphen("-x.json")),
    (["run", MODULE, "-1", "a", "b"], "words", hyphen("-1")),
    (["check", MODULE, "\udcff.json"], "words", NOT_UTF8),
    (["drive", MODULE, "", "a"], "turns", f"item 1 of TURNS is ''. {ITEM}"),
    (["trace", MODULE, "0,x", "a"], "turns", f"item 2 of TURNS is 'x'. {ITEM}"),
    (["drive", MODULE, "0,,1", "a"], "turns", f"item 2 of TURNS is ''. {ITEM}"),
    (["drive", MODULE, "0,", "a"], "turns", f"item 2 of TURNS is ''. {ITEM}"),
    (["drive", MODULE, "0*6,x", "a"], "turns", f"item 2 of TURNS is 'x'. {ITEM}"),
    (["drive", MODULE, "0*0", "a"], "turns", f"item 1 of TURNS is '0*0'. {ITEM}"),
    (["drive", MODULE, "0*", "a"], "turns", f"item 1 of TURNS is '0*'. {ITEM}"),
    (["drive", MODULE, "0*2*2", "a"], "turns", f"item 1 of TURNS is '0*2*2'. {ITEM}"),
    (["drive", MODULE, "4294967296", "a"], "turns", f"item 1 of TURNS is '4294967296'. {ITEM}"),
    (["drive", MODULE, "d", "a"], "turns", f"item 1 of TURNS is 'd'. {ITEM}"),
    (["drive", MODULE, "dd0", "a"], "turns", f"item 1 of TURNS is 'dd0'. {ITEM}"),
    (["drive", MODULE, "d0/", "a"], "turns", f"item 1 of TURNS is 'd0/'. {ITEM}"),
    (["drive", MODULE, "d0/1/2", "a"], "turns", f"item 1 of TURNS is 'd0/1/2'. {ITEM}"),
    (["drive", MODULE, "0/1", "a"], "turns", f"item 1 of TURNS is '0/1'. {ITEM}"),
    (["drive", MODULE, "0 ", "a"], "turns", f"item 1 of TURNS is '0 '. {ITEM}"),
    (["drive", "nowhere", "x", "a:x"], "turns", f"item 1 of TURNS is 'x'. {ITEM}"),
    (["drive", MODULE, "0,1," * 20000 + "x", "a", "b"], "turns", f"item 40001 of TURNS is 'x'. {ITEM}"),
    (["drive", MODULE, "4294967295," * 11000, "a"], "turns", f"item 11001 of TURNS is ''. {ITEM}"),
    (["drive", MODULE, "0*6,d4294967296", "a"], "turns", f"item 2 of TURNS is 'd4294967296'. {ITEM}"),
    (["drive", MODULE, "d0/4294967296", "a"], "turns", f"item 1 of TURNS is 'd0/4294967296'. {ITEM}"),
    (["drive", MODULE, "0*4294967296", "a"], "turns", f"item 1 of TURNS is '0*4294967296'. {ITEM}"),
    (["run", MODULE, "0", "a"], "rounds", f"ROUNDS is '0'. {ROUNDS}"),
    (["run", MODULE, "10001", "a"], "rounds", f"ROUNDS is '10001'. {ROUNDS}"),
    (["run", MODULE, "", "a"], "rounds", f"ROUNDS is ''. {ROUNDS}"),
    (["run", MODULE, "+1", "a"], "rounds", f"ROUNDS is '+1'. {ROUNDS}"),
    (["run", MODULE, "1e3", "a:x"], "rounds", f"ROUNDS is '1e3'. {ROUNDS}"),
    (["run", MODULE, "1", "a", "b:"], "start", f"argument 1 of START 2 is ''. {ARGUMENT}"),
    (["run", MODULE, "1", "b:x"], "start", f"argument 1 of START 1 is 'x'. {ARGUMENT}"),
    (["run", MODULE, "1", "", "b:1::"], "start", f"argument 2 of START 2 is ''. {ARGUMENT}"),
    (["run", MODULE, "1", "b:0x10:"], "start", f"argument 1 of START 1 is '0x10'. {ARGUMENT}; write b:16:"),
    (
        ["run", MODULE, "1", "b" + ":0" * 40000 + ":+1"],
        "start",
        f"argument 40001 of START 1 is '+1'. {ARGUMENT}; write b{':0' * 40000}:1",
    ),
    (
        ["run", MODULE, "1", "work:-1"],
        "start",
        f"argument 1 of START 1 is '-1'. {ARGUMENT}; write work:4294967295, or work:18446744073709551615 if the"
        " parameter is an i64",
    ),
    (
        ["drive", MODULE, "0", "b:1:-2147483649:3"],
        "start",
        f"argument 2 of START 1 is '-2147483649'. {ARGUMENT}; write b:1:18446744071562067967:3",
    ),
    (["drive", MODULE, "0", "b:0xff"], "start", f"argument 1 of START 1 is '0xff'. {ARGUMENT}; write b:255"),
    (["drive", MODULE, "0", "b:+7"], "start", f"argument 1 of START 1 is '+7'. {ARGUMENT}; write b:7"),
    (
        ["drive", MODULE, "0", "b:18446744073709551616"],
        "start",
        f"argument 1 of START 1 is '18446744073709551616'. {ARGUMENT}",
    ),
)
RIGHT_SPELLINGS: tuple[list[str], ...] = (
    ["drive", MODULE, "00*01,d0/00*2,4294967295,d4294967295/4294967295", "a"],
    ["drive", MODULE, "0*4294967295", "a"],
    ["drive", MODULE, "0", "", "b:18446744073709551615:0"],
    ["drive", MODULE, "0", "a:00000000000000000000000000001"],
    ["run", MODULE, "0001", "a", "b"],
    ["run", MODULE, "10000", "nowhere"],
    ["run", MODULE, "0" * 40000 + "1", "a"],
    ["run", MODULE, "1", "b" + ":0" * 40000],
    ["drive", MODULE, ",".join(["0", "1"] * 20000), "a", "b"],
)
# Words, the program's refusal, and its reason.
WRONG_PLANS: tuple[tuple[list[str], str, str], ...] = (
    (
        ["drive", MODULE, "5", "a", "b"],
        "Turn 5",
        "TURNS names thread 5. Expected: a thread below 2, the number of STARTs",
    ),
    (
        ["trace", MODULE, "0,d9/1*2,d03,2*7", "a", "b"],
        "Turn 2",
        "TURNS names thread 2. Expected: a thread below 2, the number of STARTs",
    ),
    (
        ["drive", MODULE, "0,d4294967295/4294967295", "a"],
        "Turn 4294967295",
        "TURNS names thread 4294967295. Expected: a thread below 1, the number of STARTs",
    ),
    (["drive", MODULE, "5"], "Threads", "there are 0 STARTs. Expected: 1 to 16, one for each thread"),
    (["run", MODULE, "10"], "Threads", "there are 0 STARTs. Expected: 1 to 16, one for each thread"),
    (["run", MODULE, "10", *"a" * 17], "Threads", "there are 17 STARTs. Expected: 1 to 16, one for each thread"),
)
NO_FILE = "No such file or directory"
MISSING_FILES: tuple[tuple[list[str], str, str], ...] = (
    (["rules", "nowhere"], "nowhere", f"DOC: {NO_FILE}"),
    (["rules", "file1"], "file1", f"DOC: {NO_FILE}"),
    (["rules", ""], "", f"DOC: {NO_FILE}"),
    (["rules", "/"], "/", "DOC: Is a directory"),
    (["rules", "/dev/null/x"], "/dev/null/x", "DOC: Not a directory"),
    (["check", "nowhere", "-"], "nowhere", f"MODULE: {NO_FILE}"),
    (["check", "-", "-"], "-", f"MODULE: {NO_FILE}; only DOC can be standard input"),
    (["check", "/dev/null", "nowhere"], "nowhere", f"DOC: {NO_FILE}"),
    (["explain", "here", "there"], "here", f"MODULE: {NO_FILE}"),
    (["drive", "nowhere", "0*6,d0/1", "a:1", "b"], "nowhere", f"MODULE: {NO_FILE}"),
    (["run", "nowhere", "10", "a"], "nowhere", f"MODULE: {NO_FILE}"),
)
