#!/usr/bin/env python3
"""Writes the modules of tests/files and of the tests of wm_tests, from WebAssembly text.

wabt's wat2wasm assembles the texts, without a check, since some are not valid. A module that no text gives, as one
that is cut or has a non-minimal number, is another one with some bytes changed; its row says which.

    scripts/module_tests.py [--check]        it needs wat2wasm (Debian's wabt)
"""
import textwrap

from wmlabtools import generated, wabt
from wmlabtools.wasm import number, section, sized, vector


def behind(digits):
    return lambda wasm: wasm + bytes.fromhex(digits)


def cut(count):
    return lambda wasm: wasm[:count]


def changed(old, new):
    def change(wasm):
        assert wasm.count(bytes.fromhex(old)) == 1
        return wasm.replace(bytes.fromhex(old), bytes.fromhex(new))

    return change


# ---- texts

STORE_BUFFERING = """
(module
  (memory 1 1 shared)
  (func (export "a") (result i32)
    (i32.store (i32.const 0) (i32.const 1))
    (i32.load (i32.const 4)))
  (func (export "b") (result i32)
    (i32.store (i32.const 4) (i32.const 1))
    (i32.load (i32.const 0))))
"""
STORE_BUFFERING_ATOMIC = """
(module
  (memory 1 1 shared)
  (func (export "a") (result i32)
    (i32.atomic.store (i32.const 0) (i32.const 1))
    (i32.atomic.load (i32.const 4)))
  (func (export "b") (result i32)
    (i32.atomic.store (i32.const 4) (i32.const 1))
    (i32.atomic.load (i32.const 0))))
"""
TRAPS = """
(module
  (memory 1 1 shared)
  (func (export "a") (result i32)
    (i32.atomic.load (i32.const 2)))
  (func (export "b") (result i32)
    (i32.load (i32.const 65534)))
  (func (export "c") (result i32)
    (i32.atomic.load (i32.const 65534))))
"""
OVERLAPPING_LOAD = """
(module
  (memory 1 1 shared)
  (func (export "a") (result i32)
    (i64.store (i32.const 0) (i64.const 0x0807060504030201))
    (i32.load (i32.const 2))))
"""
ARGUMENT = """
(module
  (memory 1 1 shared)
  (func (export "f") (param i32) (result i32)
    (i32.store (local.get 0) (i32.const 7))
    (i32.load (local.get 0))))
"""
SPINS = """
(module
  (memory 1 1 shared)
  (func (export "a")
    (loop
      (br_if 0 (i32.eqz (i32.atomic.load (i32.const 0)))))))
"""
DATA = STORE_BUFFERING.rstrip()[:-1] + '\n  (data (i32.const 4) "\\09"))\n'


def body(text, memory="(memory 1 1 shared)", more=""):
    """A module of one function, from nothing to nothing."""
    return f"(module {memory} (func {text}){more})"


def waits_for_the_other(access, tries):
    """Two threads that each store 1, and load what the other stores this many times, with 400 steps before each load;
    the result is whether it was seen."""
    return f"""
(module
  (memory 1 1 shared)
  (func $meet (param $own i32) (param $other i32) (result i32) (local $made i32) (local $delay i32)
    ({access}.store (local.get $own) (i32.const 1))
    (loop $try
      (local.set $delay (i32.const 100))
      (loop $wait
        (br_if $wait (local.tee $delay (i32.sub (local.get $delay) (i32.const 1)))))
      (if ({access}.load (local.get $other)) (then (return (i32.const 1))))
      (br_if $try (i32.lt_u (local.tee $made (i32.add (local.get $made) (i32.const 1))) (i32.const {tries}))))
    (i32.const 0))
  (func (export "a") (result i32) (call $meet (i32.const 0) (i32.const 4)))
  (func (export "b") (result i32) (call $meet (i32.const 4) (i32.const 0))))
"""


# Two stores of a byte by a function that isn't exported, and a load of both bytes.
BYTE_STORES = """
(module
  (memory 1 1 shared)
  (func (param i32 i32)
    (i32.store8 (local.get 0) (local.get 1)))
  (func (export "low") (call 0 (i32.const 0) (i32.const 3)))
  (func (export "high") (call 0 (i32.const 2) (i32.const 1)))
  (func (export "word") (result i32) (i32.load (i32.const 0))))
"""


def names(functions, before=b"", after=b""):
    """A section `name` with these names of functions by their indices, and with other bytes before and after them."""
    named = vector([number(index) + sized(name) for index, name in functions.items()])
    return behind(section(0, sized(b"name") + before + section(1, named) + after).hex())


# A custom section, and the code section's size in five bytes; a data count in front of the code.
NAME_SECTION = behind("0005046e616d65")
PADDED = changed("0a1f02", "0a9f8080800002")


def data_count(count):
    return changed("0a1f02", f"0c01{count:02x}0a1f02")


# ---- the modules of tests/files: their names, and their texts and changes

FILES = {
    "traps": (TRAPS,),
    "calls-itself": (body('(export "a") call 0'),),
    "branches-at-once": (body('(export "a") br 0'),),
    "name-section-behind": (STORE_BUFFERING, NAME_SECTION),
    # With the subsections 0 and 2, the names of the module and of locals.
    "named-function": (
        BYTE_STORES,
        names({0: b"put", 1: b"put the low byte"}, section(0, sized(b"stores")), section(2, b"\x00")),
    ),
    # A name of five bytes, of which four are there.
    "name-cut-off": (BYTE_STORES, behind("000e046e616d65" "0107" "01000570757421")),
    "name-not-utf-8": (BYTE_STORES, names({0: b"put", 1: b"\xff"})),
    "name-of-no-function": (BYTE_STORES, names({0: b"put", 4: b"more"})),
    "names-against-their-order": (BYTE_STORES, names({1: b"low", 0: b"put"})),
    "long-name": (BYTE_STORES, names({0: "é".encode() * 101})),
    "padded-size": (STORE_BUFFERING, PADDED),
    "data-segment": (DATA, data_count(1)),
    "header": ("(module)",),
    "types": ("(module (type (func (result i32))))",),
    "cut-short": (STORE_BUFFERING, cut(42)),
    "functions-without-code": (STORE_BUFFERING, cut(37)),
    "memory-grow": (body("i32.const 1 memory.grow drop"),),
    "narrow-cmpxchg": (body("i32.const 0 i32.const 0 i32.const 0 i32.atomic.rmw8.cmpxchg_u drop"),),
    "fence": (body("atomic.fence"),),
    # The constant -1 in five bytes; the last of them has bits that are not used.
    "stray-bits": (body("i32.const -1 drop"), changed("070105" "00417f1a0b", "0b0109" "0041ffffffff0f1a0b")),
    "minus-one": (body("i32.const -1 drop"), changed("070105" "00417f1a0b", "0b0109" "0041ffffffff7f1a0b")),
    "data-count-of-two": (DATA, data_count(2)),
    "exports-of-one-name": (STORE_BUFFERING, changed("016200", "016100")),
    "eqz-of-nothing": (body("i32.eqz"),),
    "missing-local": (body("local.get 0 drop"),),
    "missing-label": (body("br 1"),),
    "load-without-memory": (body("i32.const 0 i32.load drop", memory=""),),
    "maximum-below-minimum": (body("", "(memory 2 1 shared)"),),
    "segment-past-memory": (body("", more='(data (i32.const 65535) "\\01\\02")'),),
    "segment-at-the-end": (body("", more='(data (i32.const 65535) "\\01")'),),
    "code-behind-a-branch": (body("br 0 drop select drop"),),
    "mixed-addition": (body("br 0 i32.const 0 i64.const 0 i32.add drop"),),
    "spins": (SPINS,),
    "two-pending-stores": (
        """
(module
  (memory 1 1 shared)
  (func (export "a") (result i32)
    (i32.store (i32.const 0) (i32.const 1))
    (i32.store (i32.const 4) (i32.const 1))
    (i32.const 0))
  (func (export "b") (result i32)
    (i32.add (i32.mul (i32.load (i32.const 4)) (i32.const 10)) (i32.load (i32.const 0)))))
""",
    ),
    "many-stores": (
        """
(module
  (memory 1 1 shared)
  (func (export "stores") (param i32) (local i32)
    (loop
      (i32.store8 (local.get 1) (i32.const 1))
      (br_if 0 (i32.lt_u (local.tee 1 (i32.add (local.get 1) (i32.const 1))) (local.get 0)))))
  (func (export "stores_and_loads") (param i32) (result i32) (local i32)
    (loop
      (i32.store8 (local.get 1) (i32.const 1))
      (br_if 0 (i32.lt_u (local.tee 1 (i32.add (local.get 1) (i32.const 1))) (local.get 0))))
    (i32.atomic.load (i32.const 8)))
  (func (export "reads") (result i32)
    (i32.add (i32.mul (i32.load8_u (i32.const 0)) (i32.const 10)) (i32.load8_u (i32.const 1)))))
""",
    ),
    "meets": (waits_for_the_other("i32.atomic", tries=300),),
    "sees-plain-stores": (waits_for_the_other("i32", tries=5),),
    "spins-beside-nothing": (
        """
(module
  (memory 1 1 shared)
  (func (export "a")
    (loop
      (br_if 0 (i32.eqz (i32.atomic.load (i32.const 0))))))
  (func (export "b")))
""",
    ),
    "waits-by-three-loads": (
        """
(module
  (memory 1 1 shared)
  (func (export "writer")
    (i32.store8 (i32.const 0) (i32.const 1))
    (i32.store8 (i32.const 0) (i32.const 2))
    (i32.store8 (i32.const 1) (i32.const 1))
    (i32.store8 (i32.const 1) (i32.const 2))
    (i32.atomic.store (i32.const 4) (i32.const 1)))
  (func (export "reader") (result i32) (local i32 i32)
    (loop
      (local.set 0 (i32.load8_u (i32.const 0)))
      (local.set 1 (i32.load8_u (i32.const 1)))
      (br_if 0 (i32.eqz (i32.atomic.load (i32.const 4)))))
    (i32.add (i32.mul (local.get 0) (i32.const 10)) (local.get 1))))
""",
    ),
}

# ---- the modules of the tests of wm_tests: what they show, their names and texts

CALLED = [
    (
        "Two threads, each of which stores and then loads what the other stores; plain.",
        "STORE_BUFFERING",
        STORE_BUFFERING,
    ),
    ("The same with atomic accesses.", "STORE_BUFFERING_ATOMIC", STORE_BUFFERING_ATOMIC),
    ("Three functions: an unaligned atomic load, a load past the memory, and one that is both.", "TRAPS", TRAPS),
    ("A store of eight bytes, and a load of four in its middle.", "OVERLAPPING_LOAD", OVERLAPPING_LOAD),
    ("A function that stores 7 at its argument and loads it.", "ARGUMENT", ARGUMENT),
    ("A loop that reads until it finds something else than 0.", "SPINS", SPINS),
    ("Store buffering with a custom section at its end.", "NAME_SECTION_BEHIND", *FILES["name-section-behind"]),
    ("Store buffering with a padded size of the code section.", "PADDED_SIZE", *FILES["padded-size"]),
    ("Store buffering with a data count and a byte 9 at address 4.", "DATA_SEGMENT", *FILES["data-segment"]),
]

# ---- files


def module_of(text, *changes):
    wasm = wabt.assembled(text, "--no-check")
    for change in changes:
        wasm = change(wasm)
    return wasm


def array(shows, name, text, *changes):
    """The bytes of a module as Rattle has them, after its text."""
    wasm = module_of(text, *changes)
    rows = [wasm[k : k + 16] for k in range(0, len(wasm), 16)]
    bytes_of_rows = "".join("    " + ", ".join(f"0x{byte:02X}" for byte in row) + ",\n" for row in rows)
    but = "\nbut for the bytes that the script changes" if changes else ""
    comment = textwrap.indent(text.strip() + but, "// ")
    return f"\n{comment}\n/// {shows}\npub(super) const {name}: [u8; {len(wasm)}] = [\n{bytes_of_rows}];\n"


def main():
    options = generated.words_of(__doc__)
    generated.need("wat2wasm")
    head = "//! @generated by scripts/module_tests.py; do not edit.\n//!\n//! Modules, each after its text.\n"
    files = {
        "crates/wm_tests/src/tests/modules.rt": head + "".join(array(*each) for each in CALLED),
        **{f"tests/files/{name}.wasm": module_of(*each) for name, each in FILES.items()},
    }
    generated.write_or_check(files, options.check)


if __name__ == "__main__":
    main()
