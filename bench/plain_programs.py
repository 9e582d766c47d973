"""The plain Rust programs that wmlab is compared with."""
import os
import subprocess

from wmlabtools import TOP

PLAIN = os.path.join(TOP, "bench/plain")
PLAIN_SERDE = os.path.join(TOP, "bench/plain-serde")


def plain_program(workspace: str, name: str) -> str:
    """The path of a plain Rust program, which cargo builds without a network."""
    subprocess.run(
        ["cargo", "build", "--quiet", "--offline", "--release", "--package", name], cwd=workspace, check=True
    )
    return os.path.join(workspace, "target/release", name)
