"""wabt's tools (Debian's package `wabt`)."""
import os
import subprocess
import tempfile


def assembled(text: str, *words: str) -> bytes:
    """The bytes of the module of a text, as wat2wasm assembles it with these words."""
    with tempfile.TemporaryDirectory() as folder:
        source, module = os.path.join(folder, "text.wat"), os.path.join(folder, "it.wasm")
        with open(source, "w", encoding="utf-8") as file:
            file.write(text)
        subprocess.run(["wat2wasm", "--enable-threads", *words, source, "-o", module], check=True)
        with open(module, "rb") as file:
            return file.read()


def said(tool: str, module: bytes, *words: str) -> tuple[str, str]:
    """What a tool prints of a module, and what it writes to standard error."""
    ran = subprocess.run([tool, *words, "-"], input=module, capture_output=True, check=False)
    return ran.stdout.decode(), ran.stderr.decode()
