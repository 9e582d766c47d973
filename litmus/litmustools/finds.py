"""What is written of an outcome that is not permitted: the module, a log, its explanation and its picture, and a page
that tells what may be to blame."""
import os
import re
import shutil
import subprocess

from . import commands, judges
from .decisions import Question
from .engines import Settings
from .histograms import Histogram, State
from .judges import Failed

PAGE = """{name}: an outcome that the memory rules do not permit

    {state}

It came {count:,} times in {iterations:,} iterations.
engine     {engine}
harness    litmus/run, chunk {chunk}, batch {batch}, stride {stride}{wrong}
verdict    {reason}

Files
    {stem}.wasm   the module of the log: the test as the judge takes it
    {stem}.json   a candidate execution with this outcome: the last one that was asked, of which a rule is broken
    {stem}.txt    this page, and what `wmlab explain` tells of the log
    {stem}.svg    its picture (.dot without Graphviz)

What is to blame
1. The engine, if the outcome comes again, and comes too on another machine with the same version of the engine, and not
   with another engine or version there:
       {command}
   Node can be asked which of its compilers: NODE_OPTIONS=--no-liftoff, or --liftoff-only, before the command.
2. The harness, if it depends on how the threads meet, and on nothing else. Each of these gives another code around the
   same accesses; an engine's fault survives at least one of them:
       {command} --chunk 1
       {command} --chunk 0
       {command} --stride 256 --batch 256
       {command} --pin none
3. The lowering, if the module was made by engines/lower: run the module's own instructions in the text format, by
   docs/LITMUS.md, without it.
4. The judge, if `wmlab witness` finds a witness of a log with this outcome. It is proved that there is none where it
   answers `no witness`. `litmus/candidates` prints which rule each candidate breaks.
"""


def stem_of(histogram: Histogram, state: State) -> str:
    text = f"{histogram.specimen.name}-{histogram.specimen.state(state.outcome)}"
    return re.sub(r"[^\w.+@=-]+", "_", text).strip("_")[:120]


def explained(program: str, module: str, document: str) -> str:
    command = [program, "explain", module, "-"]
    ran = subprocess.run(command, input=document, stdout=subprocess.PIPE, text=True, check=False)
    return ran.stdout


def picture(program: str, module: str, document: str, stem: str) -> None:
    """The picture, or its description if Graphviz makes none."""
    graph = judges.graph(program, module, document)
    if shutil.which("dot"):
        ran = subprocess.run(["dot", "-Tsvg", "-o", f"{stem}.svg"], input=graph, text=True, check=False)
        if not ran.returncode:
            return
    commands.write(f"{stem}.dot", graph)


def page_of(histogram: Histogram, state: State, stem: str, again: str) -> str:
    settings: Settings = histogram.settings
    return PAGE.format(
        name=histogram.specimen.name,
        state=histogram.specimen.state(state.outcome),
        count=state.count,
        iterations=histogram.ran.iterations,
        engine=histogram.version,
        chunk=settings.chunk,
        batch=settings.batch,
        stride=settings.stride,
        wrong=f", wrong on purpose: {settings.wrong}" if settings.wrong else "",
        reason=state.verdict.reason,
        stem=os.path.basename(stem),
        command=again,
    )


def keep(histogram: Histogram, state: State, folder: str, program: str, again: str) -> str:
    """Writes all of a find. `again` is the command that ran the test. Answers the path of the page."""
    os.makedirs(folder, exist_ok=True)
    stem = os.path.join(folder, stem_of(histogram, state))
    commands.write(f"{stem}.wasm", Question(histogram.specimen).module)
    page = page_of(histogram, state, stem, again)
    document = state.verdict.log
    if document:
        commands.write(f"{stem}.json", document + "\n")
        page += "\n" + explained(program, f"{stem}.wasm", document)
        try:
            picture(program, f"{stem}.wasm", document, stem)
        except Failed as error:
            page += f"\nno picture: {error}\n"
    else:
        page += "\nNo candidate execution has this outcome: no thread writes a value that was read.\n"
    commands.write(f"{stem}.txt", page)
    return f"{stem}.txt"
