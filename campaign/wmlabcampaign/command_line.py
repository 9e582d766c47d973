"""Judges many logs in batches, by `wmlab stream` on the workers of a Dask cluster, and counts the answers.

    campaign/run --out FOLDER [OPTIONS] logs MODULE PLACE..
    campaign/run --out FOLDER [OPTIONS] record [RECORDING] MODULE START..
    campaign/run --out FOLDER [OPTIONS] litmus [LITMUS] TEST..
    campaign/run --out FOLDER [OPTIONS] plan FILE

`logs` takes files with a log on each line, plain or compressed (.gz, .xz, .bz2; .zst from Python 3.14), and folders
with such files (.json, .jsonl, .ndjson). `record` records rounds of a module in node; `record --help` has its options.
`litmus` runs litmus tests many times, one at a time on each machine; histograms of all machines are added up.
A FILE of `plan` has such a part on each line, and # begins a comment.

Logs that are not allowed are kept in FOLDER/kept, each with its explanation. docs/CAMPAIGNS.md describes clusters.
"""
import argparse
import json
import os
import signal
import sys
from collections.abc import Sequence

from .campaign import Campaign
from .faults import FAILED, STOPPED, Fault
from .folder import Folder, Manifest
from .plan import Part, Recording, add_parts, parts_of, positive
from .program import Materials, find_program, materials, require_starts

STATUSES = """
exit status: 0 all logs are allowed; 1 one is broken; 2 one is refused, nothing was judged, or the words are wrong;
3 a batch, the cluster or a file failed; 130 stopped by Ctrl-C or SIGTERM. At 3 and 130, --resume goes on.
"""


def parsers() -> tuple[argparse.ArgumentParser, argparse.ArgumentParser]:
    """The parser of the command line, and one of a single part, for the lines of a plan."""
    layout = argparse.RawDescriptionHelpFormatter
    whole = argparse.ArgumentParser("campaign/run", description=__doc__, epilog=STATUSES, formatter_class=layout)
    whole.add_argument("--out", metavar="FOLDER", required=True, help="where the results are written")
    whole.add_argument("--resume", action="store_true", help="go on with the campaign of FOLDER")
    place = whole.add_mutually_exclusive_group()
    place.add_argument("--scheduler", metavar="ADDRESS", help="of a Dask cluster, such as tcp://10.0.0.1:8786")
    workers = os.cpu_count() or 1
    place.add_argument(
        "--workers", metavar="N", type=positive, default=workers, help=f"of a local cluster otherwise ({workers})"
    )
    whole.add_argument("--batch", metavar="N", type=positive, default=1_000, help="logs of a batch at most (1,000)")
    whole.add_argument("--keep", metavar="N", type=positive, default=100, help="logs kept of a batch at most (100)")
    whole.add_argument("--wmlab", metavar="PROGRAM", help="the program that judges (the one that ./wmlab runs)")
    commands = whole.add_subparsers(dest="command", required=True, metavar="logs | record | litmus | plan")
    add_parts(commands)
    plan = commands.add_parser("plan", help="several of these, one a line of a file")
    plan.add_argument("file", metavar="FILE")
    single = argparse.ArgumentParser(add_help=False)
    add_parts(single.add_subparsers(dest="command", required=True, metavar="logs | record | litmus"))
    return whole, single


def manifest_of(options: argparse.Namespace, parts: Sequence[Part], found: Materials) -> Manifest:
    """What has to be the same for results to belong together, as JSON has it."""
    value = {
        "format": 1,
        "program": found.program_digest,
        "batch": options.batch,
        "keep": options.keep,
        "parts": [part.description for part in parts],
    }
    manifest: Manifest = json.loads(json.dumps(value))
    return manifest


def run_campaign(options: argparse.Namespace, parts: Sequence[Part]) -> int:
    program = find_program(options.wmlab)
    found = materials(program, parts)
    for part in parts:
        if isinstance(part, Recording):
            require_starts(program, part)
    folder, manifest = Folder(options.out), manifest_of(options, parts, found)
    folder.examine(manifest, options.resume)
    from . import cluster  # takes most of a second, and is a fault without Dask

    campaign = Campaign(parts, folder, options.batch)
    with cluster.connected(options) as client:
        folder.make(manifest)
        try:
            sender = cluster.Cluster(client, found, options.keep)
            campaign.run(sender)
            sender.report_lost()
            return campaign.status
        except KeyboardInterrupt:
            print("campaign: stopped; --resume goes on", file=sys.stderr)
            return STOPPED
        except Fault as fault:
            print(f"campaign: {fault}; --resume goes on", file=sys.stderr)
            return FAILED
        finally:
            campaign.report()


def main(words: Sequence[str]) -> int:
    """Runs a campaign as the words ask, and returns the exit status."""
    whole, single = parsers()
    options = whole.parse_args(words)
    # A batch system that ends the job leaves a table and a folder to resume, as Ctrl-C does.
    signal.signal(signal.SIGTERM, signal.default_int_handler)
    try:
        return run_campaign(options, parts_of(options, single))
    except KeyboardInterrupt:
        return STOPPED
    except Fault as fault:
        print(f"campaign: {fault}", file=sys.stderr)
        return fault.status
