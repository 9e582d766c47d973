"""Litmus tests from cycles: cycles and accesses (`cycles`, `accesses`), the tests that they give (`tests`, `modules`,
`names`, `suite`), candidate executions (`candidates`, `bytewise`, `judges`, `model`), store buffers (`buffers`) and the
pages (`gallery`, `page`)."""
import os
import sys

# The scripts of litmus/ import this package first, and find `wmlabtools` by it.
sys.path.insert(0, os.path.join(os.path.dirname(os.path.abspath(__file__)), "../../scripts"))
