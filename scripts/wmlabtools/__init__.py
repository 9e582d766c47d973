"""What the scripts, the gate and the benches share: finding and running the program, and counting (`harness`);
modules byte by byte (`wasm`), log documents (`log`), the memory model (`model`) and explanations (`explained`); random
programs (`programs`, `compiled`); wabt's tools and V8's messages (`wabt`, `v8`); command lines that are refused
(`words`); measuring (`timing`, `measured`); generated files (`generated`); the must-fail edits and the prover that
tries them (`edits`, `changed_function`, `by_contract`, `prover`); and what pages and crates must not have
(`paragraphs`, `lengths`, `cited`, `clauses`, `imports`); transcripts of pages (`transcripts`)."""
import os

TOP = os.path.dirname(os.path.dirname(os.path.dirname(os.path.abspath(__file__))))
