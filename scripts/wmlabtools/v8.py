"""V8's messages, in node."""

# The trap's name in a log by V8's message; two are for a divisor that is 0.
TRAPS = {
    "divide by zero": "divide-by-zero",
    "remainder by zero": "divide-by-zero",
    "divide result unrepresentable": "overflow",
    "unreachable": "unreachable",
    "memory access out of bounds": "out-of-bounds",
    "operation does not support unaligned accesses": "unaligned",
}
