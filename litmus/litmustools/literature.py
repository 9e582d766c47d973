"""What is published about classic tests in the models of WebAssembly and JavaScript, with the source of each."""

WATT_2019 = "Watt, Rossberg, Pichon-Pharabod, *Weakening WebAssembly* (OOPSLA 2019)"
WATT_2020 = "Watt et al., *Repairing and Mechanising the JavaScript Relaxed Memory Model* (PLDI 2020)"
ECMASCRIPT = "ECMA-262, *Memory Model*"

# Test, whether its outcome is permitted, by which statement, where. The statements are of the model's axioms or of its
# theorem for programs without data races (SC-DRF); that they decide the test is this project's reading.
PUBLISHED = (
    ("SB", True, "unordered accesses may read any write that does not happen after them or is hidden", ECMASCRIPT),
    ("SB+sc", False, "SC-DRF: all accesses are atomic, so no race", WATT_2020),
    ("MP", True, "unordered accesses do not synchronize", ECMASCRIPT),
    ("MP+un-sc+sc-un", False, "an atomic read of an atomic write synchronizes; then coherent reads", ECMASCRIPT),
    ("LB", True, "happens-before has no edge of an unordered read from its write, so the cycle is no contradiction",
     WATT_2019),
    ("LB+sc", False, "SC-DRF", WATT_2020),
    ("IRIW", True, "unordered accesses have no order that all threads share", ECMASCRIPT),
    ("IRIW+sc", False, "SC-DRF", WATT_2020),
    ("WRC+sc", False, "SC-DRF", WATT_2020),
    ("2+2W+sc", False, "SC-DRF", WATT_2020),
    ("S+sc", False, "SC-DRF", WATT_2020),
    ("R+sc", False, "SC-DRF", WATT_2020),
    ("CoRR", True, "unordered accesses of one location that race need not be coherent", ECMASCRIPT),
    ("CoRR+sc", False, "SC-DRF", WATT_2020),
    ("X+X+rmw", False, "an update reads the last write before it in the total order", ECMASCRIPT),
    ("SB+sc-sc@4+sc8-sc", True, "atomic accesses of different ranges do not synchronize, and race", ECMASCRIPT),
)
