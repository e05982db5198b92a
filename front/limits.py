"""Document 01's limits, where the command itself needs them: what it sends, what a sentence says, how much a page asks for. The proved program judges by its own."""

WINDOWS = 64
TASKS = 32
LENGTH = 1_000_000
JOBS = 4_096
RUN_TICKS = 1_100_000
