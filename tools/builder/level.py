"""Which of the programs of dist/ this processor runs."""
import os

# The flags of /proc/cpuinfo that tell x86-64-v3, the instructions of processors since about 2013.
V3 = {"avx2", "bmi1", "bmi2", "fma", "movbe", "f16c", "abm"}
LEVELS = ("x86-64-v3", "x86-64-v2")


def level_of_processor():
    """x86-64-v3 if this processor has its instructions, else x86-64-v2, or None for another processor."""
    if os.uname().machine != "x86_64":
        return None
    try:
        with open("/proc/cpuinfo", encoding="utf-8", errors="replace") as file:
            flags = next((line for line in file if line.startswith("flags")), "")
    except OSError:
        flags = ""
    return LEVELS[0] if V3 <= set(flags.split()) else LEVELS[1]
