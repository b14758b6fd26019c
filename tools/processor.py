"""The kind of processor for which the program is compiled."""

# Those for which the program is compiled, with what Linux calls their parts in words.
KINDS = {"x86-64-v2": "SSE4.2", "x86-64-v3": "AVX2"}
# What a processor has for which x86-64-v3 is compiled, as Linux names it.
OF_V3 = {"avx", "avx2", "bmi1", "bmi2", "f16c", "fma", "abm", "movbe", "xsave"}


def best() -> str:
    """Returns x86-64-v3 where this processor is of that kind, and else x86-64-v2."""
    try:
        with open("/proc/cpuinfo", encoding="utf-8") as file:
            lines = [line.partition(":")[2].split() for line in file if line.startswith("flags")]
    except OSError:
        lines = []
    return "x86-64-v3" if lines and all(OF_V3 <= set(line) for line in lines) else "x86-64-v2"
