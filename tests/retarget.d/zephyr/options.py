#!/usr/bin/python3
"""What Kconfig answers for Zephyr's module, by python3-kconfiglib: CONFIG_ lines of a board with
these symbols.

    options.py KCONFIG SYMBOL.. [NAME=VALUE..]

SYMBOLs are those of Zephyr that the board's own files would set. A warning of Kconfig's is a
failure."""
import os
import sys
import tempfile

import kconfiglib

BOARD = "CPU_CORTEX_M CPU_CORTEX_M0 CPU_CORTEX_M3 CPU_CORTEX_M4 RISCV ARM64 ARCH_POSIX 64BIT FLOAT_HARD".split()


def main(kconfig, words):
    """The options, as they go to the build."""
    symbols = [word for word in words if "=" not in word]
    with tempfile.TemporaryDirectory() as folder:
        top = os.path.join(folder, "Kconfig")
        with open(top, "w") as file:
            for name in BOARD:
                file.write(f"config {name}\n\tbool\n\tdefault {'y' if name in symbols else 'n'}\n\n"
                           f"")
            file.write(f'source "{kconfig}"\n')
        found = kconfiglib.Kconfig(top, warn_to_stderr=False)
        for name, value in (word.split("=", 1) for word in words if "=" in word):
            found.syms[name].set_value(value)
        written = os.path.join(folder, "config")
        found.write_config(written)
        if found.warnings:
            sys.exit("\n".join(found.warnings))
        sys.stdout.write(open(written).read())


main(sys.argv[1], sys.argv[2:])
