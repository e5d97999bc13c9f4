"""Has qemu's device `edu` in a machine of tools/trace_machine raise its line, or lower it: no driver is bound to it.

    edu.py DEVICE raise | lower         DEVICE as in /sys/bus/pci/devices
"""

import mmap
import os
import struct
import sys

RAISE, LOWER = 0x60, 0x64


def main(words):
    folder = f"/sys/bus/pci/devices/{words[0]}"
    with open(f"{folder}/enable", "w") as file:
        file.write("1")
    memory = os.open(f"{folder}/resource0", os.O_RDWR | os.O_SYNC)
    with mmap.mmap(memory, 4096) as registers:
        place = RAISE if words[1] == "raise" else LOWER
        registers[place : place + 4] = struct.pack("<I", 1)
    os.close(memory)


if __name__ == "__main__":
    main(sys.argv[1:])
