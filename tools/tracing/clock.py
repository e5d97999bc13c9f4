"""Has the clock of a machine of tools/trace_machine interrupt: once a second, as /dev/rtc0 moves on.

    clock.py SECONDS
"""

import fcntl
import os
import sys

# RTC_UIE_ON and RTC_UIE_OFF of include/uapi/linux/rtc.h.
ON, OFF = 0x7003, 0x7004


def main(words):
    clock = os.open("/dev/rtc0", os.O_RDONLY)
    fcntl.ioctl(clock, ON)
    for _ in range(int(words[0])):
        os.read(clock, 8)
    fcntl.ioctl(clock, OFF)
    os.close(clock)


if __name__ == "__main__":
    main(sys.argv[1:])
