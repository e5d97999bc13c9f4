"""Floods a network card in a machine of tools/trace_machine: datagrams to an address, as fast as they go.

    flood.py ADDRESS COUNT [SIZE]
"""

import socket
import sys


def main(words):
    address, count, size = words[0], int(words[1]), int(words[2]) if len(words) > 2 else 1000
    with socket.socket(socket.AF_INET, socket.SOCK_DGRAM) as sender:
        data = bytes(size)
        for _ in range(count):
            try:
                sender.sendto(data, (address, 9))
            except OSError:
                pass


if __name__ == "__main__":
    main(sys.argv[1:])
