"""Scripts for `tc admin`, and what is read from what it writes."""
import re
from collections import Counter

HEAD = (
    "centre c 00124B0000000001 2 2",
    "peer d device 00124B0000000002 1A2B",
    "peer e device 00124B0000000003 1A2C",
    "peer r router 00124B0000000004 1A2D",
)
INIT = "init 000102030405060708090A0B0C0D0E0F"

# The line that comes with each status, at the end of standard output. 0 and 4 have none.
STATUS_LINES = {
    2: "usage\n",
    3: "read fault\n",
    5: "refused [0-9]+ [a-z-]+\n",
    6: "no memory\n",
    7: "store fault\n",
    8: "no store\n",
    9: "too long 16777216\n",
    11: "bad store [0-9]+\n",
    12: "worn\n",
    13: "busy\n",
}


def script(commands):
    """Returns the bytes of a script of these commands."""
    return ("\n".join([*HEAD, *commands]) + "\n").encode()


def install_code(number):
    """Returns an install code of 6 bytes with its CRC, low byte first, in hexadecimal."""
    data = number.to_bytes(6, "big")
    crc = 0xFFFF
    for bit in range(48):
        low = (crc ^ data[bit // 8] >> bit % 8) & 1
        crc = crc >> 1 ^ (0x8408 if low else 0)
    return (data + (crc ^ 0xFFFF).to_bytes(2, "little")).hex().upper()


def provision(name, number):
    return f"provision {name} {install_code(number)}"


def turns(count, name="d", parent="c", code=700):
    """Returns commands that admit and remove a device in turn, by three install codes from a number on."""
    return [f"remove {name} via {parent}" if k % 2 else provision(name, code + k // 2 % 3) for k in range(count)]


def split_status(status, output):
    """Returns the lines of the commands without the status line, or None if that line isn't the status's own."""
    if status in (0, 4):
        return output
    found = re.search(f"(?:{STATUS_LINES.get(status, '(?!)')})\\Z", output)
    return output[: found.start()] if found else None


def acknowledged(output):
    """Returns the number of commands of which a byte was written."""
    whole = len(re.findall(r"^(?:ok|refuse) .*\n", output, re.M))
    return whole + (re.search(r"^(?:ok|refuse) .*\n\Z", output, re.M) is None and output != "")


def counters(output):
    """Returns the NWK frame counters of the frames: each after an NWK header of 8 bytes and a byte of control."""
    frames = re.findall(r"^send ([0-9A-F]+)\n", output, re.M)
    return [int.from_bytes(bytes.fromhex(frame)[9:13], "little") for frame in frames]


def comes_again(*outputs):
    """Returns the counters that these outputs use twice."""
    every = Counter(counter for output in outputs for counter in counters(output))
    return sorted(counter for counter, number in every.items() if number > 1)
