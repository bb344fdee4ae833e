#!/usr/bin/env python3
"""Instructions per second of the machine, by three loops of 100 million instructions and more.

Writes three executables, runs each by `swiftx exec`, and by qemu-riscv64 where that is installed, and prints
instructions per second of processor time (the best of three runs) and the ratio. Usage: bench/machine.py [PROGRAM], where PROGRAM is the built swiftx.
"""
import os
import resource
import shutil
import struct
import subprocess
import sys
import tempfile

TOP = os.path.dirname(os.path.dirname(os.path.abspath(__file__)))
CODE, DATA = 0x10000, 0x20000
ZERO, RA, T0, A0, A1, A2, A3, A7, S0 = 0, 1, 5, 10, 11, 12, 13, 17, 8


def i_type(opcode, funct3, rd, rs1, imm):
    return (imm & 0xFFF) << 20 | rs1 << 15 | funct3 << 12 | rd << 7 | opcode


def addi(rd, rs1, imm):
    return i_type(0x13, 0, rd, rs1, imm)


def slli(rd, rs1, amount):
    return i_type(0x13, 1, rd, rs1, amount)


def ld(rd, rs1, imm):
    return i_type(0x03, 3, rd, rs1, imm)


def jalr(rd, rs1, imm):
    return i_type(0x67, 0, rd, rs1, imm)


def add(rd, rs1, rs2):
    return rs2 << 20 | rs1 << 15 | rd << 7 | 0x33


def xor(rd, rs1, rs2):
    return rs2 << 20 | rs1 << 15 | 4 << 12 | rd << 7 | 0x33


def mul(rd, rs1, rs2):
    return 1 << 25 | rs2 << 20 | rs1 << 15 | rd << 7 | 0x33


def sd(rs2, rs1, imm):
    return (imm >> 5 & 0x7F) << 25 | rs2 << 20 | rs1 << 15 | 3 << 12 | (imm & 0x1F) << 7 | 0x23


def bne(rs1, rs2, offset):
    return ((offset >> 12 & 1) << 31 | (offset >> 5 & 0x3F) << 25 | rs2 << 20 | rs1 << 15 | 1 << 12
            | (offset >> 1 & 0xF) << 8 | (offset >> 11 & 1) << 7 | 0x63)


def jal(rd, offset):
    return ((offset >> 20 & 1) << 31 | (offset >> 1 & 0x3FF) << 21 | (offset >> 11 & 1) << 20
            | (offset >> 12 & 0xFF) << 12 | rd << 7 | 0x6F)


def lui(rd, upper):
    return (upper & 0xFFFFF) << 12 | rd << 7 | 0x37


def load_number(rd, number):
    return [lui(rd, number + 0x800 >> 12), addi(rd, rd, number & 0xFFF)]


def exit_code():
    return [addi(A0, ZERO, 0), addi(A7, ZERO, 93), 0x73]


def loop(turns, body):
    """A loop of `turns` turns over `body`, which leaves T0 alone; the program and its number of instructions."""
    head = load_number(T0, turns) + [lui(S0, DATA >> 12)]
    back = -4 * (len(body) + 1)
    code = head + body + [addi(T0, T0, -1), bne(T0, ZERO, back)] + exit_code()
    return code, len(head) + turns * (len(body) + 2) + 3


def arithmetic(turns):
    return loop(turns, [add(A1, A1, T0), xor(A2, A2, A1), slli(A3, A1, 3), mul(A1, A3, A2)])


def memory(turns):
    return loop(turns, [ld(A1, S0, 0), add(A1, A1, T0), sd(A1, S0, 0), ld(A2, S0, 8), sd(A2, S0, 16)])


def calls(turns):
    head = load_number(T0, turns)
    body = [jal(RA, 4 * 6), addi(T0, T0, -1), bne(T0, ZERO, -8)]
    function = [addi(A1, A1, 1), add(A2, A2, A1), jalr(ZERO, RA, 0)]
    return head + body + exit_code() + function, len(head) + turns * 6 + 3


def elf(code):
    text = b"".join(struct.pack("<I", word) for word in code)
    ident = b"\x7fELF\x02\x01\x01" + bytes(9)
    header = ident + struct.pack("<HHIQQQIHHHHHH", 2, 243, 1, CODE, 64, 0, 0, 64, 56, 2, 0, 0, 0)
    rows = struct.pack("<IIQQQQQQ", 1, 5, 0x1000, CODE, CODE, len(text), len(text), 0x1000)
    rows += struct.pack("<IIQQQQQQ", 1, 6, 0, DATA, DATA, 0, 4096, 0x1000)
    return (header + rows).ljust(0x1000, b"\0") + text


def seconds(words):
    before = resource.getrusage(resource.RUSAGE_CHILDREN)
    status = subprocess.run(words).returncode
    after = resource.getrusage(resource.RUSAGE_CHILDREN)
    if status != 0:
        sys.exit(f"{' '.join(words)} ended with status {status}")
    return after.ru_utime + after.ru_stime - before.ru_utime - before.ru_stime


def main():
    program = sys.argv[1] if len(sys.argv) > 1 else os.path.join(TOP, "swiftx")
    qemu = shutil.which("qemu-riscv64")
    with tempfile.TemporaryDirectory() as folder:
        for name, (code, count) in [("arithmetic", arithmetic(20_000_000)), ("loads and stores", memory(16_000_000)),
                                    ("calls", calls(20_000_000))]:
            path = os.path.join(folder, "loop.elf")
            with open(path, "wb") as file:
                file.write(elf(code))
            os.chmod(path, 0o755)
            ours = min(seconds([program, "exec", path, "--steps", "1000000000"]) for _ in range(3))
            line = f"{name:16} {count / ours / 1e6:7.1f} million instructions a second"
            if qemu:
                theirs = min(seconds([qemu, path]) for _ in range(3))
                line += f", {ours / theirs:5.1f} times the time of qemu-riscv64"
            print(line, flush=True)


if __name__ == "__main__":
    main()
