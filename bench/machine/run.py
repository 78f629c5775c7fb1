#!/usr/bin/env python3
"""Times the machine on a loop of 200 million instructions, beside a plain interpreter in C.

    bench/machine/run.py [PROGRAM [WORD..]]

The script writes an executable of one segment, in the form that theta writes, and runs it once with
PROGRAM WORD.. FILE (crates/theta/out/theta run FILE, where nothing is given) and once with machine.c, built by
cc -O2. It prints the instructions a second of each, by processor time, and the ratio.
"""
import os
import pathlib
import struct
import subprocess
import sys
import tempfile

ROUNDS = 20_000_000
ZERO, A0, A7, T0, T1, T2, T3, T4 = 0, 10, 17, 5, 6, 7, 28, 29


def r(f7, rs2, rs1, f3, rd, op=0x33):
    return f7 << 25 | rs2 << 20 | rs1 << 15 | f3 << 12 | rd << 7 | op


def i(imm, rs1, f3, rd, op=0x13):
    return (imm & 0xFFF) << 20 | rs1 << 15 | f3 << 12 | rd << 7 | op


def s(imm, rs2, rs1, f3):
    return (imm >> 5 & 0x7F) << 25 | rs2 << 20 | rs1 << 15 | f3 << 12 | (imm & 31) << 7 | 0x23


def b(imm, rs2, rs1, f3):
    return ((imm >> 12 & 1) << 31 | (imm >> 5 & 0x3F) << 25 | rs2 << 20 | rs1 << 15 | f3 << 12
            | (imm >> 1 & 15) << 8 | (imm >> 11 & 1) << 7 | 0x63)


BODY = [
    i(0, A0, 2, T0, 0x03),        # lw   t0, 0(a0)
    r(0, T1, T0, 0, T1),          # add  t1, t0, t1
    i(5, T1, 1, T2),              # slli t2, t1, 5
    r(0, T2, T1, 4, T1),          # xor  t1, t1, t2
    s(0, T1, A0, 2),              # sw   t1, 0(a0)
    i(0, A0, 4, T3, 0x03),        # lbu  t3, 0(a0)
    r(1, T3, T1, 0, T2),          # mul  t2, t1, t3
    r(0, T2, T1, 3, T3),          # sltu t3, t1, t2
    i(-1, T4, 0, T4),             # addi t4, t4, -1
    b(-36, ZERO, T4, 1),          # bne  t4, zero, the first
]

CODE = [
    (ROUNDS + 0x800) >> 12 << 12 | T4 << 7 | 0x37,
    i(ROUNDS & 0xFFF, T4, 0, T4),
    i(1, ZERO, 0, T1),
    *BODY,
    i(3, ZERO, 0, A7),
    0x73,                         # ecall: the end
]


def executable():
    """The bytes of the executable."""
    content = b"".join(struct.pack("<I", word) for word in CODE)
    ident = b"\x7fELF\x01\x01\x01" + bytes(9)
    header = struct.pack("<HHIIIIIHHHHHH", 2, 243, 1, 0x10000, 52, 0, 0, 52, 32, 1, 0, 0, 0)
    segment = struct.pack("<8I", 1, 84, 0x10000, 0x10000, len(content), len(content), 5, 4)
    return ident + header + segment + content


def timed(command):
    """Runs a command; its seconds of processor time and its output."""
    process = subprocess.Popen(command, stdout=subprocess.PIPE)
    output = process.stdout.read()
    _, status, used = os.wait4(process.pid, 0)
    if status != 0:
        sys.exit(f"{command[0]}: status {os.waitstatus_to_exitcode(status)}")
    return used.ru_utime + used.ru_stime, output


def main():
    here = pathlib.Path(__file__).resolve().parent
    program = sys.argv[1:] or [str(here.parent.parent / "crates/theta/out/theta"), "run"]
    with tempfile.TemporaryDirectory() as folder:
        loop = os.path.join(folder, "loop.elf")
        plain = os.path.join(folder, "machine")
        with open(loop, "wb") as out:
            out.write(executable())
        subprocess.run(["cc", "-O2", "-o", plain, str(here / "machine.c")], check=True)
        ours, _ = timed([*program, loop])
        theirs, count = timed([plain, loop])
    millions = int(count) / 1_000_000
    print(f"{millions:.1f} million instructions")
    print(f"theta: {millions / ours:.1f} million a second")
    print(f"C:     {millions / theirs:.1f} million a second")
    print(f"ratio: {theirs / ours:.2f}")


main()
