#!/usr/bin/env python3
"""Compares the machine with tools of others: a disassembler on random words, and a C compiler.

    tests/outside/compare.py [THETA]

THETA is crates/theta/out/theta where it isn't given. The tools are those of binutils and gcc for RISC-V, or those of LLVM;
where there are none, that part is skipped.

Words: a word is an instruction of RV32IM for the disassembler exactly where the machine, given a file of that word alone,
doesn't answer `trap illegal`. The program: program.c, built for rv32im and built for the host, puts the same bytes.
"""
import pathlib
import random
import re
import shutil
import struct
import subprocess
import sys
import tempfile

HERE = pathlib.Path(__file__).resolve().parent
COUNT = 3_000
MNEMONICS = set("""lui auipc jal jalr beq bne blt bge bltu bgeu lb lh lw lbu lhu sb sh sw addi slti sltiu xori ori andi
slli srli srai add sub sll slt sltu xor srl sra or and mul mulh mulhsu mulhu div divu rem remu fence fence.tso pause ecall
ebreak""".split())
FENCE = 0x0F
OPCODES = [0x37, 0x17, 0x6F, 0x67, 0x63, 0x03, 0x23, 0x13, 0x33, 0x0F, 0x73]


def random_words(rng):
    """Words of every opcode of the base, most of them with few bits outside the fields; and words of any bits. The fields
    of a fence that are reserved are 0: the manual has them passed over, and disassemblers don't."""
    words = [0x0000_0073, 0x0010_0073]
    while len(words) < COUNT:
        word = rng.getrandbits(32)
        if rng.random() < 0.9:
            word = word & ~0x7F | rng.choice(OPCODES)
        if rng.random() < 0.7:
            word = word & 0x01FF_FFFF | rng.choice([0, 1, 0x20]) << 25
        word |= 3
        if word & 0x707F == FENCE:
            word &= 0x0FF0_707F
        words.append(word)
    return words


def executable(word):
    """The written form of a program of one word."""
    header = b"\x7fELF\1\1\1" + bytes(9)
    header += struct.pack("<HHIIIIIHHHHHH", 2, 243, 1, 0x10000, 52, 0, 0, 52, 32, 1, 0, 0, 0)
    header += struct.pack("<IIIIIIII", 1, 84, 0x10000, 0x10000, 4, 4, 5, 4)
    return header + struct.pack("<I", word)


def disassembler():
    """A function from a file of words to the lines of their disassembly; None where there is no disassembler."""
    gnu = shutil.which("riscv64-unknown-elf-objdump")
    if gnu:
        return lambda raw: run([gnu, "-D", "-b", "binary", "-m", "riscv:rv32", "-M", "no-aliases", raw])
    llvm, copy = shutil.which("llvm-objdump"), shutil.which("llvm-objcopy")
    if llvm and copy:
        def lines(raw):
            linked = str(raw) + ".o"
            run([copy, "-I", "binary", "-O", "elf32-littleriscv", "--rename-section=.data=.text,code", str(raw), linked])
            return run([llvm, "-D", "--triple=riscv32", "--mattr=+m", "-M", "no-aliases", linked])
        return lines
    return None


def run(words):
    return subprocess.run(words, capture_output=True, check=True, text=True).stdout


def compare_words(theta, folder):
    lines = disassembler()
    if lines is None:
        print("words: skipped, since there is no disassembler for RISC-V")
        return
    words = random_words(random.Random(1))
    raw = folder / "words"
    raw.write_bytes(b"".join(struct.pack("<I", word) for word in words))
    known = {}
    for line in lines(raw).splitlines():
        found = re.match(r"\s*([0-9a-f]+):\s+(?:[0-9a-f]{8}|(?:[0-9a-f]{2} ){4})\s+(\S+)", line)
        if found:
            known[int(found.group(1), 16) // 4] = found.group(2)
    file = folder / "word"
    legal = 0
    for k, word in enumerate(words):
        file.write_bytes(executable(word))
        told = subprocess.run([theta, "run", "--steps", "1", file], capture_output=True, stdin=subprocess.DEVNULL)
        decodes = not told.stderr.startswith(b"trap illegal")
        if known[k] in MNEMONICS and word >> 25 & 1 and word & 0x7F == 0x13 and word >> 12 & 3 == 1:
            known[k] = "a shift of 64-bit registers"
        assert decodes == (known[k] in MNEMONICS), f"{word:08x}: {known[k]}, {told.stderr}"
        legal += decodes
    print(f"words: {COUNT} as the disassembler has them, {legal} of them instructions")


def compiler():
    """The words of a call that builds a program for rv32im; None where there is no such compiler."""
    gnu = shutil.which("riscv64-unknown-elf-gcc")
    if gnu:
        return [gnu]
    clang, linker = shutil.which("clang"), shutil.which("ld.lld")
    return [clang, "--target=riscv32", "-fuse-ld=lld"] if clang and linker else None


def compare_program(theta, folder):
    words, host = compiler(), shutil.which("cc")
    if words is None or host is None:
        print("program: skipped, since there is no compiler for RISC-V or for the host")
        return
    source, target, native = HERE / "program.c", folder / "program", folder / "native"
    run([host, "-DHOST", "-O2", "-o", native, source])
    expected = run([native])
    for level in ["-O0", "-O2"]:
        run([*words, "-march=rv32im", "-mabi=ilp32", level, "-ffreestanding", "-fno-builtin", "-nostdlib", "-static",
             "-o", target, source])
        told = subprocess.run([theta, "run", target], capture_output=True, stdin=subprocess.DEVNULL, text=True)
        assert (told.returncode, told.stderr, told.stdout) == (0, "", expected), (level, told)
        print(f"program: {level} puts the {len(expected)} bytes of the host's")


def main():
    theta = pathlib.Path(sys.argv[1] if len(sys.argv) > 1 else HERE.parents[1] / "crates/theta/out/theta")
    with tempfile.TemporaryDirectory() as folder:
        compare_words(theta, pathlib.Path(folder))
        compare_program(theta, pathlib.Path(folder))


main()
