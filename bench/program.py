#!/usr/bin/python3
"""Times the program on whole sheets, and on a sheet without calls, and compares what it prints with the other answers."""
import subprocess
import sys
import time

ROUNDS = 60


def shortest(program, sheet):
    best = float("inf")
    for _ in range(ROUNDS):
        begin = time.perf_counter()
        printed = subprocess.run([program], input=sheet, stdout=subprocess.PIPE, check=True).stdout
        best = min(best, time.perf_counter() - begin)
    return best, printed


def main():
    program, other, folder = sys.argv[1:]
    sheet = open(f"{folder}/sheet_64_0", "rb").read()
    no_calls = sheet[: sheet.index(b"rest\n") + 5]
    took, printed = shortest(program, sheet)
    if subprocess.run([other], input=sheet, stdout=subprocess.PIPE, check=True).stdout != printed:
        sys.exit("the program and the library print different answers")
    start, _ = shortest(program, no_calls)
    print(f"The program on a sheet of 64 KiB: {took * 1e3:.2f} ms, of which a sheet without calls takes {start * 1e3:.2f} ms.")


main()
