#!/usr/bin/env python3
"""The script that a seed gives, line by line from its rules, for what the program counts of it to be compared with
(checks/plain, checks/words).

    checks/loads/model.py SEED     prints it
"""
import os
import sys

sys.dont_write_bytecode = True
sys.path.insert(0, os.path.dirname(os.path.dirname(os.path.abspath(__file__))))
from schedules import Numbers

SESSIONS, STEPS, KEYS, VALUES, PARTITIONS, ROWS = 8, 64, 320, 1000, 32, 512


def bound(partition):
    return f"FROM ({10 * partition}) TO ({10 * partition + 10})"


def row(numbers):
    key = numbers.below(KEYS)
    return f"({key}, {numbers.below(VALUES)})"


def statement(numbers):
    choice = numbers.below(10)
    if choice == 0:
        return "BEGIN;"
    if choice == 1:
        return "COMMIT;"
    if choice in (2, 3):
        return f"SELECT * FROM g WHERE k = {numbers.below(KEYS)};"
    if choice == 4:
        return f"INSERT INTO g VALUES {row(numbers)};"
    if choice == 5:
        return f"UPDATE g SET v = v + 1 WHERE k < {numbers.below(KEYS)};"
    if choice == 6:
        new = numbers.below(KEYS)
        return f"UPDATE g SET k = {new} WHERE k = {numbers.below(KEYS)};"
    if choice == 7:
        return f"DELETE FROM g WHERE k = {numbers.below(KEYS)};"
    partition = numbers.below(PARTITIONS)
    if choice == 8:
        return f"ALTER TABLE g DETACH PARTITION g{partition} CONCURRENTLY;"
    return f"ALTER TABLE g ATTACH PARTITION g{partition} FOR VALUES {bound(partition)};"


def uses(numbers):
    left = [[f"w{i}_{j}" for j in range(1, STEPS + 1)] for i in range(1, SESSIONS + 1)]
    for _ in range(SESSIONS * STEPS):
        first = numbers.below(SESSIONS)
        steps = next(steps for steps in left[first:] + left[:first] if steps)
        yield steps.pop(0)


def script(seed):
    numbers = Numbers(seed)
    lines = ["setup { CREATE TABLE g (k int, v int) PARTITION BY RANGE (k); }"]
    for partition in range(PARTITIONS):
        lines.append(f"setup {{ CREATE TABLE g{partition} PARTITION OF g FOR VALUES {bound(partition)}; }}")
    lines.append(f"setup {{ INSERT INTO g VALUES {', '.join(row(numbers) for _ in range(ROWS))}; }}")
    for i in range(1, SESSIONS + 1):
        lines.append(f"session w{i}")
        lines += [f"step w{i}_{j} {{ {statement(numbers)} }}" for j in range(1, STEPS + 1)]
    lines.append("permutation " + " ".join(uses(numbers)))
    return "\n".join(lines)


if __name__ == "__main__":
    print(script(int(sys.argv[1])))
