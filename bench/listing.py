#!/usr/bin/env python3
"""Writes a listing of at most 65,536 bytes. Of the turns that are taken, most apply a rule: listing.py adds|waits|busy"""
import itertools
import sys

CELLS = 40


def line(letter, *fields):
    return letter + "".join(str(n).rjust(11) for n in fields) + "\n"


def job(number, *steps):
    return line("J", number) + "".join(line(*step) for step in steps)


def adds():
    """16 jobs that add 1 to one cell take turns one by one: each commit sends the others back."""
    steps = [("R", 0, 0), ("K", 1, 1), ("A", 0, 1), ("W", 0, 0), ("E",)]
    jobs = [job(number, *steps) for number in range(1, 17)]
    return jobs, itertools.cycle(line("G", number, 1) for number in range(1, 17))


def waits():
    """8 jobs read 23 cells and wait; 8 others commit 22 cells each, and after each cell those that wait read anew."""
    reads = [("R", 0, cell) for cell in range(23)]
    jobs = [job(number, *reads, ("T",)) for number in range(1, 9)]
    for number in range(9, 17):
        writes = [("W", cell, 0) for cell in range(22)]
        jobs.append(job(number, ("K", 0, number), *writes, ("E",)))
    all_waiting = [line("G", number, 10000) for number in range(1, 9)]
    turns = list(all_waiting)
    for number in range(9, 17):
        turns.append(line("G", number, 26))
        for _ in range(22):
            turns += [line("G", number, 1), *all_waiting]
        turns.append(line("G", number, 1))
    return jobs, turns


def busy():
    """16 jobs of 21 steps that read and write cells of each other have 7 turns each, again and again."""
    jobs = []
    for number in range(1, 17):
        reads = [("R", 0, (3 * i + number) % CELLS) for i in range(10)]
        writes = [("W", (5 * i + number) % CELLS, 0) for i in range(8)]
        jobs.append(job(number, *reads, ("K", 1, 1), ("A", 0, 1), *writes, ("E",)))
    return jobs, itertools.cycle(line("G", number, 7) for number in range(1, 17))


jobs, turns = {"adds": adds, "waits": waits, "busy": busy}[sys.argv[1]]()
text = line("M", CELLS) + "".join(jobs)
for turn in turns:
    if len(text) + len(turn) > 65536:
        break
    text += turn
sys.stdout.write(text)
