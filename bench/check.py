#!/usr/bin/env python3
"""Bytes per second through `swiftx check`, for texts of 262,144 bytes that are dense in one thing each.

Prints, for each text, bytes per second of processor time (the best of three runs), the greatest memory of the process,
and what the program answered. Usage: bench/check.py [PROGRAM], where PROGRAM is the built swiftx.
"""
import os
import subprocess
import sys
import tempfile

TOP = os.path.dirname(os.path.dirname(os.path.abspath(__file__)))
MOST = 262_144
MOST_TOKENS = 65_536


def filled(unit, tokens, head="", tail=""):
    """As many whole units of so many tokens as a text may have, padded with spaces to its greatest length."""
    room = MOST - len(head) - len(tail)
    count = min(room // len(unit), (MOST_TOKENS - 40) // tokens)
    return (head + unit * count).ljust(MOST - len(tail)) + tail


def short_statements():
    return filled("tally(argument)\n", 4, "func tally(_ a: Int) {}\nlet argument = 1\n")


def tokens_without_space():
    return filled("a=a+1;", 6, "var a=1;")


def deep_nesting():
    return filled("a = " + "(  " * 190 + "1" + ")   " * 190 + "\n", 383, "var a = 1\n")


def long_chain():
    return filled(" + 12345", 2, "print(1", ")")


def many_names():
    lines, size, number = [], 0, 0
    while True:
        line = f"let name{number} = {number}\n"
        if size + len(line) > MOST:
            return "".join(lines).ljust(MOST)
        lines.append(line)
        size += len(line)
        number += 1


def numbered(unit, tokens, head="", head_tokens=40):
    """The same of units that are made of their number, from 0 on, behind a head of at most so many tokens."""
    pieces, size, number = [head], len(head), 0
    while number < (MOST_TOKENS - head_tokens) // tokens:
        piece = unit(number)
        if size + len(piece) > MOST:
            break
        pieces.append(piece)
        size += len(piece)
        number += 1
    return "".join(pieces).ljust(MOST)


def many_functions():
    return numbered(lambda i: f"func f{i}(){{}}\n", 6)


def functions_that_call():
    return numbered(lambda i: f"func f{i}(){{f{i // 2}()}}\n", 9)


def many_globals():
    return numbered(lambda i: f"let a{i}=1\n", 4)


def globals_from_globals():
    return numbered(lambda i: f"let a{i}=a{i - 1}\n" if i else "let a0=1\n", 4)


def fields_used_everywhere():
    fields = "".join(f"var a{i}=0;" for i in range(1024))
    return numbered(lambda i: f"s.a{i % 1024}=s.a{i * 7 % 1024}\n", 7, "struct S{" + fields + "}\nvar s=S()\n", 5140)


def structures_in_structures():
    return numbered(lambda i: f"struct S{i}{{var a:S{i - 1};func f(){{}}}}\n" if i else "struct S0{var a:Int}\n", 15)


def initial_values_of_structures():
    return numbered(lambda i: f"struct S{i}{{var a=S{i - 1}()}}\n" if i else "struct S0{var a=1}\n", 10)


def closures_in_closures():
    deep = 180
    unit = "a={()->Void in " * deep + "a()" + "}" * deep + "\n"
    return filled(unit, 9 * deep + 4, "var a:()->Void={}\n")


def wide_globals():
    fields = "".join(f"var a{i}=0;" for i in range(1024))
    return numbered(lambda i: f"var g{i}=S()\n", 6, "struct S{" + fields + "}\n", 5140)


def names_declared_again():
    return filled("let a = 1\n", 4)


def long_comments():
    return filled("/* " + "comment " * 100 + "*/\n", 1, "print(1)\n")


def long_literals():
    return filled('print("' + "text " * 200 + '")\n', 4)


TEXTS = [("short statements", short_statements), ("tokens", tokens_without_space), ("deep nesting", deep_nesting),
         ("one long chain", long_chain), ("many names", many_names), ("long comments", long_comments),
         ("long literals", long_literals), ("functions", many_functions), ("calls", functions_that_call),
         ("globals", many_globals), ("given globals", globals_from_globals), ("fields", fields_used_everywhere),
         ("structures", structures_in_structures), ("given structures", initial_values_of_structures),
         ("closures", closures_in_closures), ("wide globals", wide_globals), ("one name", names_declared_again)]


def measured(words):
    """Processor seconds, greatest memory in bytes, the status and the second output of one run."""
    with tempfile.TemporaryFile() as err:
        child = subprocess.Popen(words, stdout=subprocess.DEVNULL, stderr=err)
        _, status, usage = os.wait4(child.pid, 0)
        err.seek(0)
        return usage.ru_utime + usage.ru_stime, usage.ru_maxrss * 1024, os.waitstatus_to_exitcode(status), err.read()


def main():
    program = sys.argv[1] if len(sys.argv) > 1 else os.path.join(TOP, "swiftx")
    with tempfile.TemporaryDirectory() as folder:
        for name, text_of in TEXTS:
            path = os.path.join(folder, "text.swift")
            with open(path, "w") as file:
                file.write(text_of())
            runs = [measured([program, "check", path]) for _ in range(3)]
            seconds = max(min(run[0] for run in runs), 1e-6)
            memory = max(run[1] for run in runs)
            answer = runs[0][3].decode().strip() or f"status {runs[0][2]}"
            print(f"{name:18} {os.path.getsize(path) / seconds / 1e6:7.2f} MB a second, {memory / 1e6:6.1f} MB of memory, {answer}",
                  flush=True)


if __name__ == "__main__":
    main()
