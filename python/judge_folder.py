#!/usr/bin/env python3
"""Judges the marks of a folder: python3 python/judge_folder.py [FOLDER]. Without a folder it is examples/p.

The cells, each behind `# %%`, may be run one by one in an editor or a notebook that knows them. Run as a program it exits with 0 for a result,
1 for a refusal and 2 for usage or a file that can't be read.
"""

# %% The folder: a program in `given`, an optimiser's marks in `marks`. They are read as bytes, so that a carriage return is seen.
import pathlib
import re
import sys

HERE = pathlib.Path(__file__).resolve().parent if "__file__" in globals() else pathlib.Path("python").resolve()
sys.path.insert(0, str(HERE))
import rewrites  # noqa: E402


def end(status, message):
    """Ends with a message on standard error."""
    print(message, file=sys.stderr)
    sys.exit(status)


as_program = __name__ == "__main__" and pathlib.Path(sys.argv[0]).name == "judge_folder.py"
words = sys.argv[1:] if as_program else []
if words in (["-h"], ["--help"]):
    print(__doc__.strip())
    sys.exit(0)
if len(words) > 1:
    end(2, f"judge_folder.py: the caller: expected at most one folder, found {len(words)} words")
folder = pathlib.Path(words[0]) if words else HERE.parent / "examples" / "p"
try:
    given, marks = (folder / "given").read_bytes(), (folder / "marks").read_bytes()
    start = (folder / "start").read_bytes() if (folder / "start").exists() else None
except OSError as error:
    end(2, f"{error.filename}: the caller: {error.strerror}; expected a file that can be read")

# %% Each mark and its verdict.
try:
    judged = rewrites.judge(given, marks)
except rewrites.Refused as refused:
    end(1, f"{folder / {'program': 'given', 'marks': 'marks'}[refused.argument]}: {refused}")
listed = [marks[rewrites.mark_line(marks, line)].decode().rstrip("\n") for line in range(judged.marks)]
print(f"marks {judged.marks} accepted {judged.accepted}")
for mark, verdict in zip(listed, judged.verdicts):
    print(f"{verdict:4}  {mark:40}  {verdict.words}")

# %% Where the condition of a mark is true that is refused for it (14). An `rm` may be refused though its condition is true here: where an
# accepted `cse` of the list has a statement read the variable.
PUBLISHED = {
    "rm": "!EX E[!def({x}) U use({x})]",
    "rpl": "AY A[((!def({x}) & trans({e})) & !entry) B stmt({x} := {e})]",
    "cse": "AY A[((!def({x}) & trans({e})) & !entry) B (stmt({x} := {e}) & trans({e}))]",
}
for mark, verdict in zip(listed, judged.verdicts):
    if verdict == rewrites.Verdict.UNMET:
        kind, x, e = re.fullmatch(r"\d+: mark\((\w+), (\w+), (.+)\)", mark).groups()
        condition = PUBLISHED[kind].format(x=x, e=e)
        told = rewrites.tabulate(given, condition)
        places = " ".join(map(str, told.table.statements_of(told.parts - 1))) or "nowhere"
        print(f"\n{mark}\n    {condition}\n    true at: {places}")

# %% The given program and the new one, side by side; `*` stands at lines that differ.
print()
for number, (old, new) in enumerate(zip(given.decode().splitlines(), judged.text.splitlines()), start=1):
    print(f"{number:4} {'*' if old != new else ' '} {old:34}{new}".rstrip())

# %% What both cost by our prices.
report = rewrites.report(given, marks)
print(f"\nticks: given {report.given}, rewritten {report.rewritten}, saved {report.saved}")

# %% Both run from the folder's start: its input, its budget, and values. Their answers agree but for ticks.
if start is not None:
    numbers = [int(line) for line in re.findall(rb"(0|-?[1-9][0-9]*)\n", start)]
    if b"".join(b"%d\n" % number for number in numbers) != start or not 2 <= len(numbers) <= 2 + rewrites.VARIABLES:
        end(1, f"{folder / 'start'}: the start: expected the input, the budget and up to 64 values, one a line, each ended by byte 10")
    input_value, budget, *values = numbers
    values += [0] * (rewrites.VARIABLES - len(values))
    try:
        for name, program in (("given", given), ("rewritten", judged.text)):
            print(f"{name}: {rewrites.run(program, values, input_value, budget)}")
    except (rewrites.Refused, ValueError) as wrong:
        end(1, f"{folder / 'start'}: {wrong}")
