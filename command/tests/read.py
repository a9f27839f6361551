"""Reads lines of JSON that the command prints, holds them to the names that docs/REFERENCE.md has, and
tells each object again, from its numbers and texts alone, as the programs would. A NUL ends each."""

import json
import pathlib
import sys

VERDICTS = {"accepted": 0, "missing": 11, "repeated": 12, "unfit": 13, "may_fault": 18, "unmet": 14}
FAULT = {"refusal", "file", "line", "whose", "words", "expected", "found"}
REPORT = {"call", "folder", "status", "faults"}
TOTAL = {"call", "status", "folders", "results", "refused", "unread", "marks", "accepted", "counts", "ticks"}
CHECK = {"marks", "accepted", "bytes", "counts", "verdicts", "program", "prices", "ticks"}
PRICES = {"before", "after"}
TICKS = {"given", "rewritten", "saved"}
MARK = {"line", "mark", "statement", "verdict", "name", "words", "condition"}
BECAUSE = {"culprit", "path"}
STEP = {"statement", "text", "does"}
CULPRITS = {"used", "used_by_cse", "redefined", "operand_redefined", "nothing_copied"}
TABULATE = {"condition", "statements", "parts", "satisfied", "first", "table"}
FORCE = {"driver", "condition", "parts", "satisfied", "first", "forced", "statements"}
PLACE = {"statement", "text", "player", "number", "arm"}
ROW = {"part", "text", "satisfied", "statements"}
AT = {"statement", "part", "truth", "path", "turn"}
REVIEW = {"statements", "tables", "lines", "conditions"}
CONDITION = {"line", "condition", "table", "parts", "satisfied", "first", "statements"}
START = {"input", "budget", "values", "outcome"}
ENDED = START | {"value", "steps", "ticks", "kept"}
SPENT = START | {"statement", "ticks", "left"}
FAULTED = START | {"statement", "steps", "ticks"}
PRICE = {"table", "prices", "ticks", "runs"}
RUNS = {"input", "budget", "values", "given", "rewritten"}
LINES = {"marks", "bytes", "lines"}
LINE = {"line", "begin", "end", "mark"}
LIST = {"statements", "variables"}
VARIABLE = {"variable", "defined", "defining", "used", "using"}
PAIR = {"call", "road", "creeper", "status", "faults"}
JOIN = {"statements", "bytes", "program"}
STAGE = {"place", "name", "lines", "bytes"}
STAGES = {"action", "stages", "empty"}
KEPT = STAGE | {"action"}
RETURNED = {"action", "name", "lines", "bytes", "program"}

# The totals of the folders that were checked since the last total.
summed = dict.fromkeys(TICKS, 0)


def has(thing, names):
    assert set(thing) == names, (sorted(thing), sorted(names))


def whole(number):
    return type(number) is int


def total(thing):
    has(thing, TOTAL)
    has(thing["counts"], set(VERDICTS))
    assert thing["folders"] == thing["results"] + thing["refused"] + thing["unread"]
    assert thing["marks"] == sum(thing["counts"].values())
    assert thing["accepted"] == thing["counts"]["accepted"]
    assert thing["ticks"] == summed
    summed.update(dict.fromkeys(TICKS, 0))
    return "total {folders} {results} {refused} {unread} {marks} {accepted} status {status}\n".format(**thing)


def judged(mark, others):
    """A mark with its verdict, and with 14 at times the path that speaks against it."""
    has(mark, others | MARK | {"because"} & set(mark))
    assert mark["verdict"] == VERDICTS[mark["name"]]
    assert mark["mark"].startswith("%d: mark(" % mark["statement"])
    assert (mark["words"] == "accepted") == (mark["verdict"] == 0)
    if "because" not in mark:
        return
    assert mark["verdict"] == 14
    has(mark["because"], BECAUSE)
    assert mark["because"]["culprit"] in CULPRITS
    path = mark["because"]["path"]
    for step in path:
        has(step, STEP)
    assert len(path) >= 2 and path[0]["statement"] == mark["statement"] and path[-1]["does"]


def why(thing):
    judged(thing, REPORT)
    assert ("because" in thing) == (thing["verdict"] == 14)
    path = thing.get("because", {"path": []})["path"]
    return "{line} {verdict}".format(**thing) + "".join(" %d" % step["statement"] for step in path) + "\n"


def check(thing):
    has(thing, REPORT | CHECK)
    has(thing["counts"], set(VERDICTS))
    text = "marks {marks} accepted {accepted}\n".format(**thing)
    for at, mark in enumerate(thing["verdicts"]):
        assert mark["line"] == at + 1
        judged(mark, set())
        text += "{statement} {verdict}\n".format(**mark)
    for name in VERDICTS:
        assert thing["counts"][name] == sum(mark["name"] == name for mark in thing["verdicts"])
    assert thing["marks"] == len(thing["verdicts"])
    assert thing["accepted"] == thing["counts"]["accepted"]
    assert thing["bytes"] == len(thing["program"].encode())
    assert len(thing["prices"]["before"]) == thing["program"].count("\n")
    text += thing["program"] + costs(thing)
    for name in TICKS:
        summed[name] += thing["ticks"][name]
    return text


def costs(thing):
    has(thing["prices"], PRICES)
    has(thing["ticks"], TICKS)
    before, after = thing["prices"]["before"], thing["prices"]["after"]
    assert len(before) == len(after)
    assert thing["ticks"]["given"] == sum(before) and thing["ticks"]["rewritten"] == sum(after)
    assert thing["ticks"]["saved"] == sum(before) - sum(after)
    text = "".join("%d %d %d\n" % (at + 1, *pair) for at, pair in enumerate(zip(before, after)))
    return text + "{given}\n{rewritten}\n{saved}\n".format(**thing["ticks"])


def price(thing):
    has(thing, REPORT | PRICE)
    assert len(thing["table"]) == 11 and all(1 <= price <= 65535 for price in thing["table"])
    assert set(thing["prices"]["before"] + thing["prices"]["after"]) <= set(thing["table"])
    text = costs(thing)
    if thing["runs"] is None:
        return text
    has(thing["runs"], RUNS)
    start = {name: thing["runs"][name] for name in ("input", "budget", "values")}
    for name in ("given", "rewritten"):
        ending = dict(thing["runs"][name], **start, call="run", folder="", status=0, faults=[])
        text += "%s %s\n" % (name, run(ending).split("\n")[0])
    return text


def tabulate(thing):
    has(thing, REPORT | TABULATE | {"at"} & set(thing))
    text = ""
    if "at" in thing:
        at = thing["at"]
        has(at, AT)
        assert 1 <= at["part"] <= thing["parts"] and 1 <= at["statement"] <= thing["statements"]
        assert at["truth"] == (at["statement"] in thing["table"][at["part"] - 1]["statements"])
        assert at["path"] is None or at["path"][0] == at["statement"]
        assert at["turn"] is None or 1 <= at["turn"] <= len(at["path"])
    for at, row in enumerate(thing["table"]):
        has(row, ROW)
        assert row["part"] == at + 1
        assert row["satisfied"] == len(row["statements"])
        assert all(1 <= number <= thing["statements"] for number in row["statements"])
        text += "{part} {text} {statements}\n".format(**row)
    assert thing["parts"] == len(thing["table"])
    assert thing["table"][-1]["text"] == thing["condition"]
    assert thing["satisfied"] == thing["table"][-1]["satisfied"]
    assert thing["first"] == (thing["table"][-1]["statements"] + [0])[0]
    return text + "parts {parts} satisfied {satisfied} first {first}\n".format(**thing)


def review(thing):
    has(thing, REPORT | REVIEW)
    text = ""
    for at, row in enumerate(thing["conditions"]):
        has(row, CONDITION)
        assert row["line"] == at + 1
        assert 0 <= row["table"] < thing["tables"] and row["parts"] >= 1
        assert row["satisfied"] == len(row["statements"])
        assert row["first"] == (row["statements"] + [0])[0]
        assert all(1 <= number <= thing["statements"] for number in row["statements"])
        text += "{line} {table} {parts} {satisfied} {first} {condition} {statements}\n".format(**row)
    assert thing["lines"] == len(thing["conditions"])
    return text + "tables {tables} lines {lines}\n".format(**thing)


def force(thing):
    has(thing, REPORT | FORCE)
    text = ""
    for at, place in enumerate(thing["statements"]):
        has(place, PLACE)
        assert place["statement"] == at + 1
        assert (place["player"] is None) == (not place["text"].startswith("if "))
        assert place["player"] in (None, "driver", "unit") and place["arm"] in (None, "goto", "else")
        assert place["arm"] is None or (place["player"] == "driver") == (place["number"] is not None)
        if place["player"] is not None:
            assert (place["player"] == "driver") == (place["text"].split(" ")[1] in thing["driver"])
        number = "-" if place["number"] is None else str(place["number"])
        line = "%4d  %-32s  %-6s  %4s" % (at + 1, place["text"], place["player"] or "", number)
        text += line + ("" if place["arm"] is None else "  " + place["arm"]) + "\n"
    assert thing["forced"] == sum(place["number"] is not None for place in thing["statements"])
    assert thing["satisfied"] == sum(place["number"] == 0 for place in thing["statements"])
    return text + "parts {parts} satisfied {satisfied} first {first} forced {forced}\n".format(**thing)


def run(thing):
    assert len(thing["values"]) == 64 and all(map(whole, thing["values"]))
    if thing["outcome"] == "ended":
        has(thing, REPORT | ENDED)
        assert len(thing["kept"]) == 8 and all(map(whole, thing["kept"]))
        kept = " ".join(map(str, thing["kept"]))
        return "ended {value} steps {steps} ticks {ticks} kept ".format(**thing) + kept + "\n"
    if thing["outcome"] == "fault":
        has(thing, REPORT | FAULTED)
        return "fault at {statement} steps {steps} ticks {ticks}\n".format(**thing)
    has(thing, REPORT | SPENT)
    assert thing["outcome"] == "spent" and len(thing["left"]) == 64
    lines = ["i%d = %d\n" % (x, value) for x, value in enumerate(thing["left"])]
    return "spent at {statement} ticks {ticks}\n".format(**thing) + "".join(lines)


def lines(thing):
    has(thing, REPORT | LINES)
    text, begin = "", 0
    for at, line in enumerate(thing["lines"]):
        has(line, LINE)
        assert line["line"] == at + 1
        assert line["begin"] == begin
        begin = line["end"]
        assert begin == line["begin"] + len(line["mark"].encode()) + 1
        text += "{line} {begin} {end} {mark}\n".format(**line)
    assert thing["marks"] == len(thing["lines"])
    assert thing["bytes"] == begin
    return text + "marks {marks} bytes {bytes}\n".format(**thing)


def counted(count, statements, most):
    assert count == len(statements)
    assert all(1 <= number <= most for number in statements)
    assert statements == sorted(set(statements))
    return " ".join(["%d%s" % (count, ":" if statements else "")] + list(map(str, statements)))


def listed(thing):
    has(thing, REPORT | LIST)
    text = ""
    for row in thing["variables"]:
        has(row, VARIABLE)
        assert row["defined"] + row["used"] > 0
        defined = counted(row["defined"], row["defining"], thing["statements"])
        used = counted(row["used"], row["using"], thing["statements"])
        text += "%s defined %s used %s\n" % (row["variable"], defined, used)
    return text


def join(thing):
    has(thing, PAIR | JOIN)
    assert thing["bytes"] == len(thing["program"].encode())
    assert thing["statements"] == thing["program"].count("\n")
    return "statements {statements} bytes {bytes}\n".format(**thing) + thing["program"]


def stage_line(stage):
    assert 1 <= stage["place"] <= 8 and 1 <= len(stage["name"]) <= 8 and stage["name"].islower()
    assert 2 <= stage["lines"] <= 1024 and stage["lines"] < stage["bytes"]
    return "place {place} name {name} lines {lines} bytes {bytes}\n".format(**stage)


def stage(thing):
    if thing["action"] == "keep":
        has(thing, REPORT | KEPT)
        return stage_line(thing)
    if thing["action"] == "return":
        has(thing, REPORT | RETURNED)
        assert thing["bytes"] == len(thing["program"].encode())
        assert thing["lines"] == thing["program"].count("\n")
        return thing["program"]
    has(thing, REPORT | STAGES)
    assert thing["action"] == "list"
    text = ""
    for held in thing["stages"]:
        has(held, STAGE)
        text += stage_line(held)
    places = [held["place"] for held in thing["stages"]]
    assert places == sorted(set(places)) and len({held["name"] for held in thing["stages"]}) == len(places)
    assert thing["empty"] == 8 - len(places)
    return text + "stages %d empty {empty}\n".format(**thing) % len(places)


def faults(thing):
    """The refusal, `refused start`, or nothing where a file wasn't read."""
    text = ""
    for fault in thing["faults"]:
        has(fault, FAULT | {"byte", "slip"} & set(fault))
        assert "byte" not in fault or fault["refusal"] == 7 and whole(fault["byte"]) and fault["byte"] > 0
        assert "slip" not in fault or fault["refusal"] in (None, 2, 5, 7, 9, 19)
        assert fault["file"] and fault["whose"] and fault["words"] and fault["expected"]
        assert fault["line"] is None or whole(fault["line"])
        if fault["refusal"] is not None:
            text = "refused %d\n" % fault["refusal"]
        elif fault["whose"] == "the start":
            text = "refused start\n"
    return text


def told(thing):
    assert thing["status"] in (0, 1, 2)
    if "folder" not in thing and thing["call"] == "check":
        return total(thing)
    assert (thing["status"] == 0) == (thing["faults"] == [])
    refused = faults(thing)
    if set(thing) == (PAIR if thing["call"] == "join" else REPORT):
        assert thing["status"] != 0
        return refused
    assert refused == ""
    tells = {"check": check, "why": why, "tabulate": tabulate, "review": review, "force": force, "run": run, "price": price, "lines": lines, "list": listed, "join": join, "stage": stage}
    return tells[thing["call"]](thing)


described = pathlib.Path(__file__).parents[2].joinpath("docs/REFERENCE.md").read_text()
for names in (
    VERDICTS, FAULT, REPORT, TOTAL, CHECK, PRICES, TICKS, MARK, BECAUSE, STEP, CULPRITS, TABULATE, ROW, AT, REVIEW, CONDITION, FORCE, PLACE, ENDED, SPENT, FAULTED, PRICE, RUNS, LINES, LINE, LIST, VARIABLE, PAIR, JOIN, STAGES, KEPT, RETURNED
):
    for name in names:
        assert "`%s`" % name in described, name

for line in sys.stdin.buffer:
    assert line.endswith(b"\n")
    sys.stdout.write(told(json.loads(line)) + "\0")
