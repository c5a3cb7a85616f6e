"""Tells what is wrong in a SARIF log: properties that are missing, unknown or of another type, and references to what isn't there."""
import re

# The objects of SARIF 2.1.0 that a log of faults has, with the properties that it uses; those with a mark are required, by the schema
# or by code scanning. A value is a text, a truth value, an integer that is at least this one, a word of this set, this object, or a
# list of this object.
LEVELS = {"none", "note", "warning", "error"}
OBJECTS = {
    "log": {"!version": {"2.1.0"}, "$schema": str, "!runs": ["run"]},
    "run": {
        "!tool": "tool",
        "!results": ["result"],
        "invocations": ["invocation"],
        "columnKind": {"utf16CodeUnits", "unicodeCodePoints"},
    },
    "tool": {"!driver": "driver"},
    "driver": {"!name": str, "rules": ["descriptor"], "notifications": ["descriptor"]},
    "descriptor": {
        "!id": str,
        "!shortDescription": "message",
        "!fullDescription": "message",
        "!help": "message",
        "defaultConfiguration": "configuration",
    },
    "message": {"!text": str},
    "configuration": {"level": LEVELS},
    "result": {"!message": "message", "!ruleId": str, "!ruleIndex": 0, "level": LEVELS, "!locations": ["location"]},
    "location": {"!physicalLocation": "physicalLocation"},
    "physicalLocation": {"!artifactLocation": "artifactLocation", "!region": "region"},
    "artifactLocation": {"!uri": str},
    "region": {"!startLine": 1, "startColumn": 1, "endLine": 1, "endColumn": 1},
    "invocation": {"!executionSuccessful": bool, "!toolExecutionNotifications": ["notification"]},
    "notification": {"!message": "message", "!descriptor": "reference", "level": LEVELS},
    "reference": {"!id": str},
}


def wrong_value(kind, value, place):
    """What is wrong in a value, by its kind."""
    if isinstance(kind, str):
        return wrong_object(kind, value, place)
    if isinstance(kind, list) and isinstance(value, list):
        return [wrong for number, it in enumerate(value) for wrong in wrong_value(kind[0], it, f"{place}[{number}]")]
    if isinstance(kind, set):
        holds = value in kind
    elif isinstance(kind, int):
        holds = type(value) is int and value >= kind
    else:
        holds = type(value) is kind
    return [] if holds else [f"{place} is {value!r}"]


def wrong_object(name, value, place):
    """What is wrong in an object, by its name in the table."""
    if not isinstance(value, dict):
        return [f"{place} isn't an object"]
    kinds = {it.lstrip("!"): kind for it, kind in OBJECTS[name].items()}
    wrong = [f"{place} lacks {it[1:]}" for it in OBJECTS[name] if it[0] == "!" and it[1:] not in value]
    wrong += [f"{place} has {it}" for it in value if it not in kinds]
    return wrong + [one for it in value if it in kinds for one in wrong_value(kinds[it], value[it], f"{place}.{it}")]


def wrong_place(place):
    """What is wrong in the place of a result: a name that is no URI, a region that ends before it begins."""
    uri, region = place["artifactLocation"]["uri"], place["region"]
    wrong = [] if re.fullmatch(r"(file:///)?([\w.~/-]|%[0-9A-F]{2})+", uri, re.ASCII) else [f"{uri!r} isn't a URI"]
    if "startColumn" in region and (region["startLine"], region["startColumn"]) > (region["endLine"], region["endColumn"]):
        wrong.append(f"{region} ends before it begins")
    return wrong


def wrong_run(run):
    """What is wrong among the parts of a run. Code scanning takes a result only if it has a place."""
    driver = run["tool"]["driver"]
    rules, notices = ([it["id"] for it in driver.get(part, [])] for part in ("rules", "notifications"))
    wrong = [f"{it} is there twice" for it in set(rules + notices) if (rules + notices).count(it) > 1]
    for it in run["results"]:
        wrong += [] if rules[it["ruleIndex"] :][:1] == [it["ruleId"]] else [f"{it['ruleId']} isn't the rule {it['ruleIndex']}"]
        wrong += [] if len(it["locations"]) == 1 else ["a result that hasn't one place"]
        wrong += [one for place in it["locations"] for one in wrong_place(place["physicalLocation"])]
    for call in run.get("invocations", []):
        wrong += [f"{it} has no descriptor" for it in call["toolExecutionNotifications"] if it["descriptor"]["id"] not in notices]
    return wrong


def wrong_log(log):
    """What is wrong in a log."""
    return wrong_object("log", log, "log") or [one for run in log["runs"] for one in wrong_run(run)]
