"""Makes a SARIF 2.1.0 log of faults, for code scanning."""
import posixpath
import urllib.parse

from . import carets, codes

SCHEMA = "https://json.schemastore.org/sarif-2.1.0.json"


def uri_of(name):
    """The URI of a file, relative if its name is."""
    path = posixpath.normpath(name.encode("utf-8", "surrogateescape"))
    return ("file://" if path.startswith(b"/") else "") + urllib.parse.quote(path)


def region_of(it):
    """The region of a span. Its columns count characters, which only the file tells; if that can't be read, the region is the line."""
    if it.found is None:
        return {"startLine": it.span.line}
    start, end = carets.columns(it.found)
    return {"startLine": it.found.first, "startColumn": start, "endLine": it.found.last, "endColumn": end}


def id_of(it):
    return it.code.replace(" ", "-")


def descriptor_of(it, text):
    """A code, with its meaning and the text that explains it."""
    meaning = {"text": codes.meaning(it.code, it.rows)}
    return {
        "id": id_of(it),
        "shortDescription": meaning,
        "fullDescription": meaning,
        "help": {"text": text},
        "defaultConfiguration": {"level": "error"},
    }


class Log:
    """The faults so far. A result needs a file, so a fault without one is a notification."""

    def __init__(self):
        self.rules, self.results, self.notices, self.notifications = {}, [], {}, []

    def add_rule(self, it, text):
        self.rules.setdefault(id_of(it), descriptor_of(it, text))

    def add_result(self, it, text):
        self.add_rule(it, text)
        place = {"artifactLocation": {"uri": uri_of(it.span.file)}, "region": region_of(it)}
        self.results.append({
            "ruleId": id_of(it),
            "ruleIndex": list(self.rules).index(id_of(it)),
            "level": "error",
            "message": {"text": codes.meaning(it.code, it.rows)},
            "locations": [{"physicalLocation": place}],
        })

    def add_notification(self, it, line, text):
        self.notices.setdefault(id_of(it), descriptor_of(it, text))
        said = {"text": f"{line}: {codes.meaning(it.code, it.rows)}"}
        self.notifications.append({"descriptor": {"id": id_of(it)}, "level": "error", "message": said})

    def add(self, it, line, text):
        """Adds the fault that a line is."""
        if it.span:
            self.add_result(it, text)
        else:
            self.add_notification(it, line, text)

    def value(self):
        driver = {"name": "asl", "rules": list(self.rules.values())}
        run = {"tool": {"driver": driver}, "columnKind": "unicodeCodePoints", "results": self.results}
        if self.notifications:
            driver["notifications"] = list(self.notices.values())
            run["invocations"] = [{"executionSuccessful": False, "toolExecutionNotifications": self.notifications}]
        return {"$schema": SCHEMA, "version": "2.1.0", "runs": [run]}
