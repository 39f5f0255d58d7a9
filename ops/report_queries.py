"""The queries of reports/: what each shows and asks for, and its rows over a copy.

The program `sqlite3` runs them, for `ops/report` and for `ops/pages` alike. So a figure has one source: the query.
"""
import json
import os
import re
import shutil
import subprocess

from chain_files import Wrong

FOLDER = os.path.join(os.path.dirname(os.path.abspath(__file__)), "../reports")
# No settings of the user's, no write, and an end at the first fault.
SQLITE = ["sqlite3", "-batch", "-init", os.devnull, "-readonly", "-bail"]


class Report:
    """A query of reports/, with what its first lines say."""

    def __init__(self, name):
        path = os.path.join(FOLDER, name + ".sql")
        if not re.fullmatch(r"[a-z-]+", name) or not os.path.exists(path):
            raise Wrong(f"there is no report {name}: {', '.join(names())}", 2)
        with open(path, encoding="utf-8") as it:
            self.name, self.text = name, it.read()
        lines = self.text.splitlines()
        head = " ".join(it.removeprefix("-- ") for it in lines if it.startswith("-- "))
        self.shows, _, rest = head.partition(" Asked: ")
        self.asked = rest.partition(" Units: ")[0]
        code = "\n".join(it for it in lines if not it.lstrip().startswith("--"))
        self.optional = set(re.findall(r"'@(\w+)'", code))
        self.parameters = sorted(dict.fromkeys(re.findall(r"@(\w+)", code)), key=lambda it: it in self.optional)

    def words(self):
        """Returns the parameters as they are given, in brackets those that may be left out."""
        return " ".join(f"[{it}=..]" if it in self.optional else f"{it}=.." for it in self.parameters)

    def check(self, given):
        """Fails with status 2 if a parameter is missing, or isn't one of the report's."""
        wanted = self.words() or "nothing"
        for name in given:
            if name not in self.parameters:
                raise Wrong(f"{self.name} has no parameter {name}: it asks for {wanted}", 2)
        missing = [it for it in self.parameters if it not in given and it not in self.optional]
        if missing:
            raise Wrong(f"{' and '.join(missing)} {'is' if len(missing) == 1 else 'are'} missing: {self.name} asks for {wanted}. {self.asked}", 2)

    def run(self, file, given, mode):
        """Returns what `sqlite3` prints of the report over a copy, in one of its modes."""
        self.check(given)
        if not shutil.which("sqlite3"):
            raise Wrong("there is no program sqlite3", 3)
        values = "".join(f"INSERT INTO temp.sqlite_parameters VALUES ('@{name}', {literal(value)});\n" for name, value in given.items())
        ran = subprocess.run([*SQLITE, *mode, file], input=f".parameter init\n{values}{self.text}", capture_output=True, text=True, encoding="utf-8")
        if ran.returncode or ran.stderr:
            if rule := re.search(r"CHECK constraint failed: @(\w+) (.*?)(?: \(\d+\))?$", ran.stderr, re.M):
                raise Wrong(f"{rule[1]} {rule[2]}, and not {given.get(rule[1])!r}", 2)
            raise Wrong(f"{self.name}: {ran.stderr.strip() or f'sqlite3 ended with {ran.returncode}'}", 1)
        return ran.stdout

    def rows(self, file, **given):
        """Returns the report's rows, each as its columns' values by their names."""
        return json.loads(self.run(file, given, ["-json"]) or "[]")


def literal(value):
    """Returns a number or a text as SQL writes it."""
    return str(value) if isinstance(value, int) else "'" + value.replace("'", "''") + "'"


def names():
    """Returns the names of all reports."""
    return sorted(it.removesuffix(".sql") for it in os.listdir(FOLDER) if it.endswith(".sql"))


def rows(name, file, **given):
    """Returns the rows of a report over a copy."""
    return Report(name).rows(file, **given)
