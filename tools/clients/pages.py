"""The examples of the pages are those that run: each block of a program in EXAMPLES and CLIENTS stands, line by line in its order,
in a script of this folder, or is a program of its own, and prints what the comments of its lines say. Prints what is not so; its
arguments are host and port."""
import pathlib
import re
import subprocess
import sys
import tempfile

import pymssql

HERE = pathlib.Path(__file__).resolve().parent
PAGES = [HERE.parents[1] / "docs" / name for name in ("EXAMPLES.md", "CLIENTS.md")]
COMMANDS = {"python": ["/usr/bin/python3"], "php": ["php"], "perl": ["perl"], "go": ["go", "run"]}
ENDINGS = {"python": ".py", "php": ".php", "perl": ".pl", "go": ".go", "sql": ".sql"}
BEGINS = r"import pyodbc|use DBI|<\?php\n\$quiet|package main"
PRINTS = r"\b(?:print|echo|Println)\b.*;? *(?:#|//) (.*)$"
host, port = sys.argv[1:]


def blocks(page):
    """The programs of a page, each with its line and its language."""
    text = page.read_text()
    for found in re.finditer(r"^```(\w+)\n(.*?)^```", text, re.M | re.S):
        if found[1] in ENDINGS:
            yield text.count("\n", 0, found.start()) + 1, found[1], found[2]


def lines_of(text):
    return [line.strip() for line in text.splitlines() if line.strip()]


def is_of_script(language, block):
    """Whether a script has the lines of a block in their order."""
    for path in HERE.glob("*" + ENDINGS[language]):
        lines = iter(lines_of(path.read_text()))
        if path.name != "pages.py" and all(line in lines for line in lines_of(block)):
            return True
    return False


def told_by(language, block, folder):
    """What a program prints over a database without the table t, and what its comments say."""
    with pymssql.connect(server=host, port=port, user="sa", password="A", autocommit=True) as db:
        try:
            db.cursor().execute("DROP TABLE t")
        except pymssql.Error:
            pass  # there was none
    path = pathlib.Path(folder, "program" + ENDINGS[language])
    path.write_text(block.replace("14330", port))
    run = subprocess.run([*COMMANDS[language], path], stdout=subprocess.PIPE, stderr=subprocess.DEVNULL, text=True, timeout=120)
    return run.stdout.splitlines(), re.findall(PRINTS, block, re.M)


def main():
    for page in PAGES:
        for number, language, block in blocks(page):
            if is_of_script(language, block):
                continue
            if not re.search(BEGINS, block):
                print(f"{page.name}:{number}: no script has these lines")
                continue
            with tempfile.TemporaryDirectory() as folder:
                told, wanted = told_by(language, block, folder)
            if told != wanted:
                print(f"{page.name}:{number}: it prints {told}, and its comments say {wanted}")


main()
