#!/usr/bin/env python3
"""Mutates the independent model, one change a mutant, and shows which mutants the stored list catches.
Prints a table; ends with 0 when every mutant is caught. Started by `oracle/run mutate [NUMBERS]`."""

import os
import pathlib
import shutil
import subprocess
import sys

HERE = pathlib.Path(__file__).resolve().parent
MODEL = HERE.parent / "model"
ORACLE = HERE.parent.parent
OUT = pathlib.Path(os.environ.get("ORACLE_OUT", ORACLE.parent / "target" / "oracle")) / "mutants"
SECONDS = 60


def mutants():
    """Every mutant of the list: file, right text, wrong text. A mutant goes on while lines don't name a file."""
    joined = []
    for line in (HERE / "mutants.txt").read_text().splitlines():
        if line.startswith("#"):
            continue
        if line.split(" | ")[0].endswith(".rs"):
            joined.append(line)
        else:
            joined[-1] += "\n" + line
    for text in joined:
        file, change = text.split(" | ", 1)
        right, wrong = change.split(" ~~>", 1)
        yield file, right, wrong.removeprefix(" ")


def rustc(folder, *words):
    """Compiles one file of a mutant; false where it doesn't compile."""
    plain = ["rustc", "--edition", "2021", "-C", "opt-level=1", "-C", "codegen-units=64", "-C", f"incremental={folder}/kept"]
    plain += ["--cap-lints", "allow", "--out-dir", folder, "-L", folder]
    return subprocess.run(list(map(str, [*plain, *words])), stderr=subprocess.DEVNULL).returncode == 0


def case_of(said):
    """The case whose lines hold the first difference."""
    number = int(said.split("line ", 1)[1].split(":")[0])
    name = ""
    for entry in (ORACLE / "lists" / "all.index").read_text().splitlines():
        where, rest = entry.split(": ", 1)
        if int(where.split()[3]) <= number:
            name = rest
    return name


def replayed(folder):
    """What the stored list says of a compiled mutant, and the case that shows it."""
    lists = ORACLE / "lists"
    words = [folder / "replay_model", lists / "all.stream", lists / "all.expected"]
    try:
        done = subprocess.run(list(map(str, words)), capture_output=True, text=True, timeout=SECONDS)
    except subprocess.TimeoutExpired:
        return "caught, runs on", ""
    if done.returncode == 0:
        return "NOT CAUGHT", ""
    if done.returncode == 1:
        return "caught", case_of(done.stdout)
    return "caught, stops dead", ""


def outcome(file, right, wrong):
    """Builds one mutant and replays the lists."""
    folder = OUT / "model"
    shutil.copytree(MODEL, folder, dirs_exist_ok=True)
    text = (folder / file).read_text()
    if text.count(right) != 1:
        return f"NO MUTANT: the text occurs {text.count(right)} times", ""
    (folder / file).write_text(text.replace(right, wrong))
    if not rustc(OUT, "--crate-name", "model", "--crate-type", "rlib", folder / "lib.rs"):
        return "NO MUTANT: doesn't compile", ""
    if not rustc(OUT, folder / "replay_model.rs", "--extern", "model"):
        return "NO MUTANT: doesn't compile", ""
    return replayed(OUT)


def shown(text):
    """A piece of code for a table cell."""
    return "`" + " ".join(text.split()).replace("|", "\\|") + "`"


def main():
    shutil.rmtree(OUT, ignore_errors=True)
    wanted = set(map(int, sys.argv[1:]))
    total = bad = 0
    print("| mutant | answer | file | right | wrong | first case that shows it |\n|---|---|---|---|---|---|")
    for number, (file, right, wrong) in enumerate(mutants(), 1):
        if wanted and number not in wanted:
            continue
        said, where = outcome(file, right, wrong)
        total += 1
        bad += not said.startswith("caught")
        print(f"| {number} | {said} | {file} | {shown(right)} | {shown(wrong)} | {where} |", flush=True)
    print(f"\n{total} mutants, {bad} not caught")
    sys.exit(bad > 0)


main()
