"""Runs a built `waywire` with the cases of tests/runs/, and compares its standard output, its standard
error and its exit status with the case.

    ./test program PROGRAM [NAME..]

With names, such as trace_surface, only these cases are run. For each case that failed or cannot be read
it prints a line `failed: ..`, and at the end how many passed and failed. The exit status is 0 if none
failed, otherwise 1.

A case is a file NAME.run:

    What it shows, in a line or more.

    words: trace examples/surface.rec
    status: 0
    output:
      a line of standard output, after two spaces
    error:
      a line of standard error
    error has:
      a part of standard error, instead of `error:`, if the text is that of the command line parser

The words are quoted as in a shell; the program runs in the root of the repository. With several lines
`words:` each is run, and all of these runs must be the same. A missing `output:` or `error:` is empty.
`output has:` gives a part of standard output. An empty line between two lines of a text belongs to the
text. With a line `output to: full` the program has a full disk as its standard output, with `closed` none
at all, and with `nobody` a pipe without a reader; with several of these words it is run with each. A line
`input: FILE` gives it that file as its standard input; without this line there is none.

These words stand for files that are made for the run: {empty}; {longest} has 16,777,216 bytes, and {too-long}
one more; {many} has 200,001 pieces. These words stand for paths at which there is no file: {no-file};
{new-path}, where one can be made; {no-folder}, in a folder that is not there; {long-path}, which is too long
for the name of a socket. {no-text} is a word that is not UTF-8. A run must leave the folder of these files as
it was.
"""
import os
import re
import shlex
import subprocess
import tempfile

from scripts import usage
from tests import checks

CASES = f"{checks.TOP}/tests/runs"
# The file that has the number of the version.
NUMBERED = "crates/program_arguments/src/job.rt"
TEXTS = ("output", "error", "output has", "error has")
LONGEST = 16_777_216
# A sync, its event and the delete_id of its callback.
SYNC = "> 0100000000000c0002000000\n< 0200000000000c0007000000\n< 0100000001000c0002000000\n"


def read_case(path):
    """The fields of a case: words, status, destination of the output, and texts."""
    case = {"words": [], "status": None, "output to": "us", "input": os.devnull}
    field, empty = None, 0
    with open(path, encoding="utf-8") as file:
        lines = file.read().split("\n")
    start = lines.index("") + 1
    for line in lines[start:]:
        if not line and field in TEXTS:
            empty += 1
            continue
        if line.startswith("  ") and field in TEXTS:
            case[field] += [""] * empty + [line[2:]]
            empty = 0
            continue
        empty = 0
        name, colon, rest = line.partition(":")
        if line and (not colon or (name not in TEXTS and name not in case)):
            raise ValueError(f"no field: {line}")
        field = name
        if name in TEXTS:
            case[name] = []
        elif name == "words":
            case[name].append(rest.strip())
        elif name:
            case[name] = rest.strip()
    if not case["words"] or case["status"] is None:
        raise ValueError("no words or no status")
    return case


def make_files(folder):
    """The files that the words of cases may name."""
    sizes = {"{empty}": 0, "{longest}": LONGEST, "{too-long}": LONGEST + 1}
    files = {"{no-file}": os.path.join(folder, "no-file.rec"), "{no-text}": os.fsdecode(b"\xff")}
    for word, size in sizes.items():
        files[word] = os.path.join(folder, word.strip("{}") + ".rec")
        with open(files[word], "wb") as file:
            file.write(b"#" * size)
    files["{new-path}"] = os.path.join(folder, "socket")
    files["{no-folder}"] = os.path.join(folder, "no-folder", "socket")
    files["{long-path}"] = os.path.join(folder, "s" * 108)
    files["{many}"] = os.path.join(folder, "many.rec")
    with open(files["{many}"], "w", encoding="ascii") as file:
        file.write(SYNC * 66_667)
    files["{version}"] = re.search(r'const VERSION: &str = "(.*)";', checks.read(NUMBERED))[1]
    files["{tables}"] = os.path.join(folder, "all.tables")
    with open(files["{tables}"], "wb") as file:
        file.write(checks.joined_tables())
    return files


def run(program, words, given, where, files):
    """The standard output, the standard error and the status of a run with these words, which reads the given file as
    its standard input and whose output goes there."""
    words = [files.get(word, word) for word in shlex.split(words)]
    with open(os.path.join(checks.TOP, files.get(given, given)), "rb") as file:
        options = {"cwd": checks.TOP, "stdin": file, "stderr": subprocess.PIPE, "timeout": checks.LONG}
        return run_with(program, words, where, options)


def run_with(program, words, where, options):
    """The same with these options of a process."""
    if where == "us":
        done = subprocess.run([program, *words], stdout=subprocess.PIPE, check=False, **options)
        return done.stdout, done.stderr, done.returncode
    if where == "full":
        with open("/dev/full", "wb") as full:
            done = subprocess.run([program, *words], stdout=full, check=False, **options)
    elif where == "closed":
        shell = ["sh", "-c", 'exec "$0" "$@" >&-', program]
        done = subprocess.run([*shell, *words], check=False, **options)
    elif where == "nobody":
        reader, writer = os.pipe()
        os.close(reader)
        try:
            done = subprocess.run([program, *words], stdout=writer, check=False, **options)
        finally:
            os.close(writer)
    else:
        raise ValueError(f"no such output: {where}")
    return b"", done.stderr, done.returncode


def differs(case, name, found, files):
    """What is wrong with a text, or None."""
    text = found.decode("utf-8", "backslashreplace")
    if f"{name} has" in case:
        missing = [part for part in case[f"{name} has"] if part not in text]
        return f"{name} lacks {missing[0]!r}: {text!r}" if missing else None
    wanted = "".join(line + "\n" for line in case.get(name, []))
    for word, path in files.items():
        wanted = wanted.replace(word, path)
    return None if text == wanted else f"{name} is {text!r}, not {wanted!r}"


def listed(folder):
    """The names, sizes and kinds of what is in a folder."""
    with os.scandir(folder) as entries:
        return sorted((it.name, it.stat().st_size, it.stat().st_mode) for it in entries)


def check(program, path, files):
    """What is wrong with the runs of a case, or None."""
    case = read_case(path)
    for words in case["words"]:
        for where in case["output to"].split():
            if wrong := wrong_with(program, case, words, where, files):
                return f"{words}: {wrong}"
    return None


def wrong_with(program, case, words, where, files):
    """What is wrong with one run of a case, or None."""
    folder = os.path.dirname(files["{empty}"])
    before = listed(folder)
    output, error, status = run(program, words, case["input"], where, files)
    after = listed(folder)
    if after != before:
        return f"the folder has {sorted(set(after) ^ set(before))} changed"
    if str(status) != case["status"]:
        return f"status is {status}, not {case['status']}: {error!r}"
    return differs(case, "output", output, files) or differs(case, "error", error, files)


def main():
    arguments = usage.words(__doc__, least=1)
    program = os.path.abspath(arguments[0])
    names = [f"{name}.run" for name in arguments[1:]]
    names = names or sorted(name for name in os.listdir(CASES) if name.endswith(".run"))
    passed = failed = 0
    with tempfile.TemporaryDirectory() as folder:
        files = make_files(folder)
        for name in names:
            try:
                wrong = check(program, os.path.join(CASES, name), files)
            except (OSError, ValueError, subprocess.TimeoutExpired) as error:
                wrong = f"not run: {error}"
            if wrong is None:
                passed += 1
            else:
                failed += 1
                print(f"failed: {name}: {wrong}")
    return checks.counted(passed, failed or int(not passed))
