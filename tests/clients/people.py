"""Runs `docpage import`, `export`, `dump`, `check` and `ask` as a person does: at a terminal (a pseudo-terminal), in pipes, and with a reader that goes away.
Usage: people.py PROGRAM. Every wait has an end, and so has the whole."""
import json, os, pty, re, select, signal, struct, subprocess, sys, tempfile, time

PROGRAM = os.path.abspath(sys.argv[1])
FOLDER = tempfile.mkdtemp(prefix="people.")
PATIENCE = 60
COUNT = 300_000
signal.alarm(300)


def path(name):
    return os.path.join(FOLDER, name)


def lines_file():
    name = path("documents.jsonl")
    with open(name, "w") as out:
        for number in range(COUNT):
            out.write('{"_id": %d, "name": "customer %d", "note": "%s"}\n' % (number, number, "n" * 60))
    return name


def at_terminal(words, stdin):
    """What a program wrote on standard output and on the terminal that is its standard error, and its status."""
    terminal, errors = pty.openpty()
    ran = subprocess.Popen([PROGRAM, *words], stdin=stdin, stdout=subprocess.PIPE, stderr=errors)
    os.close(errors)
    shown, end = b"", time.monotonic() + PATIENCE
    while time.monotonic() < end:
        if not select.select([terminal], [], [], 1)[0]:
            continue
        try:
            part = os.read(terminal, 65_536)
        except OSError:  # the program has closed its end
            break
        if not part:
            break
        shown += part
    os.close(terminal)
    return ran.stdout.read().decode(), shown.decode(), ran.wait(PATIENCE)


def piped(words, **given):
    given.setdefault("stdin", subprocess.DEVNULL)
    ran = subprocess.run([PROGRAM, *words], capture_output=True, timeout=PATIENCE, **given)
    return ran.stdout.decode(), ran.stderr.decode(), ran.returncode


def progress_of_a_file(documents):
    with open(documents) as stdin:
        output, shown, status = at_terminal(["import", path("a"), "t.c"], stdin)
    assert (output, status) == (f"{COUNT} documents\n", 0), (output, status)
    said = re.findall(r"\r(\d+) documents, (\d+) a second, (\d+) % done", shown)
    assert said, f"no progress on the terminal: {shown!r}"
    counts, percents = [int(it[0]) for it in said], [int(it[2]) for it in said]
    assert counts == sorted(counts) and counts[-1] <= COUNT, counts
    assert percents == sorted(percents) and percents[-1] <= 100, percents
    assert all(abs(count / COUNT - part / 100) < 0.05 for count, part in zip(counts, percents)), said
    assert shown.endswith("\n"), "the line of progress isn't ended"


def progress_of_a_pipe(documents):
    with open(documents, "rb") as file:
        cat = subprocess.Popen(["cat"], stdin=file, stdout=subprocess.PIPE)
    output, shown, status = at_terminal(["import", path("b"), "t.c"], cat.stdout)
    cat.wait(PATIENCE)
    assert (output, status) == (f"{COUNT} documents\n", 0), (output, status)
    assert re.search(r"\r\d+ documents, \d+ a second", shown) and "%" not in shown, shown


def nothing_in_a_pipe(documents):
    with open(documents) as stdin:
        output, errors, status = piped(["import", path("c"), "t.c"], stdin=stdin)
    assert (output, errors, status) == (f"{COUNT} documents\n", "", 0), (output, errors, status)
    output, errors, status = piped(["export", path("c"), "t.c"])
    assert (errors, status) == ("", 0), (errors, status)
    given = [json.loads(line) for line in output.splitlines()]
    with open(documents) as file:
        assert given == [json.loads(line) for line in file], "an export isn't what was imported"


def string_pair(name, text):
    value = text.encode() + b"\0"
    return b"\x02" + name + b"\0" + struct.pack("<i", len(value)) + value


def bytes_of(number):
    """The BSON of a document of the file, from the public specification."""
    pairs = b"\x10_id\0" + struct.pack("<i", number) + string_pair(b"name", f"customer {number}") + string_pair(b"note", "n" * 60)
    return struct.pack("<i", len(pairs) + 5) + pairs + b"\0"


def a_dump(_documents):
    output, errors, status = piped(["dump", path("c"), "t.c"])
    assert (errors, status) == ("", 0), (errors, status)
    assert output == "".join(bytes_of(number).hex() + "\n" for number in range(COUNT)), "a dump isn't what was imported"


def a_reader_that_goes_away(_documents):
    for words in (["export", path("c"), "t.c"], ["dump", path("c"), "t.c"], ["ask", path("c"), "--db", "t", "--all", '{"find": "c"}']):
        ran = subprocess.Popen([PROGRAM, *words], stdin=subprocess.DEVNULL, stdout=subprocess.PIPE, stderr=subprocess.PIPE)
        ran.stdout.readline()
        ran.stdout.close()
        errors = ran.stderr.read().decode()
        assert (errors, ran.wait(PATIENCE)) == ("docpage: Device\n", 1), (errors, ran.returncode)
    assert piped(["ask", path("c"), "--db", "t", '{"count": "c"}'])[0] == '{"n":%d,"ok":1}\n' % COUNT


def an_import_that_is_killed(documents):
    with open(documents) as stdin:
        ran = subprocess.Popen([PROGRAM, "import", path("d"), "t.c"], stdin=stdin, stdout=subprocess.DEVNULL)
        time.sleep(0.15)
        ran.kill()
        ran.wait(PATIENCE)
    output, errors, status = piped(["ask", path("d"), "--db", "t", '{"count": "c"}'])
    count = json.loads(output)["n"]
    assert (errors, status) == ("", 0) and count % 1_000 == 0 and count <= COUNT, (output, errors, status)


def bytes_in(name):
    with open(name, "rb") as file:
        return file.read()


def a_check(_documents):
    """The first commit's leaf is page 1; the second's is page 2, and page 3 is the list, which names page 1."""
    for command in ('{"create": "c"}', '{"insert": "c", "documents": [{"_id": 1}]}'):
        assert piped(["ask", path("e"), "--db", "t", command])[2] == 0
    before = bytes_in(path("e"))
    counts = "generation 2\ncollections 1\ndocuments 1\nindexes 1\npages 4\nfree 1\n"
    assert piped(["check", path("e")]) == (counts, "", 0)
    assert bytes_in(path("e")) == before, "a check wrote"


def a_damaged_file(_documents):
    """The root page of the tree is none."""
    sound = bytes_in(path("e"))
    damaged = sound[:8_192] + b"\xff" + sound[8_193:]
    with open(path("f"), "wb") as file:
        file.write(damaged)
    for words in (["check", path("f")], ["dump", path("f"), "t.c"]):
        assert piped(words) == ("", "docpage: Damaged\n", 1), words
    assert bytes_in(path("f")) == damaged


def a_missing_file(_documents):
    for words in (["check", path("g")], ["dump", path("g"), "t.c"]):
        assert piped(words) == ("", "docpage: Device\n", 1), words
    assert not os.path.exists(path("g")), "a file was made"


documents = lines_file()
for case in (progress_of_a_file, progress_of_a_pipe, nothing_in_a_pipe, a_dump, a_reader_that_goes_away, an_import_that_is_killed,
             a_check, a_damaged_file, a_missing_file):
    case(documents)
    print(f"{case.__name__}: ok", flush=True)
for name in os.listdir(FOLDER):
    os.unlink(path(name))
os.rmdir(FOLDER)
