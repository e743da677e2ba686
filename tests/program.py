#!/usr/bin/env python3
"""program.py PROGRAM [KILLS [PART..]]: runs the program `tokenglade` on the job vectors, on inputs and outputs that fail, and kills it KILLS times (default
1,000) at random moments; or only these parts of all that. Status 0, and a record that says done, must never be there without all seeds. Prints a line for
each part; the first thing that is wrong ends it with status 1."""
import os, pty, random, re, resource, select, socket, struct, subprocess, sys, tempfile, time

ROOT = os.path.dirname(os.path.dirname(os.path.abspath(__file__)))
PROGRAM = os.path.abspath(sys.argv[1])
KILLS = int(sys.argv[2]) if len(sys.argv) > 2 else 1000
MOST_BYTES = 1_572_864
SHEET = "sample: Rex 17\npanel: lymphoma-3\nseeds: [7, 0, 4294967295]\n"


def wrong(what):
    sys.exit(f"program.py: {what}")


def expect(ok, what, r=None):
    if not ok:
        wrong(what + ("" if r is None else f": status {r.returncode}, wrote {(r.stdout or b'')[:300]!r}, said {(r.stderr or b'')[:300]!r}"))


def run(args, text=None, **more):
    if text is not None:
        more["input"] = text if isinstance(text, bytes) else text.encode()
    elif "stdin" not in more:
        more["stdin"] = subprocess.DEVNULL
    more.setdefault("stdout", subprocess.PIPE)
    more.setdefault("stderr", subprocess.PIPE)
    return subprocess.run([PROGRAM, *args], timeout=120, **more)


def held(path):
    """What a file holds; nothing where there is none."""
    return open(path).read() if os.path.exists(path) else None


def vectors():
    """Seeds and record of each vector with ample rooms, on standard output; the status."""
    n = 0
    for line in open(os.path.join(ROOT, "tests/vectors/jobs.txt"), encoding="ascii"):
        m = re.fullmatch(r"(\S*) words=(\d+) bytes=(\d+) => (.*)\|(.*)\n", line)
        text = bytes.fromhex(m[1])
        if int(m[2]) < 52800 or int(m[3]) < 3 * len(text) // 2:
            continue
        seeds = [s.split(":")[0] for s in m[4].split(",") if s]
        said = m[5].split()
        if said[0] == "done":
            last, status = f"done {said[1]}", 0 if said[1] != "0" else 4
        else:
            number, index, row, col, count = said[1:]
            last, status = f"not done {number} {row} {int(col) + 1} {count}", 1
        r = run(["job"], text)
        want = "".join(s + "\n" for s in seeds) + last + "\n"
        expect(r.stdout.decode() == want and r.returncode == status, f"{text[:200]!r}: wanted {want[-200:]!r} and status {status}", r)
        expect((r.stderr == b"") == (status == 0), f"{text[:200]!r}: words on standard error exactly where the status is not 0", r)
        if status == 1:
            number, row, col = last.split()[2:5]
            words = r.stderr.decode(errors="replace")
            where = r"standard input: " if number in ("1", "5", "52") else rf"standard input:{row}:{col}: "
            expect(re.match(rf"{where}.+ \[{number}\]\n", words), f"{text[:200]!r}: no such words", r)
        n += 1
    expect(n > 400, "fewer than 400 vectors were run")
    print(f"{n} vectors: seeds, record, status and words", flush=True)


class Broken:
    """A socket that breaks off behind some bytes: the next read fails."""
    def __enter__(self):
        s = socket.socket()
        s.bind(("127.0.0.1", 0))
        s.listen()
        c = socket.create_connection(s.getsockname())
        self.end, _ = s.accept()
        c.sendall(SHEET.encode()[:-4])
        c.setsockopt(socket.SOL_SOCKET, socket.SO_LINGER, struct.pack("ii", 1, 0))
        c.close()
        s.close()
        return self.end

    def __exit__(self, *_):
        self.end.close()


def inputs(folder):
    """Input that can't be read to its end: 2, nothing on standard output, no record, and an old one is gone."""
    record = os.path.join(folder, "record")
    cases = {
        "a closed input": dict(preexec_fn=lambda: os.close(0)),
        "a folder": dict(args=[folder]),
        "a file that isn't there": dict(args=[os.path.join(folder, "none")]),
        "a file whose read fails": dict(args=["/proc/self/mem"]),
    }
    for name, more in cases.items():
        with open(record, "w") as f:
            f.write("done 3\n")
        more = dict(more)
        r = run(["job", *more.pop("args", []), "--record", record], **more)
        expect(r.returncode == 2 and r.stdout == b"" and r.stderr != b"", name, r)
        expect(not os.path.exists(record), f"{name}: the old record is still there")
    with Broken() as s:
        r = run(["job", "--record", record], stdin=s)
        expect(r.returncode == 2 and r.stdout == b"" and not os.path.exists(record), "an input that is reset", r)
    for cut in range(len(SHEET.encode()) - 2):
        r = run(["job", "--record", record], SHEET.encode()[:cut])
        expect(r.returncode == 1 and (held(record) or "").startswith("not done "), f"an input that ends behind {cut} bytes", r)
    print("inputs that are closed, reset, cut short, or can't be read", flush=True)


def usage(folder):
    sheet = os.path.join(folder, "sheet.yaml")
    with open(sheet, "w") as f:
        f.write(SHEET)
    for args in [[], ["jobs"], ["job", "--records"], ["job", "--record"], ["job", "--seeds"], ["job", sheet, sheet], ["job", sheet, "--record", sheet],
                 ["job", sheet, "--seeds", sheet], ["job", sheet, "--record", sheet + "1", "--seeds", sheet + "1"], ["tokens", sheet, sheet], ["job", ""]]:
        r = run(args)
        expect(r.returncode == 2 and r.stdout == b"" and r.stderr != b"", f"usage {args}", r)
        expect(held(sheet) == SHEET, f"usage {args}: the sheet is no longer what it was")
    os.symlink(sheet, os.path.join(folder, "link"))
    for other in [os.path.join(folder, ".", "sheet.yaml"), os.path.join(folder, "link")]:
        for option in ["--record", "--seeds"]:
            run(["job", sheet, option, other])
            expect(held(sheet) == SHEET, f"{option} {other}: the sheet is no longer what it was")
    for option in ["--record", "--seeds"]:
        for stream in ["stdout", "stderr"]:
            file = os.path.join(folder, "both")
            with open(file, "wb") as f:
                r = run(["job", sheet, option, file], **{stream: f})
            expect(r.returncode == 2 and os.path.exists(file), f"{option} is where {stream} goes", r)
    old = os.path.join(folder, "old")
    with open(old, "w") as f:
        f.write("done 3\n")
    for args in [["job", b"a\xff", "--record", old], ["job", sheet, "--seeds", b"a\xff", "--record", old], ["job", "--record", old, "--", b"-\xff"], ["tokens", b"a\xff"]]:
        r = run(args)
        expect(r.returncode == 2 and r.stdout == b"" and b"not UTF-8" in r.stderr and held(old) == "done 3\n", f"a name that is not UTF-8 {args}", r)
    r = run(["--help"])
    expect(r.returncode == 0 and b"tokenglade job" in r.stdout, "--help", r)
    print("usage", flush=True)


def outputs(folder):
    """Output that can't be written: 3, and no record."""
    record, seeds = os.path.join(folder, "record"), os.path.join(folder, "seeds")
    many = long_sheet(30_000)
    with open("/dev/full", "wb") as full:
        r = run(["job", "--record", record], SHEET, stdout=full)
        expect(r.returncode == 3 and not os.path.exists(record), "seeds to a full device", r)
        r = run(["job", "--seeds", seeds], SHEET, stdout=full)
        expect(r.returncode == 3, "a record to a full device", r)
        r = run(["tokens"], SHEET, stdout=full)
        expect(r.returncode == 3, "tokens to a full device", r)
        r = run(["job"], "x", stdout=subprocess.PIPE, stderr=full)
        expect(r.returncode == 1 and r.stdout == b"not done 73 1 1 0\n", "words to a full device", r)
    r = run(["job", "--record", record], SHEET, preexec_fn=lambda: os.close(1))
    expect(r.returncode == 3 and not os.path.exists(record), "a closed output", r)
    for args in [["job", "--record", record], ["job"], ["tokens"]]:
        get, put = os.pipe()
        os.close(get)
        r = run(args, many, stdout=put)
        os.close(put)
        expect(r.returncode == 3 and not os.path.exists(record), f"{args}: a pipe that nobody reads", r)
    for option in ["--record", "--seeds"]:
        r = run(["job", option, os.path.join(folder, "none", "file")], SHEET)
        expect(r.returncode == 3, f"{option} in a folder that isn't there", r)
        r = run(["job", option, folder], SHEET)
        expect(r.returncode == 3, f"{option} that is a folder", r)
    small = lambda: resource.setrlimit(resource.RLIMIT_FSIZE, (4096, 4096))
    r = run(["job", "--record", record, "--seeds", seeds], many, preexec_fn=small)
    expect(r.returncode == 3 and not os.path.exists(record) and not os.path.exists(seeds), "a disk that is full behind 4,096 bytes", r)
    none = lambda: resource.setrlimit(resource.RLIMIT_FSIZE, (0, 0))
    r = run(["job", "--record", record], SHEET, preexec_fn=none)
    expect(r.returncode == 3 and not os.path.exists(record), "a disk that is full when the record is written", r)
    left = [f for f in os.listdir(folder) if f.startswith(("record", "seeds"))]
    expect(left == [], f"files are left behind: {left}")
    print("outputs that are full, closed, or can't be made", flush=True)


def records(folder):
    record, seeds = os.path.join(folder, "record"), os.path.join(folder, "seeds")
    sheet = os.path.join(folder, "sheet.yaml")
    for text, last, status, handed in [
        (SHEET, "done 3", 0, "7\n0\n4294967295\n"),
        (SHEET.replace("[7, 0, 4294967295]", "[]"), "done 0", 4, ""),
        (SHEET.replace("]", ", x]"), "not done 72 3 27 3", 1, "7\n0\n4294967295\n"),
    ]:
        with open(sheet, "w") as f:
            f.write(text)
        for name in [sheet, "-", None]:
            args = ["job"] + ([] if name is None else [name]) + ["--record", record, "--seeds", seeds]
            r = run(args, None if name == sheet else text)
            expect(r.returncode == status and r.stdout == b"", f"{args}", r)
            expect(held(record) == last + "\n" and held(seeds) == handed, f"{args}: record {held(record)!r}, seeds {held(seeds)!r}")
        r = run(["job", sheet, "--allow-empty"])
        expect(r.returncode == (0 if status == 4 else status) and r.stdout.decode() == handed + last + "\n", "--allow-empty", r)
    os.remove(record), os.remove(seeds)
    with open(record, "w") as f:
        f.write("done 3\n")
    r = run(["job", sheet, "--record", record, "--seeds", "/dev/null"])
    expect(r.returncode == 3 and not os.path.exists(record), "seeds that can't go to their FILE leave an old record", r)
    r = run(["job", "--record", record, "--seeds", seeds], SHEET, preexec_fn=lambda: os.umask(0o077))
    expect(r.returncode == 0 and os.stat(record).st_mode & os.stat(seeds).st_mode & 0o777 == 0o600, "the mode of files", r)
    print("records and seeds in files", flush=True)


def long_sheet(count):
    r = random.Random(count)
    return "sample: a\npanel: b\nseeds: [" + ", ".join(str(r.randrange(2**32)) for _ in range(count)) + "]\n"


def kills(folder):
    """Killed at any moment: no record, or a whole one with all seeds in their place."""
    record, seeds, sheet = (os.path.join(folder, n) for n in ["record", "seeds", "sheet.yaml"])
    text = long_sheet(60_000)
    want = "".join(s.strip() + "\n" for s in text[text.index("[") + 1:text.index("]")].split(","))
    with open(sheet, "w") as f:
        f.write(text)
    args = [PROGRAM, "job", sheet, "--record", record, "--seeds", seeds]
    start = time.monotonic()
    subprocess.run(args, check=True)
    whole = time.monotonic() - start
    r, done = random.Random(14), 0
    for i in range(KILLS):
        p = subprocess.Popen(args, stdout=subprocess.DEVNULL, stderr=subprocess.DEVNULL)
        time.sleep(r.random() * whole * 1.1)
        p.kill()
        status = p.wait()
        if status == 0 and not os.path.exists(record):
            wrong(f"kill {i}: status 0 and no record")
        if os.path.exists(record):
            done += 1
            expect(held(record) == "done 60000\n", f"kill {i}: the record is {held(record)!r}")
            expect(held(seeds) == want, f"kill {i}: a record, and not all seeds")
        for f in os.listdir(folder):
            if f.startswith(("record.", "seeds.")):
                os.remove(os.path.join(folder, f))
    expect(KILLS < 100 or 0 < done < KILLS, f"all kills came too early or too late: {done} records")
    print(f"killed {KILLS} times: {done} records, each whole and with all seeds", flush=True)


def progress():
    """Words on a terminal behind the first second, where seeds are taken slowly."""
    master, slave = pty.openpty()
    with tempfile.NamedTemporaryFile() as sheet:
        sheet.write(long_sheet(80_000).encode())
        sheet.flush()
        p = subprocess.Popen([PROGRAM, "job", sheet.name], stdout=subprocess.PIPE, stderr=slave)
        os.close(slave)
        while p.stdout.read1(65536):
            time.sleep(0.4)
        status = p.wait()
    said = b""
    while select.select([master], [], [], 1)[0]:
        try:
            said += os.read(master, 65536)
        except OSError:
            break
    expect(status == 0 and re.search(rb"[0-9]+ seeds so far", said), f"progress on a terminal: status {status}, {said[:200]!r}")
    print("progress on a terminal", flush=True)


def tokens():
    r = run(["tokens"], "a: [b, 'c']")
    expect(r.returncode == 0 and len(r.stdout.splitlines()) == 12 and r.stderr == b"", "tokens", r)
    r = run(["tokens"], "a: [b, c}")
    expect(r.returncode == 1 and len(r.stdout.splitlines()) == 8 and re.match(rb"standard input:1:9: .* \[47\]\n", r.stderr), "tokens of a refused text", r)
    print("tokens in words", flush=True)


def names(what):
    """What include/tokenglade_names.h says by number."""
    text = open(os.path.join(ROOT, "include/tokenglade_names.h")).read()
    return {int(n): name for n, name in re.findall(rf'^TOKENGLADE_{what}\((\d+), "(.*)"\)$', text, re.M)}


def wording():
    """Each refusal that a text can meet has words of its own, and each kind its name: the shortest vectors that have them."""
    texts, kinds, left = {}, names("KIND"), set(names("KIND"))
    vectors = [line.rstrip("\n").partition(" => ") for line in open(os.path.join(ROOT, "tests/vectors/all.txt"))]
    for text, _, answer in sorted(vectors, key=lambda v: len(v[0])):
        text, said = bytes.fromhex(text), answer.split("|")
        if answer.startswith("R "):
            texts.setdefault(int(answer.split()[1]), text)
            continue
        given = [int(record.split()[0]) for record in said[1].split(";")]
        if left & set(given):
            left -= set(given)
            r = run(["tokens"], text)
            listed = [line.split()[1] for line in r.stdout.decode().splitlines()]
            expect(r.returncode == 0 and listed == [kinds[k] for k in given], f"{text!r}: other kinds", r)
    expect(not left, f"kinds that no vector has: {left}")
    texts[1] = b"#" * 1_048_577
    texts[51] = b"[" + b"a," * 2048
    found = {}
    for number, text in texts.items():
        r = run(["tokens"], text)
        m = re.match(rf".*?: ([^:].*) \[{number}\]\n".encode(), r.stderr.split(b"standard input", 1)[1])
        expect(r.returncode == 1 and m and b"has no words" not in m[1], f"{number} in words", r)
        found[number] = m[1]
    sheets = {70: "x: 1", 71: "", 72: "seeds: [x]", 73: "- a"}
    for number, text in sheets.items():
        r = run(["job"], text)
        m = re.match(rf"standard input:\d+:\d+: (.*) \[{number}\]\n".encode(), r.stderr)
        expect(r.returncode == 1 and m and b"has no words" not in m[1], f"{number} in words", r)
        found[number] = m[1]
    # 4 and 5 are about room that the program has, and 52 about a program that lends too little
    expect(set(found) == set(names("REFUSAL")) - {4, 5, 52}, f"other refusals: {sorted(set(found) ^ set(names('REFUSAL')))}")
    expect(len(set(found.values())) == len(found), "two refusals with the same words")
    print(f"words for {len(found)} refusals, names of {len(kinds)} kinds", flush=True)


def alone(part):
    """The part in a folder of its own, which is gone behind it."""
    with tempfile.TemporaryDirectory() as folder:
        part(folder)


def main():
    parts = {part.__name__: part for part in [inputs, usage, outputs, records, kills]}
    wanted = sys.argv[3:] or ["vectors", *parts, "progress", "tokens", "wording"]
    for name in wanted:
        if name in parts:
            alone(parts[name])
        else:
            {"vectors": vectors, "progress": progress, "tokens": tokens, "wording": wording}[name]()


main()
