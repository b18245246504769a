#!/usr/bin/env python3
"""Checks the wrappers and their scripts: exits with 1 where one is amiss. Run it anywhere in the repository; it takes seconds.

Rows of explanations stand in tools/rows.txt. What needs a program is tried where one is built and current, and else told as left out.
"""
import os
import pathlib
import re
import shutil
import subprocess
import sys
import tempfile
import xml.dom.minidom

TOP = pathlib.Path(__file__).resolve().parent.parent
TOOLS = TOP / "tools"
wrong = []


def amiss(what):
    wrong.append(what)
    print(what)


def run(*words, **more):
    return subprocess.run(words, capture_output=True, cwd=TOP, check=False, **more)


def rows():
    """Each row: what the program says, the input, and what must be said of it."""
    said, lines, answer = None, [], []
    for text in [*(TOOLS / "rows.txt").read_text().split("\n"), "> end"]:
        if text.startswith("> "):
            if said:
                yield said, "\n".join(lines).replace("\\r", "\r") + "\n", "\n".join(answer) + "\n"
            said, lines, answer = text[2:], [], []
        elif text.startswith("< "):
            answer.append(text[2:])
        elif said and text:
            lines.append(text)


def check_rows(room, program):
    for said, script, answer in rows():
        (room / "script").write_bytes(script.encode())
        (room / "said").write_text(said + "\n")
        got = run(sys.executable, str(TOOLS / "explain.py"), str(room / "script"), str(room / "said"))
        if got.stdout.decode() != answer or got.stderr:
            amiss(f"explain.py of `{said}`: {got.stdout.decode() or got.stderr.decode()[-200:]}")
        if program:
            told = run(program, "run" if "refused" in said else "check", input=script.encode()).stdout.decode()
            if said not in told.split("\n"):
                amiss(f"the program says {told!r}, and tools/rows.txt `{said}`")


def check_fold():
    dump = "".join(f"frame {k}\n  seen {1 + k % 2}\n" for k in range(1, 7)) + "frame 8\n  seen 1\nframe 9\n  qh 3\n  seen 1\nasync\n  ring\n"
    folded = "frames 1 to 5 by 2, 3 of them\n  seen 2\nframes 2 to 8 by 2, 4 of them\n  seen 1\nframe 9\n  qh 3\n  seen 1\nasync\n  ring\n"
    if run("awk", "-f", str(TOOLS / "fold.awk"), input=dump.encode()).stdout.decode() != folded:
        amiss("fold.awk folds otherwise")


def check_texts():
    for name in ("ehci", "ehci-trace", "tools/wrapper.sh", "tools/completion.bash"):
        if run("bash", "-n", name).returncode:
            amiss(f"{name} is no script of bash")
    pages = sorted(str(it) for it in (TOP / "docs").glob("*.1"))
    if shutil.which("mandoc"):
        said = run("mandoc", "-T", "lint", *pages).stdout.decode()
        if said:
            amiss(said)
    else:
        print("left out: mandoc isn't installed")
    offered = set(re.findall(r"--[a-z]+", (TOOLS / "completion.bash").read_text()))
    told = set(re.findall(r"--[a-z]+", "".join(pathlib.Path(it).read_text() for it in pages).replace("\\-", "-")))
    for option in offered ^ told:
        amiss(f"{option} stands in one alone of the man pages and tools/completion.bash")


def check_pictures(program, trace):
    """The pictures of README are XML, fit on 1,200 pixels, and are what the programs give for their script."""
    for path in (TOP / "docs").glob("*.svg"):
        if int(xml.dom.minidom.parse(str(path)).documentElement.getAttribute("width")) > 1200:
            amiss(f"docs/{path.name} is wider than 1,200 pixels")
        if f"](docs/{path.name})" not in (TOP / "README.md").read_text():
            amiss(f"README.md doesn't show docs/{path.name}")
    script = (TOP / "docs/pictures.ehci").read_bytes()
    drawn = {}
    if trace:
        drawn["microframes.svg"] = run("./ehci-trace", "--svg", "--from", "64", "--to", "79", input=script).stdout
    if program:
        drawn["structures.svg"] = run("./ehci", "--svg", "dump", input=run(program, "image", input=script).stdout).stdout
    for name, picture in drawn.items():
        if picture != (TOP / "docs" / name).read_bytes():
            amiss(f"docs/{name} is another picture than the programs'")


def check_planned(program):
    """tools/explain.py and the program know which words of version 2 aren't built."""
    text = (TOP / "docs/FORMATS.md").read_text().partition("## Version 2")[2].partition("Lines of the report:")[0]
    unbuilt = {it for row in re.findall(r"(?m)^\| (.*?) \|.*\| no \|$", text) for it in re.findall(r"`(\w+) ", row + " ")}
    known = set(re.findall(r"\w+", re.search(r"PLANNED = \((.*)\)", (TOOLS / "explain.py").read_text())[1]))
    for it in sorted(unbuilt ^ known):
        amiss(f"`{it}` stands in one alone of FORMATS.md as not built and of tools/explain.py")
    for it in sorted(unbuilt) * bool(program):
        if run(program, "check", input=f"ehci 2\n{it} 1\n".encode()).stdout != b"line 2: word\n":
            amiss(f"the program has lines `{it}`, and FORMATS.md says that they aren't built")


def check_images(room, program):
    """An image with a base: its example, the picture of its dump, and what is told of its first wrong field."""
    stored = TOP / "crates/gate_examples/data/dump-image-with-a-base"
    whole, dump = stored.with_suffix(".in").read_bytes(), stored.with_suffix(".out").read_bytes()
    if run(sys.executable, "examples/looping_queue.py", "7ff40000").stdout != whole:
        amiss("examples/looping_queue.py writes another image with a base than the stored one")
    picture = run(sys.executable, str(TOOLS / "draw_structures.py"), input=dump).stdout.decode()
    if "qh 7ff41080" not in picture or not xml.dom.minidom.parseString(picture):
        amiss("draw_structures.py draws no dump with a base")
    address = "the first word's address is 7ff40020h: a multiple of 4096, with words that end below 4 GiB"
    for image, said, told in (
        (whole[:4] + b"\3" + whole[5:], "offset 4: version", "version 3 is none: 1 or 2"),
        (whole[:20] + b" " + whole[21:], "offset 20: alignment", address),
        (whole[:-4], "offset 8212: length", "words have a multiple of 4096 bytes from 4096 to 1048576, and there are 8188 behind the header"),
    ):
        (room / "image").write_bytes(image)
        (room / "said").write_text(said + "\n")
        got = run(sys.executable, str(TOOLS / "explain.py"), str(room / "image"), str(room / "said")).stdout.decode()
        if told not in got:
            amiss(f"explain.py of `{said}` with a base: {got!r}")
        if program and run(program, "check", input=image).stdout.decode() != said + "\n":
            amiss(f"the program says otherwise than `{said}` of an image with a base")
    if program and run(program, "dump", input=whole).stdout != dump:
        amiss("the program shows the stored image with a base otherwise")


def check_install(room, program):
    """What `make install` puts there runs by itself, and goes again."""
    if not shutil.which("make"):
        print("left out: make isn't installed")
        return
    words = ("make", "-s", f"DESTDIR={room / 'dest'}", "PREFIX=/usr")
    got = run(*words, "install")
    if got.returncode:
        amiss(f"make install: {got.stderr.decode()[-300:]}")
        return
    there = room / "dest/usr"
    for name in ("share/man/man1/ehci.1", "share/man/man1/ehci-trace.1", "share/man/man1/ehci-probe.1", "share/bash-completion/completions/ehci"):
        if not (there / name).is_file():
            amiss(f"make install leaves out {name}")
    script, report = (there / f"share/doc/ehci/examples/first-transfer.{it}" for it in ("ehci", "report"))
    got = subprocess.run([str(there / "bin/ehci"), "run", str(script)], capture_output=True, cwd=room, check=False)
    if (got.returncode, got.stdout) != (0, report.read_bytes()):
        amiss(f"what is installed runs no example: {got.stderr.decode()[-200:]}")
    version = subprocess.run([str(there / "bin/ehci"), "--version"], capture_output=True, cwd=room, check=False).stdout.decode().split("\n")
    own = run(program, "--version").stdout.decode().split("\n")[0]
    if version[0] != own or not version[1].startswith("rattle-kit-"):
        amiss(f"the version that is installed says {version}")
    run(*words, "uninstall")
    left = [it.name for it in (room / "dest").rglob("*") if it.is_file() or it.is_symlink()]
    if left:
        amiss(f"make uninstall leaves {', '.join(left)}")


def check_budgets():
    """A refused open is told with the budget that each placement breaks."""
    got = run("./ehci", "run", "examples/refused-placement.ehci")
    if not re.search(rb"no-placement: the first budget that each placement breaks:\n    .*, \d+ too many \([0-9.]+%\)", got.stderr):
        amiss(f"./ehci run of refused-placement says {got.stderr.decode()[:200]}")


def check_wrapper(room):
    """Statuses and output of the wrapper, over a program that is built."""
    script = str(TOP / "examples/errors-add-up.ehci")
    report = (TOP / "examples/errors-add-up.report").read_bytes()
    faulty = b"ehci 1\ndev 3 hgh\n"
    for words, status, text, output in (
        (("run", script), 0, b"", report),
        (("--strict", "run", script), 7, b"", report),
        (("run", str(room / "none")), 4, b"", b""),
        (("run", str(room)), 4, b"", b""),
        (("check",), 3, faulty, b"line 2: word\n"),
        (("run", script, "more"), 2, b"", b""),
        (("--fold", "run", script), 2, b"", b""),
        (("--svg", "run", script), 2, b"", b""),
        (("--svg", "dump"), 3, faulty, b"offset 17: length\n"),
    ):
        got = run("./ehci", *words, input=text)
        if (got.returncode, got.stdout) != (status, output):
            amiss(f"./ehci {' '.join(words)}: status {got.returncode}, {got.stdout[:80]}")
    if b"line 2, column 7" not in run("./ehci", "check", input=faulty).stderr:
        amiss("./ehci check says nothing of the word on standard error")
    if run("./ehci", "-h").stdout != run("./ehci", "--help").stdout:
        amiss("./ehci -h is another text than --help")


def check_captures(room):
    """The stored captures are of the form that FORMATS says, and have one packet that is damaged in all; tshark warns of that one alone."""
    damaged = 0
    for path in sorted((TOP / "crates/gate_trace/data").glob("capture-*.out")):
        got = run(sys.executable, str(TOOLS / "read_capture.py"), str(path))
        if got.returncode or not got.stdout:
            amiss(f"{path.name}: {got.stderr.decode()}")
        here = got.stdout.decode().count(" damaged\n")
        damaged += here
        if shutil.which("tshark"):
            told = run("tshark", "-r", str(path), "-q", "-z", "expert,warn").stdout.decode()
            warned = sum(int(it) for it in re.findall(r"^ +(\d+) +\w+ ", told, re.M))
            if warned != here:
                amiss(f"{path.name}: tshark warns of {warned} packets, and {here} are damaged")
    if damaged != 1:
        amiss(f"the captures have {damaged} damaged packets")
    if not shutil.which("tshark"):
        print("left out: tshark isn't installed")
    cut = room / "cut"
    cut.write_bytes(path.read_bytes()[:-4])
    if run(sys.executable, str(TOOLS / "read_capture.py"), str(cut)).returncode != 1:
        amiss("read_capture.py takes a capture that is cut")


def check_machine():
    """The program over the machine alone says of itself what the other says, and stands on no crate of claims."""
    texts = [(TOP / f"crates/{name}/src/main.rt").read_text().split("/// The words behind")[0].split("const USAGE")[1] for name in ("ehci", "ehci_machine")]
    if texts[0] != texts[1]:
        amiss("crates/ehci and crates/ehci_machine say otherwise of themselves")
    words = f'me=check top="{TOP}"; . tools/wrapper.sh; crates_below ehci_machine'
    below = run("bash", "-c", words).stdout.decode().split()
    for name in below:
        if name.startswith("claims_"):
            amiss(f"ehci_machine stands on {name}")
    if f"the machine alone, {len(below)} crates" not in (TOP / "README.md").read_text():
        amiss(f"README.md says another number than the {len(below)} crates of ehci_machine")


def current(*crates):
    """The first of these programs that the wrapper would take."""
    words = f'me=check top="{TOP}"; . tools/wrapper.sh; choose {" ".join(crates)}; echo "$program"'
    return run("bash", "-c", words).stdout.decode().strip() or None


def main():
    program, trace = current("ehci", "ehci_machine"), current("ehci_trace")
    for what, there in (("./ehci --build", program), ("./ehci-trace --build", trace)):
        if not there:
            print(f"left out: rows of a program that `{what}` builds")
    with tempfile.TemporaryDirectory() as room:
        room = pathlib.Path(room)
        check_texts()
        check_rows(room, program)
        check_fold()
        check_machine()
        check_planned(program)
        check_captures(room)
        check_pictures(program, trace)
        check_images(room, program)
        if program:
            check_wrapper(room)
            check_install(room, program)
        if program and trace:
            check_budgets()
    print(f"tools: {len(wrong)} amiss")
    return 1 if wrong else 0


if __name__ == "__main__":
    os.environ["LC_ALL"] = "C"
    sys.exit(main())
