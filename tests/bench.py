"""tests/bench.py: bench/compare on small files of figures, and the file that bench/run --json writes.

The figures of a run are not timed here: a `packaging/build` and a `rustc` of ours stand for the real ones. Each try that goes wrong is printed.
"""
import json
import os
import pathlib
import shutil
import subprocess
import sys
import tempfile

TOP = pathlib.Path(__file__).resolve().parent.parent


def figure(what, ours, its, other="ring"):
    return {"table": "calls", "what": what, "input": "in order", "other": other, "ours": ours, "its": its}


# The figures of two runs, the status of bench/compare, and a word that it must print.
RUNS = {
    "the same": ([figure("arrive", 10, 20)], [figure("arrive", 10, 20)], 0, "1 figures compared, 0 slower"),
    "a slower machine": ([figure("arrive", 10, 20)], [figure("arrive", 30, 60)], 0, "0 slower"),
    "6 % slower": ([figure("arrive", 100, 200)], [figure("arrive", 106, 200)], 1, "6.0% slower: calls; arrive; in order; ring: 2.000 before, 1.887 now"),
    "4 % slower": ([figure("arrive", 100, 200)], [figure("arrive", 104, 200)], 0, "0 slower"),
    "the other faster": ([figure("arrive", 100, 200)], [figure("arrive", 100, 180)], 1, "11.1% slower: calls; arrive"),
    "faster": ([figure("arrive", 100, 200)], [figure("arrive", 50, 200)], 0, "0 slower"),
    "one of two": ([figure("arrive", 1, 2), figure("row", 1, 2)], [figure("row", 2, 2), figure("arrive", 1, 2)], 1, "100.0% slower: calls; row"),
    "to one of two others": ([figure("arrive", 1, 2), figure("arrive", 1, 1, "words")], [figure("arrive", 1, 2), figure("arrive", 1, 0.9, "words")], 1, "; words: 1.000 before, 0.900 now"),
    "a figure that is gone": ([figure("arrive", 1, 2), figure("row", 1, 2)], [figure("arrive", 1, 2)], 1, "gone: calls; row"),
    "a new figure": ([figure("arrive", 1, 2)], [figure("arrive", 1, 2), figure("row", 1, 2)], 0, "1 figures compared, 0 slower"),
    "none in common": ([figure("arrive", 1, 2)], [figure("row", 1, 2)], 2, "no figure in common"),
    "no figures": ([figure("arrive", 1, 2)], [{}], 2, "no figures"),
}


def compared(name, work):
    """What is wrong with a comparison."""
    old, new, wanted, words = RUNS[name]
    for file, each in (("old", old), ("new", new)):
        pathlib.Path(work, file).write_text(json.dumps({"machine": "m", "commit": "c", "rounds": 1, "figures": each}))
    done = subprocess.run([TOP / "bench/compare", "old", "new"], cwd=work, stdout=subprocess.PIPE, stderr=subprocess.STDOUT, text=True)
    if done.returncode != wanted or words not in done.stdout:
        yield f"status {done.returncode}: {done.stdout}"


def script(path, text):
    path.parent.mkdir(parents=True, exist_ok=True)
    path.write_text("#!/bin/sh\n" + text)
    path.chmod(0o755)


# What the programs that rustc makes write down, and what bench/run must then write to the file.
LINES = [json.dumps(figure("arrive", 1, 2)), json.dumps(figure("row", 3, 4))]


def written(words, work):
    """What is wrong with the file of figures, which must not have those of an earlier run."""
    top, found = pathlib.Path(work, "ward 3 ü"), pathlib.Path(work, "bin")
    (top / "bench").mkdir(parents=True)
    shutil.copy(TOP / "bench/run", top / "bench/run")
    script(top / "packaging/build", "exit 0\n")
    tells = 'printf "#!/bin/sh\\necho told \\$0 \\"\\$@\\"\\n" >"$out"; case $out in */programs) n=1 ;; */calls) n=2 ;; *) n=0 ;; esac\n'
    script(found / "rustc", 'for word; do case $before in -o) out=$word ;; esac; before=$word; done\n' + tells + 'echo "sed -n ${n}p \\"$LINES\\" >>\\"\\${FIGURES:-/dev/null}\\"" >>"$out"; chmod +x "$out"\n')
    lines = pathlib.Path(work, "lines")
    lines.write_text("\n".join(LINES) + "\n")
    for _ in range(2):
        done = subprocess.run(
            [top / "bench/run", "--json", "figures.json", *words], cwd=work, env={"PATH": f"{found}:{os.environ['PATH']}", "LINES": str(lines)},
            stdout=subprocess.PIPE, stderr=subprocess.STDOUT, text=True,
        )
    wanted = [json.loads(line) for line, part in zip(LINES, ("programs", "calls")) if not words or part in words]
    try:
        read = json.loads(pathlib.Path(work, "figures.json").read_text())
    except (OSError, ValueError) as fault:
        yield f"{fault}: {done.stdout}"
        return
    if done.returncode or read["figures"] != wanted or "processors" not in read["machine"] or not read["commit"] or read["commit"] not in done.stdout:
        yield f"status {done.returncode}, {read}: {done.stdout}"


def main():
    wrong, count = [], 0
    for part, names in ((compared, RUNS), (written, [(), ("calls",), ("programs",)])):
        for name in names:
            count += 1
            with tempfile.TemporaryDirectory() as work:
                wrong += [f"{part.__name__}, {name}: {fault}" for fault in part(name, work)]
    for line in wrong:
        print("bench: FAILED,", line)
    if not wrong:
        print(f"bench: {count} tries of bench/compare and bench/run --json: what got slower by over 5 % against the other of its run is told, and nothing else")
    return 1 if wrong else 0


if __name__ == "__main__":
    sys.exit(main())
