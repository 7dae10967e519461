#!/bin/sh
# What the gate costs, from nothing: processor seconds by crate and by kind (proof, tests, wrong bodies, the rest), the slowest
# functions, and the totals against the budget. It runs the gate on a clean clone of the last commit, in a folder of its own, so
# that nothing kept is used. On four processors with nothing beside it the totals are those that the budget speaks of.
# usage: bench/gate.sh [CRATES]
# The functions are timed in the CRATES crates (five without it) whose proof took longest, each checked once more with one job.
# The status is 0 where the gate passed and the totals are within the budget, 1 where not, and 2 for wrong words.
top=$(CDPATH= cd -- "$(dirname -- "$0")/.." && pwd) || exit 1
crates=${1:-5}
case $crates in
'' | *[!0-9]*)
    echo "usage: bench/gate.sh [CRATES]" >&2
    exit 2
    ;;
esac
room=$(mktemp -d) || exit 1
trap 'rm -rf "$room"' EXIT
git clone -q "$top" "$room/smart" || exit 1
cd "$room/smart" || exit 1
python3 - "$crates" <<'PYTHON'
"""Runs the gate and reads, twice a second, what each process of it has used."""
import collections, glob, os, re, resource, subprocess, sys, time

# The budget: processor minutes, minutes on four processors, minutes on two; seconds of a function, of a crate's proof.
PROCESSOR, ON_FOUR, ON_TWO, FUNCTION, CRATE = 250, 75, 140, 20, 300
TICK = os.sysconf("SC_CLK_TCK")


def used(process, gate):
    """Returns a process's number and beginning, its crate and kind of work, and its processor seconds, or None where it is none of the gate's."""
    try:
        with open(f"/proc/{process}/cmdline", "rb") as file:
            words = file.read().decode(errors="replace").split("\0")
        with open(f"/proc/{process}/stat") as file:
            fields = file.read().rpartition(")")[2].split()
        folder = os.readlink(f"/proc/{process}/cwd")
    except OSError:
        return None
    # (a wrong body is checked in a folder that is named by the number of the gate's process)
    is_wrong = f"/rt-edit-{gate}-" in folder
    if "--crate-name" not in words or not (folder.startswith(os.getcwd() + "/") or is_wrong):
        return None
    crate = words[words.index("--crate-name") + 1]
    kind = "wrong bodies" if is_wrong else "tests" if "--test" in words else "proof"
    return (process, fields[19], crate, kind), (int(fields[11]) + int(fields[12])) / TICK


def play():
    """Runs the gate; returns its status, its minutes, its processor minutes, and the seconds by crate and kind."""
    has_anew = "--anew" in subprocess.run(["rt", "help"], capture_output=True, text=True).stderr
    began, seen = time.time(), {}
    with subprocess.Popen(["rt", "ci", *["--anew"] * has_anew]) as gate:
        while gate.poll() is None:
            for name in os.listdir("/proc"):
                found = used(name, gate.pid) if name.isdigit() else None
                if found:
                    seen[found[0]] = found[1]
            time.sleep(0.5)
    spent = resource.getrusage(resource.RUSAGE_CHILDREN)
    table = collections.defaultdict(lambda: collections.Counter())
    for (_, _, crate, kind), seconds in seen.items():
        table[crate][kind] += seconds
    return gate.returncode, (time.time() - began) / 60, (spent.ru_utime + spent.ru_stime) / 60, table


def functions(crate):
    """Returns the seconds of each function of a crate, by one more check with one job over the libraries that the gate built."""
    kit = os.path.dirname(subprocess.run(["rt", "doc"], capture_output=True, text=True).stdout.strip())
    uses = {}
    with open("crates.txt") as file:
        for line in file:
            if ":" in line and not line.startswith("#"):
                left, _, right = line.partition(":")
                uses[left.split()[0]] = right.split()
    # (a line of crates.txt names what the crate's own text names; what those stand on is found below)
    below = [it for it in uses[crate] if it in uses]
    for name in below:
        below += [it for it in uses[name] if it in uses and it not in below]
    root = "src/main.rt" if os.path.isfile(f"crates/{crate}/src/main.rt") else "src/lib.rt"
    words = [f"{kit}/bin/rattle", "check", "--crate-name", crate, root, "--extern", f"std={kit}/rlibs/std.rlib"]
    for name in uses[crate]:
        at = os.path.abspath(f"crates/{name}/out/rlib") if name in uses else f"{kit}/rlibs"
        words += ["--extern", f"{name}={at}/{name}.rlib"]
    for name in below:
        words += ["-L", "dependency=" + os.path.abspath(f"crates/{name}/out/rlib")]
    words += ["-L", f"dependency={kit}/rlibs", "--antt-project", f"{kit}/rattle/logic/antt-project.json"]
    words += ["--logic-built", f"{kit}/logic_built", "--links", f"{crate}=", "--jobs", "1", "--progress"]
    last, rows = None, []
    how = {"cwd": f"crates/{crate}", "stdout": subprocess.PIPE, "stderr": subprocess.STDOUT, "text": True, "errors": "replace"}
    with subprocess.Popen(words, bufsize=1, **how) as check:
        for line in check.stdout:
            found = re.match(r"checked (\S+), \d+ of \d+", line)
            if found:
                # (the first comes behind the reading of the libraries, so its time is not told)
                now = time.time()
                rows += [(now - last, crate, found[1])] if last else []
                last = now
    return rows


status, minutes, processor, table = play()
kinds = ["proof", "tests", "wrong bodies"]
print(f"\n{'processor seconds':24}" + "".join(f"{it:>14}" for it in [*kinds, "together"]))
for crate in sorted(table, key=lambda it: -sum(table[it].values())):
    row = [table[crate][it] for it in kinds]
    print(f"{crate:24}" + "".join(f"{it:14.0f}" for it in [*row, sum(row)]))
sums = [sum(it[kind] for it in table.values()) for kind in kinds]
print(f"{'together':24}" + "".join(f"{it:14.0f}" for it in [*sums, sum(sums)]))
slowest = sorted(table, key=lambda it: -table[it]["proof"])[: int(sys.argv[1])]
rows = sorted((row for crate in slowest for row in functions(crate)), reverse=True)[:20]
print("\nthe slowest functions, in seconds")
for seconds, crate, name in rows:
    print(f"{seconds:8.1f}  {crate}  {name}")
# The time of the day is held to the budget on four processors, and on two.
limit = {4: ON_FOUR, 2: ON_TWO}.get(os.cpu_count())
over = [crate for crate in table if table[crate]["proof"] > CRATE]
print(f"\nprocessor minutes {processor:.0f} of {PROCESSOR}; minutes on {os.cpu_count()} processors {minutes:.0f}" + (f" of {limit}" if limit else ""))
print(f"crates whose proof takes over {CRATE} s: {' '.join(over) or 'none'}; functions over {FUNCTION} s: {sum(it[0] > FUNCTION for it in rows)}")
sys.exit(1 if status or processor > PROCESSOR or limit and minutes > limit else 0)
PYTHON
