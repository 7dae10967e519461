#!/bin/sh
# What a group in threads does in a second over a real disk, beside that disk's own syncs and beside etcd.
# usage: bench/group.sh [ASKS [ROUNDS [PROGRAM [FOLDER]]]]
# Without ASKS it is 300, without ROUNDS 5. Without PROGRAM it is the proved program that ./prove makes. Without FOLDER all files are in a
# new folder below /tmp, which is removed again. In each round the three stand in turn; what is printed are medians.
# - Asks a second of `smart group --n 4 --f 1` with one client, from the first reply to the last. Each reply is durable.
# - Six rounds of four syncs at once, each of another file, 8 bytes: how often a second. An ask waits for no fewer.
# - Puts a second of a group of three etcd members with one client, one put at a time. Without etcd-server it is left out.
top=$(CDPATH= cd -- "$(dirname -- "$0")/.." && pwd) || exit 1
asks=${1:-300}
rounds=${2:-5}
program=${3:-$top/out/smart}
for number in "$asks" "$rounds"; do
    case $number in
    '' | 0* | *[!0-9]*)
        echo "usage: bench/group.sh [ASKS [ROUNDS [PROGRAM [FOLDER]]]]" >&2
        exit 2
        ;;
    esac
done
if [ ! -x "$program" ]; then
    echo "there is no program at $program: ./prove makes one" >&2
    exit 1
fi
work=$(mktemp -d ${4:+-p "$4"}) || exit 1
trap 'rm -rf "$work"' EXIT
python3 - "$asks" "$rounds" "$program" "$work" <<'END'
import base64, http.client, json, os, shutil, statistics, subprocess, sys, threading, time

asks, rounds, program, work = int(sys.argv[1]), int(sys.argv[2]), sys.argv[3], sys.argv[4]


def group_once(folder):
    """Asks a second of one run of a group, from its first reply to its last."""
    os.mkdir(folder)
    words = ["group", "--n", "4", "--f", "1", "--period", "1048576", "--turns", str(2**63), "--asks", str(asks), "--dir", folder]
    run = subprocess.Popen([program] + words, stdout=subprocess.PIPE)
    times, last = [], b""
    for last in run.stdout:
        if last.startswith(b"reply "):
            times.append(time.monotonic())
    if run.wait() != 0 or len(times) != asks or last != b"coherent\n":
        sys.exit("the group did not answer each ask, or its trails are not coherent")
    shutil.rmtree(folder)
    return (asks - 1) / (times[-1] - times[0])


def syncs_once(folder, count):
    """How often a second four files are synced at once, six times one after the other."""
    os.mkdir(folder)
    gate = threading.Barrier(5)

    def sync(name):
        with open(os.path.join(folder, name), "wb", buffering=0) as file:
            gate.wait()
            for _ in range(6 * count):
                gate.wait()
                file.write(b"8 bytes.")
                os.fsync(file.fileno())

    threads = [threading.Thread(target=sync, args=(str(i),)) for i in range(4)]
    for thread in threads:
        thread.start()
    gate.wait()
    began = time.monotonic()
    for _ in range(6 * count):
        gate.wait()
    for thread in threads:
        thread.join()
    spent = time.monotonic() - began
    shutil.rmtree(folder)
    return count / spent


class Etcd:
    """A group of three etcd members on this machine."""

    def __init__(self, folder):
        os.mkdir(folder)
        self.folder = folder
        names = ["m1", "m2", "m3"]
        peers = {name: f"http://127.0.0.1:{23801 + 10 * i}" for i, name in enumerate(names)}
        group = ",".join(f"{name}={url}" for name, url in peers.items())
        self.members = []
        for i, name in enumerate(names):
            client = f"http://127.0.0.1:{23790 + 10 * i}"
            words = ["etcd", "--name", name, "--data-dir", os.path.join(folder, name), "--logger", "zap", "--log-level", "error"]
            words += ["--listen-peer-urls", peers[name], "--initial-advertise-peer-urls", peers[name], "--listen-client-urls", client]
            words += ["--advertise-client-urls", client, "--initial-cluster", group, "--initial-cluster-state", "new"]
            self.members.append(subprocess.Popen(words, stdout=subprocess.DEVNULL, stderr=subprocess.DEVNULL))
        self.client = http.client.HTTPConnection("127.0.0.1", 23790, timeout=10)
        for _ in range(100):
            try:
                self.put(0)
                return
            except (OSError, http.client.HTTPException, RuntimeError):
                self.client.close()
                time.sleep(0.2)
        self.end()
        sys.exit("etcd did not begin")

    def put(self, i):
        body = json.dumps({"key": base64.b64encode(b"k").decode(), "value": base64.b64encode(b"%d" % i).decode()})
        self.client.request("POST", "/v3/kv/put", body)
        answer = self.client.getresponse()
        answer.read()
        if answer.status != 200:
            raise RuntimeError(answer.status)

    def once(self):
        began = time.monotonic()
        for i in range(asks):
            self.put(i)
        return asks / (time.monotonic() - began)

    def end(self):
        for member in self.members:
            member.terminate()
        for member in self.members:
            member.wait()
        shutil.rmtree(self.folder)


etcd = Etcd(os.path.join(work, "etcd")) if shutil.which("etcd") else None
groups, syncs, puts = [], [], []
try:
    for i in range(rounds):
        groups.append(group_once(os.path.join(work, f"group{i}")))
        syncs.append(syncs_once(os.path.join(work, f"syncs{i}"), min(asks, 100)))
        if etcd:
            puts.append(etcd.once())
finally:
    if etcd:
        etcd.end()
group, sync = statistics.median(groups), statistics.median(syncs)
print(f"group: {group:.0f} asks a second")
print(f"disk: {sync:.0f} times six rounds of four syncs a second, {sync / group:.2f} times the group")
if puts:
    put = statistics.median(puts)
    print(f"etcd: {put:.0f} puts a second, {put / group:.2f} times the group")
END
