"""andrew [rounds=N replica=PATH relay=PATH heights=H,H,H unsigned=1 ganesha=1]: phases of a kernel's work, on one replica and on four.

They are like those of the Andrew benchmark. `tools/kernel` does each, as often as there are rounds (2), in turn: the least seconds of a phase. The machine is
QEMU's, without a processor's help, and the same for all: what it takes itself is in all figures. With `ganesha=1` Debian's one NFS server in user space stands
beside them, over a file system in memory, by version 3, since it speaks no version 2. Without programs these are the built ones. `heights=` are those of the trees
by which the relay signs; with `unsigned=1` nothing is signed.
"""
import subprocess
import sys

import lib
from service import ganesha

SETTINGS = {"rounds": 2, "replica": "", "relay": "", "heights": "", "unsigned": 0, "ganesha": 0}


def phases(*words):
    """The seconds of each phase of one run, by its name."""
    command = [sys.executable, lib.TOP / "tools/kernel", *map(str, words)]
    run = subprocess.run(command, stdin=subprocess.DEVNULL, stdout=subprocess.PIPE, stderr=subprocess.STDOUT, text=True)
    if run.returncode != 0:
        sys.exit(run.stdout)
    lines = [line.split() for line in run.stdout.splitlines()]
    return {words[0]: float(words[2]) for words in lines if len(words) == 4 and words[1] == "ok" and words[3] == "s"}


def by_ganesha(room):
    with ganesha.Server(room) as server:
        return phases("--port", server.port, "--version-3", server.mount_port, server.folder)


def main(room, words):
    pairs = [word.partition("=") for word in words]
    lib.chosen([name for name, *_ in pairs], SETTINGS)
    settings = {**SETTINGS, **{name: type(SETTINGS[name])(value) for name, _, value in pairs}}
    options = [f"--{name}-program={settings[name]}" for name in ("replica", "relay") if settings[name]]
    options += lib.signing(settings)
    servers = {"one replica": lambda: phases("--f", 0, *options), "four": lambda: phases("--f", 1, *options)}
    if settings["ganesha"]:
        servers["Ganesha"] = lambda: by_ganesha(room)
    found = {name: [] for name in servers}
    for _ in range(settings["rounds"]):
        for name, serve in servers.items():
            found[name].append(serve())
    least = {name: {phase: min(run[phase] for run in runs) for phase in runs[0]} for name, runs in found.items()}
    for seconds in least.values():
        seconds["all"] = sum(seconds.values())
    one, four = least["one replica"], least["four"]
    print("phase       ", *(f"{name:>13} s" for name in servers), "   four for one")
    for phase in one:
        print(f"{phase:12}", *(f"{seconds[phase]:15.2f}" for seconds in least.values()), f"{four[phase] / (one[phase] or 0.01):15.2f}")
