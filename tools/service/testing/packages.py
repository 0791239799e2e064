"""Debian's packages, which tests with programs of others need."""
import os
import subprocess

from service.testing.running import Failed


def install(*names):
    """Installs those that are missing."""
    question = ["dpkg-query", "-W", "-f=${db:Status-Abbrev}${Package}\n", *names]
    states = subprocess.run(question, stdout=subprocess.PIPE, stderr=subprocess.DEVNULL, text=True).stdout.splitlines()
    missing = [name for name in names if f"ii {name}" not in states]
    if missing:
        print(f"installs {', '.join(missing)}")
        environment = {**os.environ, "DEBIAN_FRONTEND": "noninteractive"}
        for command in ["apt-get", "update", "-q"], ["apt-get", "install", "-y", "-q", "--no-install-recommends", *missing]:
            run = subprocess.run(command, stdin=subprocess.DEVNULL, stdout=subprocess.PIPE, stderr=subprocess.STDOUT, env=environment, text=True)
        if run.returncode != 0:
            raise Failed(f"`{' '.join(command)}`: {run.stdout[-500:]}")
