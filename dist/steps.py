"""How dist/check runs the commands of its steps, and counts what passed."""
import os
import pathlib
import shlex
import shutil
import subprocess


class Failed(Exception):
    """What was wrong in a step."""


def clean_environment(home):
    """Returns an environment with the system's tools, and cargo where it is installed, and nothing else."""
    environment = {"PATH": "/usr/sbin:/usr/bin:/sbin:/bin", "HOME": str(home), "LANG": "C.UTF-8", "TMPDIR": str(home)}
    cargo = shutil.which("cargo")
    if cargo:
        # Tools beside cargo are not wanted, but rustup's cargo looks for its own.
        environment["PATH"] += f":{pathlib.Path(cargo).parent}"
        for name, folder in (("CARGO_HOME", ".cargo"), ("RUSTUP_HOME", ".rustup")):
            environment[name] = os.environ.get(name, str(pathlib.Path.home() / folder))
    return environment


class Steps:
    """Runs steps, and counts what passed, failed and was skipped."""

    def __init__(self, folder, home):
        self.folder, self.environment, self.passed, self.failed = folder, clean_environment(home), 0, 0

    def run(self, words, cwd=None, stdin="", status=0, seconds=300, **environment):
        """Runs a command, which has to end with this status, and returns what it printed."""
        shown = words if isinstance(words, str) else shlex.join(str(it) for it in words)
        command = ["bash", "-euo", "pipefail", "-c", words] if isinstance(words, str) else [str(it) for it in words]
        try:
            ran = subprocess.run(
                command,
                cwd=cwd or self.folder,
                input=stdin,
                text=True,
                errors="replace",
                timeout=seconds,
                stdout=subprocess.PIPE,
                stderr=subprocess.STDOUT,
                env={**self.environment, **environment},
            )
        except (OSError, subprocess.TimeoutExpired) as fault:
            raise Failed(f"{shown}: {fault}") from fault
        if ran.returncode != status:
            raise Failed(
                f"{shown}\n    ended with status {ran.returncode}, and not {status}:\n{ran.stdout.strip()[-1500:]}"
            )
        return ran.stdout

    def has(self, *tools):
        """Whether all these tools are installed; says so where one is not."""
        lacking = [it for it in tools if not shutil.which(it, path=self.environment["PATH"])]
        if lacking:
            print(f"skipped: no {lacking[0]} on this machine", flush=True)
        return not lacking

    def step(self, name, action):
        """Makes a step, and counts it."""
        try:
            action()
        except Failed as fault:
            self.failed += 1
            print(f"FAILED: {name}: {fault}", flush=True)
            return False
        self.passed += 1
        print(f"{name}: passed", flush=True)
        return True


def expect(holds, text):
    if not holds:
        raise Failed(text)
