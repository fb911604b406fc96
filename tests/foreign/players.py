"""The programs of a row: who plays which role, how they are started, and what is left of them."""
import os
import pathlib
import shutil
import signal
import subprocess
import time

import tree
from lisp import PORT
from tree import V4, is_oor

DDT, DDTD = os.environ["DDT"], os.environ["DDTD"]
WITH_SETTINGS = os.environ.get("SERVE_SETTINGS") != "no"
MAP_SERVER_WORDS = ("--keys", "keys.toml", *(("--settings", "allow.toml") if WITH_SETTINGS else ()))
GROUPS = {"root": "root", "node": "node", "ms": "east"}


def title(host):
    return {"ms": "Map-Server", "west": "xTR", "south": "xTR"}.get(host, host)


class Players:
    """The programs by their hosts. `notes` says which of openoverlayrouter's ended by themselves."""

    def __init__(self, net, row):
        self.net, self.folder, self.row = net, net.folder, row
        self.who = dict(zip(("resolver", "root", "node", "ms"), row)) | {"west": "O", "south": "O"}
        self.programs, self.texts, self.notes = {}, {}, []

    def full(self, host):
        return tree.FULL[self.who.get(host, "-")]

    def start(self, host, words):
        with open(self.folder / f"{host}.log", "w") as log:
            self.programs[host] = subprocess.Popen(
                ["ip", "netns", "exec", self.net.name(host), *words], cwd=self.folder, stdout=log, stderr=log,
                stdin=subprocess.DEVNULL, start_new_session=True)

    def await_ready(self, host, is_ready):
        end = time.time() + 30
        while time.time() < end and self.programs[host].poll() is None:
            if is_ready():
                return
            time.sleep(0.1)
        last = (self.folder / f"{host}.log").read_text().splitlines()[-3:]
        raise RuntimeError(f"{self.full(host)}'s {title(host)} isn't ready: {' '.join(last)}")

    def start_ddtd(self, host, command, text, *words):
        (self.folder / f"{host}.toml").write_text(text)
        self.start(host, [DDTD, command, *words, f"{host}.toml", "--control", str(self.folder / f"{host}.sock")])
        self.await_ready(host, lambda: "ready" in (self.folder / f"{host}.log").read_text())

    def start_oor(self, host, text):
        """It makes a socket in /tmp and files where it is started, so it has both of its own."""
        self.texts[host] = text
        (self.folder / f"{host}.conf").write_text(text)
        (self.folder / host).mkdir(exist_ok=True)
        self.start(host, ["sh", "-c", 'cd "$1" && mount -t tmpfs tmpfs /tmp && exec oor -f ../"$2".conf', "sh",
                          str(self.folder / host), host])
        # It doesn't say that it is ready, so what is waited for is port 4342.
        ports = pathlib.Path(f"/proc/{self.programs[host].pid}/net/udp")
        self.await_ready(host, lambda: f":{PORT:04X} " in ports.read_text())
        time.sleep(0.3)

    def start_servers(self):
        (self.folder / "register.csv").write_text(tree.REGISTER)
        (self.folder / "allow.toml").write_text(tree.ANYBODY)
        tree.write_keys(self.folder / "keys.toml", tree.KEYED_SITES)
        for host, group in GROUPS.items():
            if self.who[host] == "K":
                words = MAP_SERVER_WORDS if host == "ms" else ()
                compiled = subprocess.run([DDT, "compile", self.folder / "register.csv", group], check=True,
                                          capture_output=True, text=True)
                self.start_ddtd(host, "serve", compiled.stdout, *words)
        if self.who["root"] == "O":
            self.start_oor("root", tree.oor_node(tree.ZONES, tree.NODE, "CHILD_DDT_NODE", "node"))
        if self.who["node"] == "O":
            self.start_oor("node", tree.oor_node(tree.NODE, tree.SERVED, "MAP_SERVER_DDT_NODE", "ms"))
        if is_oor(self.who["ms"]):
            self.start_oor("ms", tree.oor_ms(self.who["ms"] == "P"))

    def start_resolver(self):
        if self.who["resolver"] == "K":
            self.start_ddtd("resolver", "resolve", tree.SETTINGS)
        if self.who["resolver"] == "O":
            self.start_oor("resolver", tree.oor_resolver())

    def start_xtrs(self):
        asked_at = V4["ms" if self.who["resolver"] == "-" else "resolver"]
        for host, prefix in (("west", "10.1.9.0/24"), ("south", "10.1.10.0/24")):
            self.start_oor(host, tree.oor_xtr(prefix, asked_at, self.who["ms"] == "P"))

    def died(self):
        return [host for host, program in self.programs.items() if program.poll() is not None]

    def ending(self, host):
        status = self.programs[host].returncode
        return signal.Signals(-status).name if status < 0 else f"status {status}"

    def revive(self):
        """Starts those of openoverlayrouter's programs anew that ended by themselves. Whether there was one."""
        ended = [host for host in self.died() if is_oor(self.who[host])]
        for host in ended:
            self.notes.append(f"OOR's {title(host)} ended by itself ({self.ending(host)}) and was started again")
            shutil.copy(self.folder / f"{host}.log", self.folder / f"{host}.ended.log")
            self.start_oor(host, self.texts[host])
        return bool(ended)

    def keep_counts(self):
        for host in self.programs:
            if self.who[host] == "K":
                said = subprocess.run([DDTD, "tell", self.folder / f"{host}.sock", "stats"], capture_output=True,
                                      text=True, timeout=20)
                (self.folder / f"{host}.stats").write_text(said.stdout)

    def stop(self):
        running = [program for program in self.programs.values() if program.poll() is None]
        for program in running:
            program.terminate()
        end = time.time() + 3
        for program in running:
            try:
                program.wait(max(0.1, end - time.time()))
            except subprocess.TimeoutExpired:
                program.kill()
                program.wait()
