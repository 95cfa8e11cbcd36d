"""A clean root of Debian, in which packages are tried by sessions: commands, each with what it prints."""
import fcntl
import os
import pathlib
import re
import shlex
import shutil
import subprocess

from . import ROOT, Failed, output

SUITE = "bookworm"
SESSIONS = ROOT / "tools/packages/sessions"
ENVIRONMENT = {
    "PATH": "/usr/local/sbin:/usr/local/bin:/usr/sbin:/usr/bin:/sbin:/bin",
    "HOME": "/root",
    "LC_ALL": "C.UTF-8",
    "DEBIAN_FRONTEND": "noninteractive",
}
AS_TOLL = "setpriv --reuid toll --regid toll --clear-groups"
# What sessions know. A unit may listen at a port below 1024, which its user may not.
VARIABLES = {
    "OFFICE": "/var/lib/toll/acme/office.db",
    "AS_TOLL": AS_TOLL,
    "AS_UNIT": f"{AS_TOLL} --inh-caps +net_bind_service --ambient-caps +net_bind_service",
}
# Mounts last as long as the processes that see them, and those end with the first of them.
WITHIN = """
set -e
root=$1 sources=$2 archives=$3 script=$4
[ "$5" = online ] || ip link set lo up
mount -t proc proc "$root/proc"
mount --bind "$sources" "$root/mnt"
mount -o remount,bind,ro "$root/mnt"
mount --bind "$archives" "$root/var/cache/apt/archives"
exec chroot "$root" sh -c "$script" < /dev/null
"""
UNIFIED = {**os.environ, "SYSTEMD_NSPAWN_UNIFIED_HIERARCHY": "1"}
UNSHARE = ["unshare", "--mount", "--pid", "--fork", "--kill-child"]
SYSTEMD = "systemd-nspawn --boot --register=no --keep-unit --console=pipe --capability=all --system-call-filter=bpf"
BOOT = [*UNSHARE, "--mount-proc", *SYSTEMD.split(), "--private-network"]
# Machines beside each other, with addresses in a network of their own, and /mnt in common. Each has control groups of
# its own, in which its systemd is the first.
TOGETHER = f"""
set -e
common=$1 own=${{1%/*}} at=0 groups=
shift
for top in /sys/fs/cgroup /sys/fs/cgroup/unified /sys/fs/cgroup/systemd; do
  [ ! -e "$top/cgroup.procs" ] || groups="$groups $top/${{own##*/}}"
done
mount -t tmpfs tmpfs /run
ip link add br0 type bridge
ip link set br0 up
for root; do
  at=$((at + 1)) name=${{root##*/}}
  ip netns add "$name"
  ip link add "p$at" type veth peer name host0 netns "$name"
  ip link set "p$at" master br0 up
  ip -n "$name" addr add "10.231.9.$at/24" dev host0
  for device in lo host0; do ip -n "$name" link set "$device" up; done
  (
    for group in $groups; do
      mkdir -p "$group/$name"
      sh -c 'echo $PPID' > "$group/$name/cgroup.procs"
    done
    exec {SYSTEMD} --network-namespace-path="/run/netns/$name" --bind="$common:/mnt" -D "$root"
  ) &
done
wait
for group in $groups; do find "$group" -depth -type d -exec rmdir {{}} + || true; done
"""


def make_base(folder: pathlib.Path, mirror: str) -> pathlib.Path:
    """A folder with the least that Debian is; it is made unless it exists, or another process makes it just now."""
    base, part = folder / SUITE, folder / f"{SUITE}.part"
    with open(folder / f"{SUITE}.lock", "w") as lock:
        fcntl.flock(lock, fcntl.LOCK_EX)
        if not base.is_dir():
            shutil.rmtree(part, ignore_errors=True)
            output("debootstrap", "--variant=minbase", SUITE, part, mirror)
            policy = part / "usr/sbin/policy-rc.d"
            policy.write_text("#!/bin/sh\nexit 101\n")  # no service starts in it
            policy.chmod(0o755)
            (part / "etc/dpkg/dpkg.cfg.d/unsafe-io").write_text("force-unsafe-io\n")  # it needn't outlast a power cut
            part.rename(base)
    (folder / "archives").mkdir(exist_ok=True)
    return base


def commands_of(name: str) -> tuple[str, str, str]:
    """How a session is run, its commands, and what they have to print."""
    text = re.sub(r"\n\n(?=\$ )", "\n", (SESSIONS / f"{name}.console").read_text())
    way, text = re.fullmatch(r"(?s)(?:# (\w+)\n)?(.*)", text).groups()  # type: ignore[union-attr]
    lines = [(line[:2] in ("$ ", "> "), line) for line in text.splitlines(keepends=True)]
    script = "".join(line[2:] for is_command, line in lines if is_command)
    return way, script, "".join(line for is_command, line in lines if not is_command)


def require_same(wanted: str, printed: str) -> None:
    """Fails if a session printed anything but what it has to."""
    if printed != wanted:
        raise Failed(f"it has to print:\n{wanted}\nand prints:\n{printed[-5000:]}")


class Root:
    """A copy of the base, or of another root. The repository lies in its /mnt, to be read."""

    def __init__(self, base: pathlib.Path, folder: pathlib.Path, archives: pathlib.Path | None = None):
        self.folder, self.archives = folder, archives or base.parent / "archives"
        subprocess.run(["cp", "-a", "--reflink=auto", base, self.folder], check=True)
        self.folder.chmod(0o755)
        self.variables = dict(VARIABLES)

    def copied(self, name: str) -> "Root":
        """Another root beside this one, with what is installed in it. apt-get doesn't wait for another one, so it has
        archives of its own."""
        archives = self.archives.with_name(f"{self.archives.name}.{name}")
        archives.mkdir(exist_ok=True)
        other = Root(self.folder, self.folder.parent / name, archives)
        other.variables = dict(self.variables)
        return other

    def printed(self, script: str, online: bool = False) -> str:
        """What a script prints that ends with status 0. Its network is its own, unless it is online."""
        network = [] if online else ["--net"]
        words = [WITHIN, "sh", self.folder, ROOT, self.archives, script, "online" if online else ""]
        return output(*UNSHARE, *network, "sh", "-c", *words, env={**ENVIRONMENT, **self.variables})

    def booted(self, script: str) -> str:
        """What a script prints while systemd runs in the root; its end ends systemd."""
        self.before_boot(script)
        return self.behind_boot(output(*BOOT, "-D", self.folder, stdin=subprocess.DEVNULL, env=UNIFIED))

    @property
    def unit(self) -> pathlib.Path:
        """The unit of a script that runs as soon as systemd does."""
        return self.folder / "etc/systemd/system/script.service"

    @property
    def wanted(self) -> pathlib.Path:
        """What has systemd start it."""
        return self.unit.parent / "multi-user.target.wants" / self.unit.name

    def before_boot(self, script: str) -> None:
        """Has a script run once systemd does, and systemd end behind it."""
        (self.folder / "root/printed").unlink(missing_ok=True)
        exports = "\n".join(f"export {name}={shlex.quote(value)}" for name, value in self.variables.items())
        wrapped = f"exec > /root/printed 2>&1\n{exports}\n{script}\n"
        (self.folder / "root/script").write_text(wrapped)
        ending = "ExecStopPost=sh -c 'sync; kill -s RTMIN+3 1'"  # also of a script that was killed
        self.unit.write_text(f"[Service]\nType=oneshot\nExecStart=sh /root/script\n{ending}\n")
        self.wanted.symlink_to(f"../{self.unit.name}")

    def behind_boot(self, console: str) -> str:
        """What the script printed."""
        self.wanted.unlink()
        self.unit.unlink()
        if not (printed := self.folder / "root/printed").exists():
            raise Failed(f"systemd didn't come up: {console.strip()[-500:]}")
        return printed.read_text()

    def session(self, name: str) -> None:
        """Runs the commands behind `$` and `>`; fails if they print anything but the other lines.

        The first line may be `# booted` or `# online`. An empty line before a command is no output.
        """
        way, script, wanted = commands_of(name)
        printed = self.booted(script) if way == "booted" else self.printed(f"{script}true", way == "online")
        require_same(wanted, printed)

    def has(self, path: str) -> bool:
        return os.path.lexists(f"{self.folder}{path}")


def sessions_together(roots: dict[str, Root], common: pathlib.Path) -> None:
    """Runs a session in each root while systemd runs in all of them: machines that reach each other at 10.231.9.1 and
    on, in this order, and have a folder in common at /mnt."""
    for name, root in roots.items():
        root.before_boot(commands_of(name)[1])
    words = ["--net", "--mount-proc", "sh", "-c", TOGETHER, "sh", common, *(root.folder for root in roots.values())]
    console = output(*UNSHARE, *words, stdin=subprocess.DEVNULL, env=UNIFIED)
    printed = {name: root.behind_boot(console) for name, root in roots.items()}
    for name in roots:
        require_same(commands_of(name)[2], printed[name])
