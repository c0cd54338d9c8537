"""What the scripts that try the office share: lines of results, the program, a machine of their own, and an office on it."""

import glob
import os
import re
import shutil
import signal
import subprocess
import sys
import tempfile
import time

HERE = os.path.dirname(os.path.abspath(__file__))
TOP = os.path.dirname(HERE)
EXAMPLE = os.path.join(TOP, "examples/office")
PROGRAM = os.environ.get("ZONEOFFICE") or os.path.join(TOP, "crates/zoneoffice/out/zoneoffice")
differing = 0


def check(matter, differs=None):
    """Prints one line on a matter: that it is so, or what differs."""
    global differing
    if differs:
        differing += 1
        print(f"{matter}: {differs}", flush=True)
    else:
        print(f"ok {matter}", flush=True)


def expect(matter, got, wanted):
    check(matter, None if got == wanted else f"got {got!r}, not {wanted!r}")


def finish():
    sys.exit(1 if differing else 0)


def need(**packages):
    """Ends with status 2 where a command is missing. A word is a command (with _ for -), and its value Debian's package."""
    os.environ["PATH"] = "/usr/local/sbin:/usr/local/bin:/usr/sbin:/usr/bin:/sbin:/bin"
    missing = sorted({package for command, package in packages.items() if not shutil.which(command.replace("_", "-"))})
    if missing:
        sys.exit(f"{sys.argv[0]}: install Debian's {' '.join(missing)}")
    if os.geteuid():
        sys.exit(f"{sys.argv[0]}: only root makes namespaces")
    if not os.access(PROGRAM, os.X_OK):
        sys.exit(f"{sys.argv[0]}: there is no program {PROGRAM}: build it, or say in ZONEOFFICE where it is")


def run(command, **more):
    """Runs a command of the shell, and gives its status and what it printed, errors too."""
    done = subprocess.run(command, shell=True, text=True, stdout=subprocess.PIPE, stderr=subprocess.STDOUT,
                          **{"timeout": 300, **more})
    return done.returncode, done.stdout.strip()


def must(command, **more):
    """Runs a command that has to succeed, and gives what it printed."""
    status, said = run(command, **more)
    if status:
        raise RuntimeError(f"{command}: status {status}: {said}")
    return said


def wait_for(what, seconds=30):
    """Asks until the answer is true, and gives it; or the last one, when the time is over."""
    until = time.monotonic() + seconds
    while True:
        answer = what()
        if answer or time.monotonic() > until:
            return answer
        time.sleep(0.05)


def go_inside(seconds, machine=True):
    """Runs the script anew in namespaces of its own (network, processes, mounts), which go with it, for at most so many seconds;
    and unless it makes its own, as a machine with its own /etc, /var, /usr/local and /run, in which what is written is kept in
    memory. Gives a folder on the disk, whose folder `memory` is in memory."""
    folder = os.environ.get("TRYING")
    if folder:
        must(f"mkdir {folder}/memory && mount -t tmpfs tmpfs {folder}/memory && ip link set lo up")
        if machine:
            make_machine(f"{folder}/memory")
        return folder
    folder = tempfile.mkdtemp(prefix="zoneoffice-try-")
    signal.signal(signal.SIGTERM, lambda *_: sys.exit(1))
    inside = subprocess.Popen(["timeout", "--kill-after=10", str(seconds), "unshare", "--mount", "--net", "--pid", "--fork",
                               "--kill-child", "--mount-proc", sys.executable, "-B", os.path.abspath(sys.argv[0]), *sys.argv[1:]],
                              env={**os.environ, "TRYING": folder, "ZONEOFFICE": os.path.abspath(PROGRAM)})
    try:
        status = inside.wait()
    finally:
        inside.terminate()
        inside.wait()
        shutil.rmtree(folder)
        # of a container that was killed
        run(f"find /sys/fs/cgroup/*/{os.path.basename(folder)}* -depth -type d -exec rmdir {{}} ';'")
    if status not in (0, 1):
        print(f"{sys.argv[0]}: ended with status {status} (124: after {seconds} seconds)")
    sys.exit(1 if status else 0)


def make_machine(folder):
    for kept in "/etc", "/var", "/usr/local":
        name = kept.replace("/", "")
        must(f"mkdir {folder}/{name} {folder}/{name}-work && mount -t overlay overlay "
             f"-o lowerdir={kept},upperdir={folder}/{name},workdir={folder}/{name}-work {kept}")
    must("mount -t tmpfs -o mode=755 tmpfs /run && mkdir -p /run/lock")
    must(f"install -m 755 {PROGRAM} /usr/local/bin/zoneoffice")


def shown(page, start):
    """The commands that a page shows in the indented block which begins with this text."""
    text = open(os.path.join(TOP, "docs", page)).read()
    for block in re.findall(r"(?:^    .*\n)+", text, re.M):
        if block.strip().startswith(start):
            return re.sub(r"^    ", "", block, flags=re.M)
    raise LookupError(f"{page} shows no {start}")


FRONT = "/run/zoneoffice/front.sock"
PROXY = "/lib/systemd/systemd-socket-proxyd"


class Office:
    """The office as a process, since systemd is not here, and what hands it the connections to the front server's socket."""

    def __init__(self):
        self.start()
        must(f"mkdir -p {os.path.dirname(FRONT)}")
        # it ignores SIGPIPE, as what systemd starts does, or a client that goes away ends it
        self.front = subprocess.Popen(["systemd-socket-activate", f"--listen={FRONT}", PROXY, "--connections-max=1024", "127.0.0.1:8053"],
                                      stdout=subprocess.DEVNULL, stderr=subprocess.DEVNULL, restore_signals=False)
        wait_for(lambda: os.path.exists(FRONT))
        must(f"chown www-data {FRONT} && chmod 600 {FRONT}")

    def start(self):
        self.process = subprocess.Popen(
            ["zoneoffice", "serve", "--store", "/var/lib/zoneoffice/store", "--policy", "/etc/zoneoffice/policy.toml", "--listen",
             "127.0.0.1:8053"], stdout=subprocess.PIPE, text=True, user="zoneoffice", group="zoneoffice", extra_groups=[])
        said = self.process.stdout.readline().strip()
        if said != "listening 127.0.0.1:8053":
            raise RuntimeError(f"serve: {said}")

    def signal(self, number):
        self.process.send_signal(number)

    def stop(self):
        self.process.kill()
        self.process.wait()


# what of the pages' commands is for systemd
SYSTEMD = "systemctl", "systemd-tmpfiles"


def set_up_front(users, password):
    """Sets up the office's files and the front server by the commands that operations.md shows."""
    must("rm -f /etc/nginx/sites-enabled/* /etc/nginx/conf.d/* && echo 127.0.0.1 office.example.org >> /etc/hosts")
    for command in shown("operations.md", "useradd --system").splitlines():
        if not command.startswith(("install -m 755 crates/", *SYSTEMD)):
            must(command, cwd=TOP)
    must("install -d -m 750 -g publisher /run/zoneoffice-publisher")
    for command in shown("operations.md", "install -d -m 755 /etc/zoneoffice/front").splitlines():
        if command.startswith("htpasswd"):
            for user in users:
                must(f"htpasswd -i /etc/zoneoffice/front/users '{user}'", input=password(user))
        elif command.startswith("install -m 644 cert"):
            must("openssl req -x509 -newkey ec -pkeyopt ec_paramgen_curve:P-256 -nodes -subj /CN=office.example.org -days 2 "
                 "-keyout /etc/zoneoffice/front/key.pem -out /etc/zoneoffice/front/cert.pem")
        elif not command.startswith((*SYSTEMD, "install -m 600 key")):
            must(command, cwd=TOP)
    must("nginx")


# what the commands of the pages take from the top folder
SOURCES = ("CHANGELOG.md", "adapters", "client", "crates/cli_core/src", "crates/dns_data/src", "crates/grant_policy/src",
           "crates/refusals/src", "deploy", "docs", "examples", "package", "tools", "web")


class Machine:
    """A container that systemd boots, over the files of this machine. Of several, each has a name and a folder of its own."""

    def __init__(self, folder, name="office"):
        self.name = name
        self.mount(folder, "/")
        # no service of this machine starts there, but nginx, which Debian's package has enabled
        for links in glob.glob(f"{self.root}/etc/systemd/system/*.wants") + glob.glob(f"{self.root}/etc/rc?.d"):
            shutil.rmtree(links)
        must(f"chroot {self.root} systemctl enable nginx")
        must(f"rm -rf {self.root}/etc/nginx/sites-enabled/* {self.root}/etc/nginx/conf.d/* {self.root}/usr/sbin/policy-rc.d")
        top = f"{self.root}/srv/zoneoffice"
        os.makedirs(f"{top}/crates/zoneoffice/out")
        shutil.copy(PROGRAM, f"{top}/crates/zoneoffice/out/zoneoffice")
        for part in SOURCES:
            copy = shutil.copytree if os.path.isdir(f"{TOP}/{part}") else shutil.copy
            copy(f"{TOP}/{part}", f"{top}/{part}")
        self.boot()

    def mount(self, folder, base):
        """Puts a layer in memory over the files of a machine."""
        self.root = os.path.join(folder, "root")
        must(f"mkdir {folder}/up {folder}/work {self.root} && "
             f"mount -t overlay overlay -o lowerdir={base},upperdir={folder}/up,workdir={folder}/work {self.root}")
        # where no systemd runs, control groups of its own, or containers that run at the same time would share theirs
        self.group = None
        if not os.path.isdir("/run/systemd/system"):
            self.group = f"{folder}/groups/{os.path.basename(os.environ['TRYING'])}-{self.name}"
            must(f"mkdir {folder}/groups && mount -t cgroup2 cgroup2 {folder}/groups && mkdir {self.group}")

    def boot(self):
        keep = f"echo 0 > {self.group}/cgroup.procs && exec systemd-nspawn --keep-unit" if self.group else "exec systemd-nspawn"
        self.nspawn = subprocess.Popen(
            f"{keep} --quiet --directory={self.root} --register=no --private-network "
            f"--machine={self.name}{os.getpid()} --console=pipe --boot", shell=True, stdin=subprocess.DEVNULL, stdout=subprocess.DEVNULL,
            stderr=subprocess.STDOUT, env={**os.environ, "SYSTEMD_NSPAWN_UNIFIED_HIERARCHY": "1"})
        self.leader = wait_for(lambda: run(f"pgrep -P {self.nspawn.pid} -x systemd")[1])
        if not wait_for(lambda: self.run("systemctl is-system-running --wait")[1] in ("running", "degraded"), 300):
            raise RuntimeError(f"the container does not boot: {self.run('systemctl list-jobs')[1]}")

    def halt(self):
        self.run("systemctl poweroff")
        try:
            self.nspawn.wait(120)
        except subprocess.TimeoutExpired:
            self.nspawn.kill()
            self.nspawn.wait()

    def end(self):
        """What systemd-nspawn leaves of its control groups goes too."""
        self.halt()
        if self.group:
            run(f"find {self.group} /sys/fs/cgroup/systemd/{os.path.basename(self.group)} -depth -type d -exec rmdir {{}} ';'")

    def run(self, command, **more):
        return run(f"""exec nsenter -t {self.leader} -m -u -i -n -p -C -- sh -c 'cd /srv/zoneoffice && eval "$COMMAND"'""",
                   env={"PATH": os.environ["PATH"], "COMMAND": command}, **more)

    def must(self, command, **more):
        status, said = self.run(command, **more)
        if status:
            raise RuntimeError(f"{command}: status {status}: {said}")
        return said

    def main_pid(self, unit="zoneoffice"):
        return self.must(f"systemctl show -p MainPID --value {unit}")

    def state(self, unit="zoneoffice"):
        return self.run(f"systemctl is-active {unit}")[1]

    def answers(self, user="www-data", socket=FRONT):
        return self.run(f"runuser -u {user} -- curl -s -m 20 --unix-socket {socket} -H 'X-Office-Caller: admin' "
                        "http://office/rights/www.example.org./A/list")[1] == '{"by":"hostmasters","granted":true}'

    def is_back(self):
        return self.answers() and self.state() == "active"


def set_up_service(machine):
    """All commands of the two blocks of operations.md by which an office is set up, in their order and as they stand."""
    for command in shown("operations.md", "useradd --system").splitlines():
        machine.must(command)
    machine.must("echo 127.0.0.1 office.example.org >> /etc/hosts")
    machine.must("openssl req -x509 -newkey rsa:2048 -nodes -subj /CN=office.example.org -days 2 -keyout key.pem -out cert.pem")
    for command in shown("operations.md", "install -d -m 755 /etc/zoneoffice/front").splitlines():
        if command.startswith("htpasswd"):
            command = command.replace("htpasswd", "echo secret | htpasswd -i", 1)
        machine.must(command)
