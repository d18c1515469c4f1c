"""What the checks of `ept_server` share: the program, a running one, and what that one takes of the machine.

`PROGRAM` is the program that they run: crates/ept_server/out/ept_server, which `rt run` in that crate builds, or the
path in EPT_SERVER. It listens on the loopback alone.
"""

import os
import resource
import shutil
import socket
import subprocess
import sys
import tempfile
import time
from contextlib import contextmanager
from pathlib import Path

import model

TOP = Path(__file__).resolve().parent.parent
PROGRAM = Path(os.environ.get("EPT_SERVER", TOP / "crates/ept_server/out/ept_server")).absolute()
SURVEY = "examples/survey/survey.json"
EVERYTHING = "query?box=" + ",".join(["-2147483648"] * 3 + ["2147483647"] * 3) + "&depths=0,32"

NGINX = """
{user}daemon off; worker_processes auto; pid {own}/pid; error_log {own}/error.log;
events {{ }}
http {{
    access_log off; sendfile on; tcp_nopush on;
    client_body_temp_path {own}/body; proxy_temp_path {own}/proxy; fastcgi_temp_path {own}/fastcgi;
    uwsgi_temp_path {own}/uwsgi; scgi_temp_path {own}/scgi;
    types {{ application/json json; application/octet-stream bin; }}
    {sites}
}}
"""


def need_programs(*programs):
    """Ends the script with status 2 where one of these is not there."""
    for program in programs or (PROGRAM,):
        if not program.exists():
            print(f"skipped: {program} is not there; ./ept builds ept_tool, and `rt run` in crates/ept_server the server")
            sys.exit(2)


def build_survey(out):
    """Builds the survey of the examples into a folder."""
    subprocess.run([model.PROGRAM, "build", SURVEY, out], cwd=TOP, stdout=subprocess.DEVNULL, check=True)
    return out


def free_port():
    with socket.socket() as probe:
        probe.bind(("127.0.0.1", 0))
        return probe.getsockname()[1]


def wait_for(port, process, seconds=10):
    """Waits until a port of the loopback is listened at."""
    for _ in range(seconds * 20):
        try:
            socket.create_connection(("127.0.0.1", port), 1).close()
            return
        except OSError:
            time.sleep(0.05)
    process.kill()
    sys.exit(f"{process.args[0]} does not listen")


def start(out, descriptors=None, single=False, logs=None, closed=()):
    """Starts the server, and waits until it listens. If asked to, it has at most this number of descriptors, a single thread,
    a line a request in the file `logs`, and these standard streams closed."""
    def limit():
        if descriptors:
            resource.setrlimit(resource.RLIMIT_NOFILE, (descriptors, descriptors))
        for stream in closed:
            os.close(stream)

    port = free_port()
    words = [str(PROGRAM), *(["--single"] if single else []), str(out), f"127.0.0.1:{port}"]
    environment = {name: value for name, value in os.environ.items() if name != "EPT_LOG"}
    if logs:
        environment["EPT_LOG"] = "1"
    server = subprocess.Popen(words, preexec_fn=limit, env=environment, stderr=logs)
    wait_for(port, server)
    return server, port


def taken(pid):
    """The threads, the descriptors and the resident bytes of a process; OSError where it has ended."""
    lines = dict(line.split(":", 1) for line in Path(f"/proc/{pid}/status").read_text().splitlines())
    if "VmRSS" not in lines:
        raise OSError(f"process {pid} has ended")
    return int(lines["Threads"]), len(os.listdir(f"/proc/{pid}/fd")), int(lines["VmRSS"].split()[0]) * 1024


# ---- other servers

def installed(program, package):
    """The path of a program, installed from the system's packages if it is missing; `None` if it can't be had."""
    for attempt in range(2):
        path = shutil.which(program, path=os.environ["PATH"] + ":/usr/sbin")
        if path or attempt:
            return path
        for words in ["update"], ["install", "-y", "--no-install-recommends", package]:
            subprocess.run(["apt-get", *words], stdout=subprocess.DEVNULL, check=False)


@contextmanager
def running(words, port):
    """A server while it is needed."""
    process = subprocess.Popen(words, stdout=subprocess.DEVNULL, stderr=subprocess.DEVNULL)
    try:
        wait_for(port, process)
        yield process
    finally:
        process.terminate()
        process.wait()


def run_nginx(path, own, port, sites):
    """nginx with these sites, in a folder of its own."""
    place = Path(tempfile.mkdtemp(dir=own))
    user = "user root; " if os.geteuid() == 0 else ""
    (place / "nginx.conf").write_text(NGINX.format(user=user, own=place, sites=sites))
    return running([path, "-p", place, "-c", place / "nginx.conf"], port)
