"""Serves the example's office and its page on this machine, with a menu of callers and a tour of six steps."""

import signal

signal.signal(signal.SIGINT, signal.SIG_DFL)  # until there is something to take away

import argparse
import difflib
import os
import sys
import threading
import webbrowser

sys.path.insert(0, os.path.dirname(os.path.abspath(__file__)))

import steps
from front import Front
from office import TOP, Office, Refusal, find_program, keep_folder

OUTPUT = os.path.join(TOP, "examples/demo-output")


def run_script(front):
    """Takes the six steps. Returns 1 if something else was printed than stands in examples/demo-output."""
    visitor = steps.Visitor(front.port)
    steps.take(visitor)
    with open(OUTPUT, encoding="utf-8") as it:
        wanted = it.read().splitlines()
    differences = list(difflib.unified_diff(wanted, visitor.lines, "examples/demo-output", "this run", lineterm=""))
    if differences:
        print("examples/demo: this is not what stands in examples/demo-output:", *differences, sep="\n", file=sys.stderr)
    return 1 if differences else 0


def invite(url):
    """Prints the address, and opens it where there is a display."""
    print(f"A demo of zoneoffice, without passwords. It ends with Ctrl-C, and leaves nothing behind.\n{url}", flush=True)
    if os.environ.get("DISPLAY") or os.environ.get("WAYLAND_DISPLAY"):
        threading.Thread(target=webbrowser.open, args=(url,), daemon=True).start()


def run(program, options):
    """Runs the demo, and takes away what it made. Returns the status of the script."""
    folder, delete = keep_folder()
    office = None
    try:
        office = Office(program, folder)
        front = Front(options.port, office)
        front.start()
        if options.script:
            return run_script(front)
        invite(f"http://127.0.0.1:{front.port}/demo")
        raise Refusal(f"the office ended, with status {office.process.wait()}")
    finally:
        if office:
            office.stop()
        delete()


def leave(number, _):
    """Ends the demo on a signal, with the status that a shell gives it. Another signal changes nothing."""
    for one in signal.SIGINT, signal.SIGTERM, signal.SIGHUP:
        signal.signal(one, signal.SIG_IGN)
    sys.exit(128 + number)


def port(word):
    if not 0 <= int(word) <= 65535:
        raise ValueError
    return int(word)


def main():
    parser = argparse.ArgumentParser(prog="examples/demo", allow_abbrev=False, description=__doc__)
    parser.add_argument("--port", type=port, default=0, metavar="N", help="listen on this port of 127.0.0.1, and not on a free one")
    parser.add_argument("--script", action="store_true", help="take the six steps and print them, and do not serve")
    options = parser.parse_args()
    for number in signal.SIGINT, signal.SIGTERM, signal.SIGHUP:
        signal.signal(number, leave)
    try:
        return run(find_program(), options)
    except Refusal as refusal:
        print(f"examples/demo: {refusal}", file=sys.stderr)
        return 2
    except BrokenPipeError:  # whoever read what is printed went away
        os.dup2(os.open(os.devnull, os.O_WRONLY), 1)
        return 1


if __name__ == "__main__":
    sys.exit(main())
