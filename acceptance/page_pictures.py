"""Makes the pictures of docs/pictures that show the page: each is what a department sees in a zone that nobody has changed yet."""

import time

from page_browser import REVERSE, ZONE, add, change
from trying import expect

DARK = "records", "review"  # pictures that are made in dark colours too


def at_widths(browser, name, place="dialog[open]"):
    browser.pictures(name, place)
    for width in (1280, 320) if name in DARK else ():
        browser.size(width, 800 if width > 500 else 700, dark=True)
        browser.js("scrollTo(0, 0)")
        time.sleep(0.3)
        browser.picture(f"{name}-{width}-dark")
    browser.size()


def rights(browser):
    browser.view("rights")
    browser.write("ask-name", "physics")
    browser.wait("document.getElementById('answers').children.length === 5", "the answers")
    browser.press("#my-rights")
    browser.ready("Asked at")
    at_widths(browser, "rights")


def records_and_plan(browser):
    browser.view("records")
    browser.press("#add")
    browser.write("edit-name", "bücher.physics")
    browser.write("edit-ttl", "600")
    browser.write("edit-data", "192.0.2.119")
    browser.wait("document.getElementById('edit-marks').textContent", "the right")
    at_widths(browser, "add")
    browser.write("edit-ttl", "1 h")
    browser.press("#edit .main")
    browser.press("[aria-label^='Delete printer.physics']")
    browser.wait("document.getElementById('bar-count').textContent === '2 changes'", "the bar")
    at_widths(browser, "records")
    browser.edit("my_pc.physics", "192.0.2.129")
    browser.edit("vault.physics", "192.0.2.9")
    expect("pictures: of four changes name servers would refuse one, and the policy denies another",
           [[mark.split(" ")[0] for mark in marks] for _, _, marks in browser.plan()], [["you"], ["you"], ["name", "lab.physics", "you"], ["you"]])
    at_widths(browser, "review")
    browser.start_anew()


def new_host(browser):
    browser.view("records")
    browser.press("#new-host")
    browser.write("task-name", "pc15.physics")
    browser.write("task-addresses", "192.0.2.240/29 2001:db8::15")
    browser.wait(f"document.getElementById('task-marks').textContent.includes('then, in {REVERSE}')", "what it comes to")
    at_widths(browser, "host")
    browser.press("#task-cancel")


def conflict(browser):
    name = f"gauge.physics.{ZONE}"
    change(add(name, "A", "192.0.2.31", 3600), ticket="t4690")
    browser.open()
    browser.change("gauge.physics", "192.0.2.32")
    change({"op": "delete-record", "name": name, "type": "A", "data": "192.0.2.31"}, add(name, "A", "192.0.2.39", 300), ticket="t4702")
    expect("pictures: a conflict", browser.send(), "refused")
    browser.press("#result-review")
    browser.wait("document.querySelector('.conflict dl')", "the choice")
    at_widths(browser, "conflict")
    browser.start_anew()


def history(browser, named):
    change({"op": "delete-rrset", "name": f"lab.physics.{ZONE}", "type": "A"}, add(f"lab.physics.{ZONE}", "A", "203.0.113.1", 3600), ticket="t4711")
    named.take()
    named.write()
    browser.open("changes", "The last change")
    browser.wait("document.getElementById('changes-list').textContent.includes('t4711')", "who and when")
    at_widths(browser, "changes")


def delegations(browser, named):
    browser.sign_in("med")
    browser.open("delegations", "delegations? of .*read at")
    browser.press("[aria-label^='Change medicine']")
    browser.write("server-1-addresses", "198.51.100.54 2001:db8::54")
    browser.press("#server-add")
    browser.write("server-2-name", "ns2.example.net")
    browser.write("child-ds", "60485 13 2 2BB183AF5F22588179A53B0A98631FAD1A292118A4D0E3F0B2D9A8F3C4B5A697")
    browser.press("#delegate .main")
    browser.plan()
    expect("pictures: a delegation", browser.send(), "made")
    named.take()
    named.start_child(f"medicine.{ZONE}")
    named.check_children()
    browser.open("delegations", "delegations? of .*read at")
    at_widths(browser, "delegations")


def beyond(browser):
    def name(front):
        return f"{front}.physics.{ZONE}"

    change(add(name("*.users"), "A", "192.0.2.140", 3600), add(name("web"), "CNAME", name("printer"), 3600))
    browser.sign_in("phys")
    browser.edit("*.physics", "192.0.2.9")
    browser.edit("grace.users.physics", "room 3", "TXT")
    browser.change("printer.physics", "192.0.2.131")
    expect("pictures: a wildcard, a name beside one, and an alias", len(browser.beyond(3)), 3)
    browser.settled()
    at_widths(browser, "beyond", "#beyond")
    browser.start_anew()


def all_pictures(browser, named):
    """All of them, in one browser of physics, of medicine, and of physics again."""
    rights(browser)
    records_and_plan(browser)
    new_host(browser)
    conflict(browser)
    history(browser, named)
    delegations(browser, named)
    beyond(browser)
