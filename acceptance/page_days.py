"""Days of a department: stories of the page, as presses and keys from a wish to what the name servers answer.

Each day is a function that takes the browser of physics and the name servers (page_servers.py); it ends with what `dig` says of BIND,
Knot and NSD.
"""

import os
import time

from selenium.common.exceptions import WebDriverException

from page_browser import REVERSE, SECRET, ZONE, Keys, add, ask, at, change, listed
from page_servers import CHILD
from trying import TOP, check, expect, run

DAYS = []


def day(function):
    """Takes a story into the list; its first line of documentation is its name."""
    DAYS.append(function)
    return function


def p(name):
    return f"{name}.physics.{ZONE}"


@day
def a_new_host(phys, named):
    """a host with a long address book: one record, said in words, and live"""
    phys.edit("day1.physics", "192.0.2.11", ttl="5 min")
    expect("day 1, a new host: the plan says it in words", phys.plan(), [["day1.physics", "new A 192.0.2.11 5 min", ["you may (rule physics)"]]])
    expect("it is made, and the name server has it", (phys.send(), named.dig(p("day1"))), ("made", ["192.0.2.11"]))


@day
def an_umlaut(phys, named):
    phys.view("records")
    phys.press("#add")
    phys.write("edit-name", "bücher.physics")
    phys.write("edit-data", "192.0.2.12")
    expect("day 2, a name with an umlaut: it is shown as both", phys.text("edit-name-hint"),
           f"is bücher.physics.{ZONE} (xn--bcher-kva.physics.{ZONE})")
    phys.press("#edit .main")
    phys.view("records")
    expect("it is made, and the name servers load the zone and have it", (phys.send(), named.take(), named.dig(f"xn--bcher-kva.physics.{ZONE}")),
           ("made", [], ["192.0.2.12"]))
    phys.filter("bücher")
    expect("it is found as it is written", [row[0] for row in phys.rows()], [f"xn--bcher-kva.physics.{ZONE}"])
    phys.filter("")


@day
def an_underscore(phys, named):
    phys.edit("my_pc.physics", "192.0.2.13")
    (_, _, marks), = phys.plan()
    expect("day 3, an underscore in a host's name: the plan says that name servers refuse the zone", marks[0].split(":")[0], "name servers would refuse the zone")
    before = len(listed("phys"))
    phys.press("#review-send")
    phys.wait("document.getElementById('send-anyway')", "the second press")
    expect("one press does not send it", ([row for row in listed("phys") if "my_pc" in row], len(listed("phys"))), ([], before))
    phys.press("#send-anyway")
    phys.wait("document.getElementById('result').className === 'made' && !document.getElementById('result').hidden", "the result")
    expect("a second one does, and the name server refuses it, as it was said", (at("phys", p("my_pc"), "A"), named.take()), (["192.0.2.13"], ["bind"]))
    phys.change("my_pc.physics", "192.0.2.13")
    phys.view("records")
    phys.press("[aria-label^='Delete my_pc.physics']")
    phys.edit("my_pc2.physics", "192.0.2.14")
    phys.plan()
    phys.press("#plan .mark.bad button")
    expect("the plan makes it a name that can be, and takes the other back", [line[:2] for line in phys.plan()],
           [["my_pc.physics", "Delete A 192.0.2.13"], ["my-pc2.physics", "new A 192.0.2.14 1 h"]])
    expect("then the zone loads again, and the host is live", (phys.send(), named.take(), named.dig(p("my-pc2"))), ("made", [], ["192.0.2.14"]))


@day
def a_dotted_alias(phys, named):
    phys.view("records")
    phys.press("#add")
    phys.write("edit-name", "search.physics")
    phys.choose("edit-type", "CNAME")
    phys.write("edit-data", "www.google.com")
    expect("day 4, an alias of www.google.com without its last dot: it is that name, and the other reading is offered",
           (phys.text("edit-data-hint"), phys.js("return [...document.querySelectorAll('#readings label')].map((one) => one.textContent.trim())")),
           ("is www.google.com.", ["www.google.com.", f"www.google.com.{ZONE}"]))
    phys.press("#edit .main")
    expect("it is live as it was meant", (phys.send(), named.dig(f"search.physics.{ZONE}", "CNAME")), ("made", ["www.google.com."]))


@day
def a_name_in_the_zone(phys, named):
    phys.view("records")
    phys.press("#add")
    phys.write("edit-name", "wiki.physics")
    phys.choose("edit-type", "CNAME")
    phys.write("edit-data", "day1.physics")
    marked = "return [...document.querySelectorAll('#readings label')].map((one) => [one.textContent.trim(), one.querySelector('input').checked])"
    expect("day 5, a dotted name that the zone has: both are offered, and the one in the zone is marked", phys.js(marked),
           [[f"day1.physics.{ZONE} (it is in the zone)", True], ["day1.physics.", False]])
    phys.press("#edit .main")
    expect("it is live", (phys.send(), named.dig(f"wiki.physics.{ZONE}")), ("made", ["192.0.2.11", f"day1.physics.{ZONE}"]))


def delete_deep(phys, name):
    """Deletes an address that is far down in the list, where rows are there only once they are near."""
    found = f"[aria-label^='Delete {name} A']"
    for place in range(0, 20000, 700):
        if phys.js("return document.querySelector(arguments[0]) !== null", found):
            break
        phys.js("scrollTo(0, arguments[0])", place)
        time.sleep(0.2)
    phys.press(found)


def in_conflict(phys, name):
    """A host with .31, which phys makes .32, while somebody makes it .39."""
    change(add(p(name), "A", "192.0.2.31", 3600))
    phys.view("records")
    phys.press("#again")
    phys.wait(f"document.querySelector(\"[aria-label^='Change {p(name)}']\")", "the host")
    phys.change(p(name), "192.0.2.32")
    phys.view("records")
    change({"op": "delete-record", "name": p(name), "type": "A", "data": "192.0.2.31"}, add(p(name), "A", "192.0.2.39", 300))
    result = phys.send()
    head = phys.text("result-head")
    phys.press("#result-review")
    return result, head


@day
def replace_theirs(phys, named):
    expect("day 6, somebody changed the address meanwhile: nothing is made", in_conflict(phys, "day6"), ("refused", "Not saved: it was changed meanwhile"))
    phys.wait("document.querySelector('.conflict dl')", "the choice")
    expect("the plan has mine, theirs, and as it was", phys.js("return [...document.querySelectorAll('.conflict dd')].map((one) => one.textContent)"),
           ["A 192.0.2.31", "A 192.0.2.39 without A 192.0.2.31", "A 192.0.2.32"])
    phys.pictures("conflict")
    phys.press("[data-resolve=replace]")
    expect("replaced, mine is the only one", (phys.send("#review-send"), named.dig(p("day6"))), ("made", ["192.0.2.32"]))


@day
def keep_both(phys, named):
    in_conflict(phys, "day7")
    phys.press("[data-resolve=both]")
    expect("day 7, the same, and both are kept", (phys.send("#review-send"), named.dig(p("day7"))), ("made", ["192.0.2.32", "192.0.2.39"]))


@day
def keep_theirs(phys, named):
    in_conflict(phys, "day8")
    phys.press("[data-resolve=theirs]")
    phys.wait("!document.querySelector('#plan li')", "the end of it")
    expect("day 8, the same, and theirs is kept", named.dig(p("day8")), ["192.0.2.39"])


@day
def a_denial_elsewhere(phys, named):
    phys.view("records")
    phys.press("#add")
    phys.write("edit-name", "vault.physics")
    phys.write("edit-data", "192.0.2.15")
    phys.wait("document.getElementById('edit-marks').textContent.includes('rule vault')", "the denial")
    phys.press("#edit-cancel")
    phys.press(f"[aria-label^='Change lab.physics.{ZONE} A']")
    expect("day 9, a denial of one name is not said of the next", "vault" in phys.text("edit-marks"), False)
    phys.write("edit-data", "192.0.2.150")
    phys.press("#edit .main")
    expect("which can be changed", (phys.send(), named.dig(p("lab"))), ("made", ["192.0.2.150"]))


@day
def an_alias_beside_others(phys, named):
    phys.edit("lab.physics", "day1", "CNAME")
    (_, _, marks), = phys.plan()
    expect("day 10, an alias beside an address: nothing would change, and why", (marks[0].split(":")[0], phys.js("return document.getElementById('review-send').disabled")),
           ("nothing would change", True))
    phys.press("#plan .mark.bad button")
    result = phys.send("#review-send")
    expect("with the others deleted in the same update it is live", (result, named.dig(p("lab"), "CNAME")), ("made", [f"day1.{ZONE}"]))


@day
def undo_and_edit(phys, named):
    phys.edit("day11.physics", "192.0.2.61")
    phys.edit("typo.physics", "192.0.2.62")
    phys.press("#undo")
    phys.plan()
    phys.press("#plan .do button")
    phys.write("edit-data", "192.0.2.63")
    phys.press("#edit .main")
    expect("day 11, a step undone, and a change edited before it is sent", [line[:2] for line in phys.plan()], [["day11.physics", "new A 192.0.2.63 1 h"]])
    expect("one record is live", (phys.send(), named.dig(p("day11")), named.dig(p("typo"))), ("made", ["192.0.2.63"], []))


@day
def a_closed_tab(phys, named):
    phys.edit("day12.physics", "192.0.2.64")
    phys.in_new_tab()
    phys.ready()
    expect("day 12, the tab was closed: the changes are there", [line[:2] for line in phys.plan()], [["day12.physics", "new A 192.0.2.64 1 h"]])
    expect("and can be sent", (phys.send(), named.dig(p("day12"))), ("made", ["192.0.2.64"]))


@day
def many_at_once(phys, named):
    lines = "name,address\n" + "".join(f"many{n}.physics,192.0.2.{n % 200}\n" for n in range(1, 71)) + "bad_,192.0.2.999\n"
    phys.view("records")
    phys.begin("paste")
    phys.js("const field = document.getElementById('task-text'); field.value = arguments[0]; field.dispatchEvent(new Event('input', {bubbles: true}))", lines)
    phys.wait("document.querySelectorAll('#task-marks .mark').length === 71", "the verdicts")
    phys.finish_task()
    phys.wait("document.querySelectorAll('#plan > li').length === 70", "the plan")
    phys.settled()
    expect("day 13, 70 records of a table: sent as several updates", phys.text("review-what"),
           "This is too much for one update. It is sent as 2 updates, one after the other; of each all is saved, or nothing.")
    phys.js("window.said_ = []; new MutationObserver(() => window.said_.push(document.getElementById('status').textContent)).observe(document.getElementById('status'), {childList: true})")
    result = phys.send("#review-send", 600)
    parts = phys.js("return window.said_.filter((text) => text.startsWith('Sending'))")
    expect("it says which one it sends", parts, ["Sending part 1 of 2 …", "Sending part 2 of 2 …"])
    live = [named.dig(f"many{n}.physics.{ZONE}") for n in (1, 64, 70)]
    expect("all are live", (result, live, sum(row.startswith("many") for row in listed("phys"))), ("made", [["192.0.2.1"], ["192.0.2.64"], ["192.0.2.70"]], 70))


@day
def one_of_many(phys, named):
    name = f"pool.physics.{ZONE}"
    change(*[add(name, "A", f"192.0.2.{n}") for n in range(21, 51)])
    phys.view("records")
    phys.press("#again")
    phys.filter(f'"{name}" 192.0.2.42')
    phys.wait("document.querySelectorAll('#table tbody:not(#new-rows) tr').length === 1", "the record")
    phys.press(f"[aria-label^='Delete {name} A 192.0.2.42']")
    expect("day 14, one address of thirty: it is guarded by the record", phys.guards(),
           [f"{name} A exists (it has 30 records: the record is compared before it is sent)"])
    result = phys.send("#review-send")
    found = named.dig(name)
    expect("it is gone, and the others are there", (result, len(found), "192.0.2.42" in found), ("made", 29, False))
    phys.view("records")
    phys.filter(f'"{name}" 192.0.2.44')
    phys.change(f"{name} A 192.0.2.44", "192.0.2.144")
    change({"op": "delete-record", "name": name, "type": "A", "data": "192.0.2.44"})
    result = phys.send()
    head = phys.text("result-head")
    phys.press("#result-review")
    phys.press("[data-resolve=theirs]")
    found = named.dig(name)
    expect("one that somebody deletes meanwhile is not made another one", (result, head, len(found), "192.0.2.144" in found),
           ("refused", "Not saved: it was changed meanwhile", 28, False))
    phys.view("records")
    phys.filter("")


@day
def a_host_with_its_reverse(phys, named):
    phys.view("records")
    phys.press("#new-host")
    phys.write("task-name", "day15.physics")
    phys.write("task-addresses", "192.0.2.240/29 2001:db8::15")
    phys.wait("document.getElementById('task-marks').textContent.includes('then, in')", "what it comes to")
    phys.pictures("host")
    expect("day 15, a new host: an address whose reverse zone is not there gets no reverse entry, and that is said",
           phys.js("return [...document.querySelectorAll('#task-marks .note')].map((one) => one.textContent)"),
           ["2001:db8::15 gets no reverse entry: its reverse zone is not among yours"])
    phys.finish_task()
    expect("day 15, a new host at the next free address of a net, with its reverse entry in another zone",
           [line[:2] for line in phys.plan()] + [phys.js("return document.querySelector('#plan .then').textContent")],
           [["day15.physics", "new A 192.0.2.241 1 h"], ["day15.physics", "new AAAA 2001:db8::15 1 h"],
            f"then, in {REVERSE}: 241.{REVERSE}: new PTR day15.physics.{ZONE} 1 h"])
    result = phys.send("#review-send")
    expect("both zones have it", (result, named.dig(p("day15")), named.dig(p("day15"), "AAAA"), named.dig(f"241.{REVERSE}", "PTR")),
           ("made", ["192.0.2.241"], ["2001:db8::15"], [f"day15.physics.{ZONE}"]))


@day
def a_host_that_moves(phys, named):
    phys.view("records")
    phys.press("#new-host")
    phys.write("task-name", "day16.physics")
    phys.write("task-addresses", "192.0.2.240/29 192.0.2.240/29")
    phys.finish_task()
    expect("day 16, two free addresses that are asked of one net are two", [line[:2] for line in phys.plan()],
           [["day16.physics", "new A 192.0.2.242 1 h"], ["day16.physics", "new A 192.0.2.243 1 h"]])
    phys.press("#undo")
    phys.view("records")
    phys.begin("moveHost")
    phys.write("task-name", "day15.physics")
    phys.write("task-addresses", "192.0.2.245")
    phys.finish_task()
    expect("day 16, it moves to another address", [line[:2] for line in phys.plan()], [["day15.physics", "A 192.0.2.241 → 192.0.2.245"]])
    result = phys.send("#review-send")
    expect("and its reverse entry with it", (result, named.dig(p("day15")), named.dig(f"241.{REVERSE}", "PTR"), named.dig(f"245.{REVERSE}", "PTR")),
           ("made", ["192.0.2.245"], [], [f"day15.physics.{ZONE}"]))


@day
def a_host_that_goes(phys, named):
    phys.edit("old-name.physics", "day15.physics", "CNAME")
    phys.send()
    phys.view("records")
    phys.begin("retireHost")
    phys.write("task-name", "day15.physics")
    phys.finish_task()
    expect("day 17, a host goes: its records, and the alias of it", sorted(line[0] for line in phys.plan()), ["day15.physics", "day15.physics", "old-name.physics"])
    result = phys.send("#review-send")
    expect("nothing is left of it", (result, named.dig(p("day15"), "ANY"), named.dig(p("old-name"), "CNAME"), named.dig(f"245.{REVERSE}", "PTR")), ("made", [], [], []))


@day
def a_longer_ttl(phys, named):
    name = p("day18")
    change(add(name, "A", "192.0.2.81", 3600), add(name, "A", "192.0.2.82", 3600))
    phys.view("records")
    phys.press("#again")
    phys.wait(f"document.querySelector(\"[aria-label^='Change {name}']\")", "the host")
    phys.press(f"[aria-label^='Change {name}']")
    phys.write("edit-ttl", "1 min")
    phys.press("#edit .main")
    expect("day 18, another TTL: the plan says how many records it is of", [line[:2] for line in phys.plan()], [["day18.physics", "A 192.0.2.81 TTL 1 h → 1 min (2 records)"]])
    result = phys.send()
    expect("both have it", (result, [line.split()[1] for line in named.dig(name, "A", "+noall +answer")]), ("made", ["60", "60"]))


@day
def mail_for_a_domain(phys, named):
    phys.view("records")
    phys.begin("mailDomain")
    phys.write("task-domain", "post.physics")
    phys.write("task-servers", "mail mx.example.net")
    phys.write("task-reports", "dmarc@example.org")
    phys.finish_task()
    result = phys.send()
    name = f"post.physics.{ZONE}"
    expect("day 19, a domain that gets mail", (result, named.dig(name, "MX"), named.dig(name, "TXT"), named.dig(f"_dmarc.{name}", "TXT")),
           ("made", [f"10 mail.{ZONE}", "20 mx.example.net."], ['"v=spf1 mx -all"'], ['"v=DMARC1; p=none; rua=mailto:dmarc@example.org"']))


@day
def who_broke_it(phys, named):
    change({"op": "delete-rrset", "name": p("day1"), "type": "A"}, add(p("day1"), "A", "203.0.113.1", 60), ticket="t4711")
    broken = named.dig(p("day1"))
    number = len(ask("phys", "GET", f"/zones/{ZONE}/changes/1")[2]["changes"])
    named.write()
    phys.view("changes")
    phys.press("#changes-again")
    phys.wait(f"document.querySelector('#changes-list h3')?.textContent === 'change {number}'", "the change")
    first = phys.js("return document.querySelector('#changes-list > li').innerText")
    expect("day 20, somebody broke it: the history says who, what moved from where to where, and which ticket",
           [word in first for word in ("admin, ", "t4711", f"{p('day1')} A 192.0.2.11 → 203.0.113.1")], [True] * 3)
    phys.pictures("changes")
    phys.write("changes-filter", "t4711")
    phys.wait("document.querySelectorAll('#changes-list > li').length === 1", "the ticket")
    phys.write("changes-filter", "")
    phys.press("#changes-list button")
    phys.ready("take it back")
    expect("put back by one press, guarded", [line[:2] for line in phys.plan()], [["day1.physics", "A 203.0.113.1 → 192.0.2.11 TTL 1 min → 5 min"]])
    expect("it is live again", (broken, phys.send(), named.dig(p("day1"))), (["203.0.113.1"], "made", ["192.0.2.11"]))


def live_of(browser, named):
    """What the page says of the publication, once the files of users are written anew, in a later second than the last change: it compares seconds."""
    time.sleep(1.1)
    named.write()
    browser.open()
    browser.wait("!document.getElementById('live').hidden", "the state")
    return browser.text("live")


@day
def is_it_live(phys, named):
    named.take()
    said = [live_of(phys, named)]
    phys.edit("day21.physics", "192.0.2.85")
    phys.send()
    is_waiting = "document.getElementById('live').textContent.startsWith('● Waiting: what you saved at ')"
    phys.wait(is_waiting, "that it waits")
    phys.open()
    phys.wait("!document.getElementById('live').hidden", "the state")
    expect("day 21, is it live: what was just saved waits, before the office's machine says so, and after a reload", phys.js(f"return {is_waiting}"), True)
    said.append(live_of(phys, named))
    found = named.dig(p("day21"))
    said.append(live_of(phys, named))
    expect("day 21, is it live: the page says live, waiting until the name servers have it, and live again",
           ([word in line for word, line in zip(("● Live: serial ", "● Waiting: serial ", "● Live: serial "), said)], found), ([True] * 3, ["192.0.2.85"]))
    phys.edit("your_pc.physics", "192.0.2.86")
    phys.plan()
    phys.press("#review-send")
    phys.press("#send-anyway")
    phys.wait("document.getElementById('result').className === 'made' && !document.getElementById('result').hidden", "the result")
    refusing = named.take()
    mine = live_of(phys, named)
    number = len(ask("phys", "GET", f"/zones/{ZONE}/changes/1")[2]["changes"])
    expect("a name server refuses it: who sees the record is told why, whose it is and when",
           (refusing, f"Not published: the name servers refuse “{p('your_pc')[:-1]}: bad owner name (check-names)” (phys, change {number}, " in mine), (["bind"], True))
    phys.pictures("held")
    phys.tab_to("it.closest('#live')")
    phys.keys(Keys.ENTER)
    phys.wait("document.activeElement.closest('tr.found')", "the record")
    expect("the name in that line leads to the record, by the keyboard too", phys.js("return document.activeElement.ariaLabel"), f"Change {p('your_pc')} A 192.0.2.86")
    phys.sign_in("lib")
    theirs = live_of(phys, named)
    expect("others learn that a record of another holds it up, and no more", ("Held up by a record of another" in theirs, "your_pc" in theirs), (True, False))
    phys.sign_in("phys")
    delete_deep(phys, p("your_pc"))
    expect("undone, it is live", (phys.send(), named.take(), "Live: serial " in live_of(phys, named)), ("made", [], True))


@day
def a_deep_row(phys, named):
    """Far down in a long list the way to Send is short, and 30 changes do not push the list away."""
    names = [f"many{n}.physics.{ZONE}" for n in range(31, 61)]
    phys.view("records")
    delete_deep(phys, names[0])
    phys.wait("document.getElementById('bar-count').textContent === '1 change'", "the bar")
    seen = phys.js("const box = document.getElementById('draft-send').getBoundingClientRect(); return [scrollY > 500, box.top > 0 && box.bottom <= innerHeight]")
    for count in range(1, 13):
        phys.keys(Keys.TAB)
        if phys.js("return document.activeElement.id") == "draft-send":
            break
    expect("day 22, a row deep in the list: Send is in sight, and a few keys away", (seen, count <= 8), ([True, True], True))
    place = phys.js("return document.getElementById('table').getBoundingClientRect().top + scrollY")
    for name in names[1:]:
        delete_deep(phys, name)
    phys.wait("document.getElementById('bar-count').textContent === '30 changes'", "30 changes")
    heights = []
    for width in 1000, 390:
        phys.size(width)
        heights.append(phys.js("return document.getElementById('bar').getBoundingClientRect().height / innerHeight"))
    phys.size()
    expect("30 deletions leave the list where it is, and the bar small", (max(heights) < 0.2, phys.js("return document.getElementById('table').getBoundingClientRect().top + scrollY")), (True, place))
    expect("they are gone", (phys.send(), named.dig(names[0]), named.dig(names[-1]), named.dig(f"many61.physics.{ZONE}")), ("made", [], [], ["192.0.2.61"]))


def shell(words, user="phys", given=""):
    """A command of the client as a user: its status, and what it says."""
    variables = {"OFFICE_URL": "https://office.example.org", "OFFICE_CA": "/etc/zoneoffice/front/cert.pem", "OFFICE_ZONE": ZONE, "OFFICE_USER": user,
                 "OFFICE_PASSWORD": SECRET, "PATH": os.environ["PATH"], "HOME": os.environ["HOME"]}
    return run(words.replace("office", f"{TOP}/client/office", 1), input=given, env=variables)


@day
def at_the_shell(_, named):
    """The same at the client: what is wrong is found before anything is sent, and what lacks is named."""
    script = f"zone {ZONE}\nupdate add {p('sh1')} 300 A 192.0.2.87\nsend\nupdate add {p('sh2')} 300 A 10.99.0.999\nsend\n"
    status, said = shell("office nsupdate", given=script)
    expect("day 23, a script with a mistake: line and field are named, and nothing is sent", (status, "line 4" in said and "10.99.0.999" in said, named.dig(p("sh1"))), (2, True, []))
    status, said = shell(f"office --strict add {p('pool')} 5m CNAME www.example.com")
    expect("an alias beside addresses: nothing changes, and that is a status", (status, "alone" in said or "other records" in said or "CNAME" in said, named.dig(p("pool"), "CNAME")), (3, True, []))
    status, said = shell("office add www 5m A 192.0.2.88")
    expect("a denial names the right that lacks", (status, f"you lack add A at www.{ZONE}" in said, named.dig(f"www.{ZONE}")), (1, True, ["192.0.2.80"]))
    expect("a right that is denied is a status too", shell(f"office rights www.{ZONE} A add")[0], 1)
    hosts = "".join(f"sh{n}.physics 300 A 192.0.2.{n % 250}\n" for n in range(1, 301))
    status, said = shell("office --split import -", given=hosts)
    expect("300 hosts in one command", (status, named.dig(p("sh1")), named.dig(p("sh300"))), (0, ["192.0.2.1"], ["192.0.2.50"]))
    expect("a pipe that ends is silent", shell("office list | head -1 | wc -l"), (0, "1"))


def who_may_add_only(browser, named):
    browser.sign_in("adder")
    browser.edit("day24.open", "192.0.2.91")
    (_, _, marks), = browser.plan()
    expect("day 24, who may add and not check: it is said before, and sent without a guard", marks,
           ["you may (rule adders)", "sent without a guard, since you may not check this set: no rule grants it (closing)"])
    expect("it is made", (browser.send(), named.dig(f"day24.open.{ZONE}")), ("made", ["192.0.2.91"]))


def who_may_not_delete(browser, named):
    browser.sign_in("keeper")
    label = f"day24.open.{ZONE} A 192.0.2.91"
    browser.wait(f"document.querySelector(\"[aria-label^='Delete {label}:']\")", "the reason at the button")
    reason = browser.js("return document.querySelector(arguments[0]).title", f"[aria-label^='Delete {label}']")
    expect("day 25, who may not delete: the button is grey, with the reason", reason, "you may not delete A at day24.open: no rule grants it (closing)")
    browser.change(label, "192.0.2.92")
    (_, _, marks), = browser.plan()
    disabled = browser.js("return document.getElementById('draft-send').disabled")
    mail = browser.js("return decodeURIComponent(document.querySelector('#plan a').href)")
    expect("a change, which deletes too, is said to be denied, with a mail to those who decide",
           (marks, disabled, mail.split("?")[0], f"delete A day24.open.{ZONE} (closing)" in mail),
           (["you may not delete A at day24.open: no rule grants it (closing)"], True, "mailto:hostmaster@example.org", True))
    expect("and nothing was made", named.dig(f"day24.open.{ZONE}"), ["192.0.2.91"])
    browser.press("#undo")


def delegations(browser, named):
    """Medicine's servers: names without their dot, keys, what is missing, whether they answer, and the end of it."""
    browser.sign_in("med")
    name = f"medicine.{ZONE}"
    named.check_children()
    browser.open("delegations", "delegations? of .*read at")
    expect("day 26, delegations as a picture: child, server, glue, and whether it answers", browser.js(
        "return [...document.querySelectorAll('#children .node')].map((one) => one.firstChild.textContent.trim())"), [ZONE, "medicine", "ns1.medicine", "198.51.100.53"])
    check("a server that is silent is red", None if browser.js("return document.querySelector('#children .node.bad').textContent.includes('does not answer')") else "it is not")
    browser.press("[aria-label^='Change medicine']")
    browser.write("server-1-addresses", "")
    browser.press("#delegate .main")
    expect("a server within the child needs an address, in words", browser.text("delegate-fault"),
           f"ns1.{name}: a server within the child has no address, so that no one could find it")
    browser.write("server-1-addresses", f"{CHILD} 2001:db8::54")
    browser.press("#server-add")
    browser.write("server-2-name", "ns2.example.net")
    hint = browser.text("server-2-name-hint")
    browser.write("child-ds", "60485 13 2 2BB183AF5F22588179A53B0A98631FAD1A292118A4D0E3F0B2D9A8F3C4B5A697")
    browser.pictures("delegate", "#delegate")
    browser.press("#delegate .main")
    expect("a server's name without its last dot is that name, and the other reading is offered", hint, f"is ns2.example.net. I mean ns2.example.net.{ZONE}")
    browser.plan()
    result = browser.send()
    expect("the key is live", (result, named.dig(name, "DS")), ("made", ["60485 13 2 2BB183AF5F22588179A53B0A98631FAD1A292118A4D0E3F0B2D9A8F3 C4B5A697"]))
    expect("and the referral has both servers and the new addresses", named.authority(f"www.{name}"),
           sorted([f"A {CHILD}", "AAAA 2001:db8::54", f"NS ns1.{name}", "NS ns2.example.net."]))
    named.start_child(name)
    named.check_children()
    browser.open("delegations", "delegations? of .*read at")
    marks = browser.js("return [...document.querySelectorAll('#children .tag')].map((one) => [one.textContent, one.className.split(' ')[1]])")
    expect("once the child's server is up it answers, and a key that the child does not have is red", sorted(mark for mark in marks if mark[1] != "note"),
           [["answers", "good"], ["has no address", "bad"], ["the child is not signed: validators find nothing", "bad"]])
    browser.pictures("delegations")
    change(add(f"old.{name}", "A", "198.51.100.99"))
    browser.open("delegations", "delegations? of .*read at")
    orphans = browser.js("return [...document.querySelectorAll('#orphans code')].map((one) => one.textContent)")
    browser.press("#orphans button")
    expect("an address that no server has the name of any more is shown, and can be deleted", (orphans, [line[:2] for line in browser.plan()]),
           (["old.medicine A 198.51.100.99"], [["old.medicine", "Delete A 198.51.100.99"]]))
    expect("it is gone", (browser.send(), [row for row in listed("admin") if row.startswith("old.")]), ("made", []))
    browser.open("delegations", "delegations? of .*read at")
    browser.press("[aria-label^='End medicine']")
    expect("day 27, a delegation ends: servers, keys and glue go", sorted(line[1].split()[1] for line in browser.plan()), ["A", "AAAA", "DS", "NS", "NS"])
    result = browser.send()
    expect("nothing is left of it", (result, named.dig(name, "NS"), [row for row in listed("admin") if "medicine" in row]), ("made", [], []))


KEY = "60485 13 2 2bb183af5f22588179a53b0a98631fad1a292118a4d0e3f0b2d9a8f3c4b5a697"


def a_key_cut_short(browser, named):
    """A key loses its end where it is pasted; and one of SHA-1."""
    name = f"medicine.{ZONE}"

    def delegate(key, press):
        browser.open("delegations", "delegations? of .*read at")
        browser.press(press)
        browser.write("child", "medicine")
        browser.write("server-1-name", "ns2.example.net")
        browser.write("child-ds", key)
        browser.press("#delegate .main")
        return [mark for _, words, marks in browser.plan() for mark in marks if " DS " in words and "you may" not in mark]

    said = delegate(KEY[:-2], "#delegate-new")
    browser.press("#review-send")
    browser.wait("document.getElementById('send-anyway')", "the second press")
    expect("day 28, a key that was cut short as it was pasted: the plan says that name servers refuse the zone, and one press does not send it",
           (said, named.dig(name, "DS")), ([f"name servers would refuse the zone: the digest of a key of {name} is too short or too long for its type"], []))
    browser.press("#undo")
    said = delegate(f"60485 13 1 {KEY.split()[3][:40]}", "#delegate-new")
    expect("of one of SHA-1 they would warn", said, [f"name servers would warn: the digest of a key of {name} is of SHA-1 (type 1); use SHA-256 (type 2)"])
    browser.press("#undo")
    expect("the whole key is live", (delegate(KEY, "#delegate-new"), browser.send(), named.take(), "".join(named.dig(name, "DS")).replace(" ", "").lower()),
           ([], "made", [], KEY.replace(" ", "")))


def what_one_server_refuses(browser, named):
    browser.sign_in("phys")
    browser.edit("a+b.physics", "room 12", "TXT")
    (_, _, marks), = browser.plan()
    expect("day 29, a name that Knot does not read: the plan says so", marks,
           [f"name servers would refuse the zone: {p('a+b')} has a character that Knot does not read", "you may (rule physics)"])
    browser.press("#review-send")
    browser.press("#send-anyway")
    browser.wait("document.getElementById('result').className === 'made' && !document.getElementById('result').hidden", "the result")
    expect("sent all the same, Knot refuses it, and the others have it", (named.take(), named.dig(p("a+b"), "TXT")),
           (["knot"], {"bind": ['"room 12"'], "knot": [], "nsd": ['"room 12"']}))
    browser.view("records")
    browser.filter("a+b")
    browser.press("[aria-label^='Delete a+b.physics']")
    expect("deleted, all have the zone again", (browser.send(), named.take(), named.dig(p("a+b"), "TXT")), ("made", [], []))
    browser.view("records")
    browser.filter("")


def an_alias_of_nothing(browser, named):
    browser.edit("short.physics", f"longer.physics.{ZONE}", "CNAME")
    (_, _, marks), = browser.plan()
    expect("day 30, an alias of a name that is not there: the plan says that it would not work", marks,
           [f"this would not work: there is nothing at {p('longer')}", "you may (rule physics)"])
    browser.edit("longer.physics", "192.0.2.253")
    expect("with its host in the same update nothing is said", [line[2] for line in browser.plan()], [["you may (rule physics)"]] * 2)
    expect("both are live", (browser.send(), named.dig(p("short"))), ("made", ["192.0.2.253", p("longer")]))
    browser.view("records")
    browser.filter("longer")
    browser.press(f"[aria-label^='Delete {p('longer')} A']")
    (_, _, marks), = browser.plan()
    expect("and where the host goes, the alias that is left is named", marks,
           [f"this would not work: short.physics CNAME: there is nothing at {p('longer')}", "you may (rule physics)"])
    browser.press("#undo")
    browser.view("records")
    browser.filter("")
    expect("undone, it is as it was", named.dig(p("short")), ["192.0.2.253", p("longer")])


def what_else_changes(browser, named):
    browser.edit("*.day31.physics", "192.0.2.90")
    expect("day 31, a wildcard: the plan says which names it answers for, and which one it makes", browser.beyond(2), [
        f"{p('day31')} exists then, with no records: an empty answer in place of NXDOMAIN.",
        f"All names below {p('day31')} that do not exist get 192.0.2.90 in place of NXDOMAIN."])
    browser.view("records")
    browser.press("#bar-beyond button")
    browser.wait("document.activeElement.id === 'beyond-head'", "the focus at the sentences")
    check("the bar leads there")
    expect("and so the name servers answer", (browser.send(), named.dig(p("any.day31"))), ("made", ["192.0.2.90"]))
    browser.edit("x.day31.physics", "room 12", "TXT")
    expect("a name beside it: the plan says that it loses the wildcard's answers, with all names below it", browser.beyond(1),
           [f"{p('x.day31')} and all names below it lose the answers of the wildcard {p('*.day31')}"])
    expect("and so it does", (browser.send(), named.dig(p("x.day31")), named.dig(p("y.x.day31")), named.dig(p("z.day31"))), ("made", [], [], ["192.0.2.90"]))
    browser.edit("alias.physics", "x.day31.physics", "CNAME")
    expect("a record that changes nothing else is followed by no sentence",
           ([line[2] for line in browser.plan()], browser.js("return document.getElementById('beyond').hidden")), ([["you may (rule physics)"]], True))
    browser.send()
    browser.edit("x.day31.physics", "192.0.2.91")
    expect("an alias of a name that changes is named", browser.beyond(1),
           [f"With {p('x.day31')} its alias {p('alias')} changes: it is answered otherwise for A."])
    expect("and so it is", (browser.send(), named.dig(p("alias"))), ("made", ["192.0.2.91", p("x.day31")]))
    browser.view("records")


def all_days(browser, named):
    """All of them, in one browser. A day that breaks off is one that differs, and the next one begins anew."""
    for story in (*DAYS, who_may_add_only, who_may_not_delete, delegations, a_key_cut_short, what_one_server_refuses, an_alias_of_nothing, what_else_changes):
        try:
            story(browser, named)
        except (KeyError, RuntimeError, TimeoutError, WebDriverException) as fault:
            check(f"the day of {story.__name__.replace('_', ' ')}", str(fault).splitlines()[0])
            browser.start_anew()
