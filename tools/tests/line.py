#!/usr/bin/env python3
"""line.py library | scripts PROGRAM FOLDER | late | any_scripts PROGRAM FOLDER COUNT | refused PROGRAM FOLDER | excluded | dice COUNT |
hand | read [FOLDER] | record: opens docs/line.html in headless Chromium from the disk, and fails if it doesn't do what the
manual says of `vdcp sim`, or what it says of itself. With FOLDER `read` leaves pictures there. `record` prints what js/line/recorded.json
has to be."""
import concurrent.futures
import functools
import http.server
import json
import os
import pathlib
import random
import subprocess
import sys
import threading
import time

from selenium.webdriver.common.action_chains import ActionChains
from selenium.webdriver.common.by import By
from selenium.webdriver.common.keys import Keys
from selenium.webdriver.support.ui import Select

sys.dont_write_bytecode = True
from browsing import browser, comes, has_contrast, has_names, must  # noqa: E402

TOP = pathlib.Path(__file__).resolve().parent.parent.parent
PAGE = (TOP / "docs/line.html").as_uri()
LIST = (TOP / "examples/playlist.csv").read_text()
CATALOGUE = (TOP / "examples/catalogue.csv").read_text()


def opens(page, words=""):
    """Opens the page, or if it is open what this address names there."""
    if page.current_url.split("#", maxsplit=1)[0] == PAGE and words != "recorded":
        page.execute_script("history.replaceState(null, '', '#' + arguments[0]); dispatchEvent(new HashChangeEvent('hashchange'))", words)
    else:
        page.get("about:blank")
        page.get(PAGE + ("#" + words if words else ""))
    comes(lambda: page.find_elements(By.CSS_SELECTOR, "#asrun li"), lambda: f"the page doesn't begin: {page.get_log('browser')}")


def text(page, name):
    return page.execute_script("return document.getElementById(arguments[0]).textContent", name)


def types(page, keys):
    ActionChains(page).send_keys(keys).perform()


def click(page, where):
    button = page.find_element(By.CSS_SELECTOR, where)
    page.execute_script("arguments[0].scrollIntoView({block: 'center'})", button)
    must(button.is_enabled(), f"{where} can't be clicked")
    button.click()


def steps_to_the_end(page):
    """Steps on until the script is through: once by the button, and then by the key."""
    while "of" in text(page, "place"):
        before = text(page, "place")
        click(page, "#forward")
        must(text(page, "place") != before, f"it doesn't step on: {before}")
        at, _, most = text(page, "place").removeprefix("event ").partition(" of ")
        if most:
            types(page, Keys.ARROW_RIGHT * (int(most) - int(at)))


def watches_to_the_end(page):
    """Lets the page play the script by its own clock, which stops there."""
    page.execute_script("document.getElementById('speed').value = 100")
    click(page, "#play")
    comes(lambda: "of" not in text(page, "place") and text(page, "play").endswith("Watch"), lambda: f"the script doesn't end: {text(page, 'place')!r}", 60)


def sim(program, folder, script, *words, files=(LIST, CATALOGUE), name="script"):
    """What vdcp sim prints of a script, or tells, and its status."""
    paths = [os.path.join(folder, f"{name}.{it}") for it in ("list", "catalogue", "txt")]
    for path, it in zip(paths, (*files, script)):
        pathlib.Path(path).write_text(it)
    done = subprocess.run([program, "sim", *paths, *words], capture_output=True, text=True, check=False)
    return done.stdout if done.returncode == 0 else done.stderr


def shown(page):
    """What the page shows of a run, in the words of vdcp sim."""
    aired = [it.find_element(By.CSS_SELECTOR, "span:nth-child(2)").text for it in page.find_elements(By.CSS_SELECTOR, "#aired li:not(.none)")]
    reported = len([it for it in page.find_elements(By.CSS_SELECTOR, "#asrun li") if it.text.endswith("reported")])
    phase = text(page, "phase")
    outcome = phase.removeprefix("has ended: ") if phase.startswith("has ended: ") else "open"
    return "".join(f"aired {k} {it}\n" for k, it in enumerate(aired)) + f"reported {reported}\noutcome {outcome}\n"


def without_counts(said):
    return "".join(line + "\n" for line in said.splitlines() if not line.startswith("exchanges"))


# Scripts of a line that may be late, over CLIP0001 and CLIP0002: whether in confirm mode, and how many air, are reported, and end an exchange,
# and the outcome. (A proved program printed these.)
LATE_RUNS = [
    (False, "good 3,junk-down ff,server-anew,good 6", 0, 0, 5, "refused 0"),
    (False, "junk-up 050a,junk-up 02023081014d,good 8,alter-up 02021001ef05,good 5", 0, 0, 9, "lost"),
    (False, "tick,timeout,tick,automation-anew", 0, 0, 2, "open"),
    (False, "tick,down,timeout,tick,down,up,up,good 14", 2, 2, 15, "done"),
    (False, "tick,down,up,server-anew,tick,down,up-copy", 0, 0, 2, "denied"),
    (False, "good 8,server-anew,good 3", 1, 1, 9, "refused 1"),
    (False, "junk-down ff,tick,lose-down 2,good 13", 1, 1, 14, "open"),
    (False, "junk-up 050a,tick,down,lose-up 2,good 4,tick,timeout", 0, 0, 6, "open"),
    (False, "good 5,tick,alter-down ff,down-copy,up,down,lose-up,timeout,good 9", 2, 2, 15, "open"),
    (False, "stop,automation-anew,frame,take,tick,down,lose-up,server-anew,timeout,good 14", 2, 2, 15, "done"),
    (True, "junk-down ff,junk-up 050a,good 4,junk-up 04,up,server-anew,good 7", 0, 0, 9, "lost"),
    (True, "junk-up 04,good 4,alter-up 02033087004a,up", 0, 0, 3, "open"),
    (True, "good 8,junk-up 02023081014d,good 3", 1, 1, 11, "open"),
    (True, "tick,automation-anew,tick", 0, 0, 1, "open"),
    (True, "tick,down,up,tick,down,lose-up,stray-ack,stray-nak 01,good 18", 2, 2, 17, "done"),
]
# And what examples/late.txt comes to.
LATE_SAYS = "aired 0 CLIP0001\naired 1 CLIP0002 00:00:02:00 00:00:03:00\naired 2 A,B\nreported 3\nexchanges 22\noutcome done\n"


def late_sim(page, script, files=(LIST, CATALOGUE), confirming=False):
    """What the page's own engine says of a script of a line that may be late, in the words of vdcp sim."""
    setup = {"list": files[0], "catalogue": files[1], "confirming": confirming, "trace": False}
    return page.execute_script("return line.sim(arguments[0], arguments[1])", script, setup)


def late(page):
    opens(page)
    for confirming, script, aired, reported, exchanges, outcome in LATE_RUNS:
        wanted = "".join(f"aired {k} CLIP000{k + 1}\n" for k in range(aired)) + f"reported {reported}\nexchanges {exchanges}\noutcome {outcome}\n"
        got = late_sim(page, script.replace(",", "\n"), ("CLIP0001\nCLIP0002\n", CATALOGUE), confirming)
        must(got == wanted, f"{script}: the page says {got!r}, and not {wanted!r}")


def scripts(page, program, folder):
    opens(page)
    for name in ("one_event.txt", "lossy.txt", "late.txt"):
        Select(page.find_element(By.ID, "examples")).select_by_visible_text(name)
        (watches_to_the_end if name == "one_event.txt" else steps_to_the_end)(page)
        is_late = name == "late.txt"
        wanted = LATE_SAYS if is_late else sim(program, folder, (TOP / "examples" / name).read_text())
        must(shown(page) == without_counts(wanted), f"{name}: the page shows {shown(page)!r}, and not {wanted!r}")
        # (stepping back to the beginning and on again leads to the same)
        for _ in range(5):
            click(page, "#back")
        must(page.find_element(By.ID, "forward").is_enabled(), "it can't go on again")
        steps_to_the_end(page)
        must(shown(page) == without_counts(wanted), f"{name}: after five steps back and on it shows {shown(page)!r}")
        done = text(page, "done")
        said = late_sim(page, done) if is_late else sim(program, folder, done)
        must(said == wanted, f"{name}: the script of what was done says something else: {done!r}")


# What a random script has: mostly what goes on, and what befalls the line.
PLAIN_WORDS = ["tick", "down", "up", "down-copy", "up-copy", "lose-down", "lose-up", "timeout", "ready", "end", "frame", "take", "stop", "stray-ack", "stray-nak 01", "stray-nak ff"]
LATE_WORDS = ["lose-down 2", "lose-up 2", "lose-up 3", "junk-down ff", "junk-up 050a", "junk-up 04", "junk-up 02023081014d", "junk-down 02021001ef", "server-anew", "automation-anew"]
BYTES = ["04", "0501", "ff", "02", "0202", "02021001ee", "02021001ef", "02021001ef05", "020210", "0203308101", "02033081014e", "0203308100504f", "020430850104", "02043085010446", "0404", "05", "02033087004a", "0203309601394e"]
LISTS = [
    (LIST, CATALOGUE),
    ("CLIP0001\nCLIP0001\n", CATALOGUE),
    ("NEWS\nCLIP0003\nNEWS\n", CATALOGUE),
    ("CLIP0001,00:00:09:00,00:00:02:00\n", CATALOGUE),
    ("CLIP0002,00:00:00:00,00:00:00:01\n0x0000000000000001,,\nNEWS,,\n", CATALOGUE + "0x0000000000000001,00:00:00:02\n"),
    ("", CATALOGUE),
]


def random_script(dice, late):
    lines = []
    for _ in range(dice.randrange(4, 24)):
        roll = dice.random()
        if roll < 0.22:
            lines.append(f"good {dice.randrange(1, 9)}")
        elif roll < 0.34:
            lines.append(dice.choice(["round", "round 2", "tick\ndown\nlose-up\ntimeout", "tick\nlose-down\ntimeout", "tick\ndown-copy\ndown\nup", "frame 3", "tick\ndown\nup"]))
        elif roll < 0.44:
            lines.append(f"{dice.choice(['alter-down', 'alter-up'])} {dice.choice(BYTES)}")
        elif late and roll < 0.54:
            lines.append(dice.choice(LATE_WORDS))
        else:
            lines.append(dice.choices(PLAIN_WORDS, [9, 9, 9, 2, 2, 2, 2, 6, 5, 5, 3, 1, 0.3, 2, 1, 1])[0])
    return "\n".join(lines) + "\n"


def random_run(seed):
    """A script with what it is played over, of this seed."""
    dice = random.Random(seed)
    late, confirming, limit = seed % 2 == 1, dice.random() < 0.4, dice.choice([1, 2, 3, 3, 5])
    files = dice.choice(LISTS)
    words = [*(["--confirm"] if confirming else []), "--limit", str(limit)]
    setup = {"list": files[0], "catalogue": files[1], "late": late, "confirming": confirming, "limit": limit}
    return random_script(dice, late), words, files, setup


def in_parts(page, script, rows, most=50):
    """What the script gives for these rows, of which it gets some at a time, since a busy machine takes long."""
    return [it for k in range(0, len(rows), most) for it in page.execute_script(script, rows[k : k + most])]


def any_scripts(page, program, folder, count):
    opens(page)
    runs = [random_run(seed) for seed in range(int(count))]
    with concurrent.futures.ThreadPoolExecutor(4) as pool:
        wanted = pool.map(lambda k: None if runs[k][3]["late"] else sim(program, folder, runs[k][0], "--trace", *runs[k][1], files=runs[k][2], name=str(k)), range(len(runs)))
        got = in_parts(page, "return arguments[0].map(([script, setup]) => line.sim(script, setup))", [[script, setup] for script, _, _, setup in runs])
        for k, (said, it) in enumerate(zip(wanted, got)):
            must(not it.startswith("broken"), f"script {k}: {it!r}, of {runs[k][0]!r}")
            must(said in (None, it), f"script {k} ({' '.join(runs[k][1])}): the page says {it!r}, vdcp sim {said!r}, of {runs[k][0]!r}")
    aired = sum("aired 1" in it for it in got)
    must(aired * 20 > len(got), f"only {aired} of the scripts air two events")


REFUSED = [
    "tick\nflick\n", "tick \n", "tick down\n", " tick\n", "frame 0\n", "round 10001\n", "good +3\n", "good 05\n", "frame x\n", "frame \n", "alter-down\n", "alter-down f\n", "alter-up fg\n", "alter-up \n",
    "stray-nak\n", "stray-nak FF\n", "stray-nak 1\n", "lose-down 2\n", "server-anew\n", "junk-up ff\n", "good 10000\ngood 10000\n", "# only\n\n tick\n", "tick\r\nflick\r\n", "tick\n\rtick\n", "tick\r",
    "alter-down " + "00" * 1025 + "\n", "Tick\n", "tick\t\n", "#" + "x" * 65535 + "\n", "#" + "x" * 65536 + "\ntick\n", "\u00e9\n", "good \u0661\n", "break-send\n",
]
REFUSED_LATE = {
    "lose-down 0\n": "line 1: number", "lose-up x\n": "line 1: number", "junk-down\n": "line 1: word", "junk-up f\n": "line 1: hex", "server-anew 1\n": "line 1: word",
    "automation-anew\nautomation-new\n": "line 2: word", "lose-up 1 1\n": "line 1: word", "timeout 2\n": "line 1: word",
}


def refused(page, program, folder):
    opens(page)
    box, load = page.find_element(By.ID, "script"), page.find_element(By.ID, "load")
    before = text(page, "done")
    for late, script in [(False, it) for it in REFUSED] + [(True, it) for it in REFUSED_LATE]:
        page.execute_script("arguments[0].value = arguments[1]; document.getElementById('late').value = arguments[2]", box, script, "late" if late else "once")
        told = f"vdcp: SCRIPT: {REFUSED_LATE[script]}" if late else sim(program, folder, script, name="refused").splitlines()[0].replace(os.path.join(folder, "refused.txt"), "SCRIPT")
        got = page.execute_script("return line.sim(arguments[0], {list: 'NEWS', catalogue: '', late: arguments[1]})", script, late)
        # (a box of a page makes one line end of each)
        if "\r" in script:
            must(told.endswith(got) if told.startswith("vdcp") else got.startswith("reported"), f"{script[:40]!r}: it says {got!r}, vdcp sim {told!r}")
            continue
        page.execute_script("arguments[0].click()", load)
        if not told.startswith("vdcp"):
            must(text(page, "refused") == "", f"{script[:40]!r} is refused: {text(page, 'refused')!r}")
            before = text(page, "done")
            continue
        must(text(page, "refused") == told, f"{script[:40]!r}: it says {text(page, 'refused')!r}, vdcp sim {told!r}")
        must(text(page, "done") == before, "a refused script has changed the run")
    # What the visitor writes is never markup.
    page.execute_script("document.getElementById('list').value = '<b>x</b>'; document.getElementById('catalogue').value = '<b>x</b>,00:00:01:00'")
    page.execute_script("document.getElementById('settings').open = true; document.getElementById('anew').click()")
    must(text(page, "asrun").endswith("its turn") and "<b>x</b>" in text(page, "asrun") and not page.find_elements(By.CSS_SELECTOR, "main b b, #asrun b"), f"{text(page, 'asrun')!r}")
    opens(page, "script=<img src=x onerror=alert(1)>")
    must(text(page, "refused").startswith("vdcp: SCRIPT: line 1: word") and not page.find_elements(By.TAG_NAME, "img"), "a text is markup")


def excluded(page):
    """Each event that no line of the premises does is named before, and leads to a broken promise."""
    cases = [
        # (what to do first, the button, its bytes, the premise, what follows)
        ("good+5,tick,down,lose-up", "break-send", "020a2024434c495030303031d3", "One controller", ["down", "ready", ("break-send", "02021001ef"), "down"]),
        ("good+5,tick,lose-down", "break-answer", "04", "No forged answer", ["up"]),
        ("good+5,tick,lose-down", "stray-ack", "04", "No forged answer", ["up"]),
        ("good+5,tick,lose-down,timeout,tick", "break-alter-down", "02021001ef", "Damage shows", ["down"]),
        ("good+5,tick,lose-down,timeout,tick,down", "break-alter-up", "02043085010446", "Damage shows", ["up"]),
        ("good+5,tick,lose-down,timeout,tick", "alter-down", "02021001ef", None, []),
        ("good+5,tick,down,timeout,tick,down", "break-order-up", None, "Order", []),
        ("good+5,tick,timeout,tick", "break-order-down", None, "Order", ["down", "up", "down"]),
    ]
    for script, name, digits, premise, then in cases:
        opens(page, f"script={script}&at=1000")
        must("holds" in text(page, "verdict-text"), f"{script}: {text(page, 'verdict-text')!r}")
        events = text(page, "done")
        leaves(page, name, digits, premise, events)
        for it in then:
            if isinstance(it, tuple):
                leaves(page, it[0], it[1], "One controller" if it[0] == "break-send" else premise, None)
            else:
                click(page, f"[data-do={it}]")
        said = f"{text(page, 'verdict-text')} {text(page, 'verdict-why')}"
        must((premise or "Damage shows") in said, f"{name}: the premise isn't named: {said!r}")
        if name in ("break-send", "break-answer", "stray-ack", "break-alter-up"):
            must("The promise is broken" in said, f"{name} breaks nothing: {said!r}")


def leaves(page, name, digits, premise, before):
    """Does what is excluded, by its button; before, the page names the premise, and nothing happens if it is left."""
    for answer in ("no", "yes") if before is not None else ("yes",):
        click(page, f"[data-do={name}]")
        must(page.find_element(By.ID, "ask").is_displayed(), f"{name}: nothing is asked")
        if digits:
            box = page.find_element(By.ID, "ask-bytes")
            box.clear()
            box.send_keys(digits)
        said = text(page, "ask-text")
        must("This leaves a premise" in said and (premise or "Damage shows") in said, f"{name}: {said!r}")
        page.find_element(By.CSS_SELECTOR, f"#ask button[value={answer}]").click()
        comes(lambda: not page.find_element(By.ID, "ask").is_displayed(), lambda: f"{name}: it is asked on")
        # (a browser tells a page some time later how what it asked was closed)
        page.execute_async_script("setTimeout(arguments[0], 100)")
        must(answer == "yes" or text(page, "done") == before, f"{name}: something happened though it was left")
    comes(lambda: "left" in text(page, "verdict-why") or "broken" in text(page, "verdict-text"), lambda: f"{name}: {text(page, 'verdict-why')!r}")


def dice(page, count):
    opens(page)
    setups = [{"list": files[0], "catalogue": files[1], "late": bool(n & 1), "confirming": bool(n & 2), "limit": limit} for n in range(4) for files in LISTS[:3] for limit in (3, 20)]
    got = in_parts(page, "return arguments[0].map(([seed, setup]) => line.dice(seed, setup))", [[k + 1, setups[k % len(setups)]] for k in range(int(count))])
    broken = [it for it in got if it["broken"]]
    must(not broken, f"{len(broken)} are broken: {broken[:1]}")
    outcomes = {it["outcome"] for it in got}
    must({"done", "lost"} <= outcomes and sum("aired 0" in it["text"] for it in got) * 2 > len(got), f"the dice do too little: {outcomes}")
    # by hand: the button, and the page's own clock
    page.execute_script("document.getElementById('speed').value = 100; document.getElementById('dice').click(); document.getElementById('play').click()")
    for _ in range(200):
        if text(page, "phase").startswith("has ended"):
            break
        must("holds" in text(page, "verdict-text"), text(page, "verdict-text"))
        time.sleep(0.1)
    must(text(page, "place") != "event 32", "the dice don't roll")


def hand(page):
    """By keys alone: a lost answer, a lost command, a damaged one, a restart and a kill, up to the end of the list."""
    opens(page)
    types(page, "yomdu" "mlo" "mcdu" "k")
    types(page, Keys.ARROW_LEFT)
    for _ in range(200):
        if text(page, "phase").startswith("has ended"):
            break
        types(page, "g" * 5)
    must("holds: 3 aired, 3 reported" in text(page, "verdict-text"), f"{text(page, 'verdict-text')!r}: {text(page, 'done')!r}")
    said = late_sim(page, text(page, "done"))
    must(shown(page) == without_counts(said), f"the page shows {shown(page)!r}, and its script comes to {said!r}")
    opens(page)
    types(page, "r")
    must(text(page, "access") == "closed" and text(page, "playing") == "nothing", "the server isn't restarted")
    # each control can be reached by Tab
    opens(page)
    names = set()
    for _ in range(120):
        types(page, Keys.TAB)
        names.add(page.execute_script("const e = document.activeElement; return e.id || e.dataset.do || e.dataset.name || e.dataset.key || e.tagName"))
    wanted = page.execute_script("return [...document.querySelectorAll('button:enabled, select, textarea')].filter(e => e.checkVisibility()).map(e => e.id || e.dataset.do || e.dataset.name || e.dataset.key)")
    must(set(wanted) <= names, f"Tab doesn't reach {set(wanted) - names}")
    # the dialog by the keyboard
    opens(page, "script=good+5,tick&at=31")
    types(page, "b")
    must(page.switch_to.active_element.get_attribute("id") == "ask-bytes", "the dialog isn't at its bytes")
    types(page, Keys.END + Keys.BACKSPACE + "e" + Keys.ENTER)
    comes(lambda: "alter-down 02021001ee" in text(page, "done"), lambda: f"after the dialog {text(page, 'done')!r}")
    # a finger: to the end of the line, and off the lane
    for dx, dy, word in ((150, 0, "down"), (0, 150, "lose-down")):
        opens(page, "script=good+5,tick&at=31")
        for _ in range(5):
            card = page.find_element(By.CSS_SELECTOR, "#down .card")
            page.execute_script("arguments[0].scrollIntoView({block: 'center', behavior: 'instant'})", card)
            # (what moves into view has come to rest then)
            time.sleep(0.5)
            ActionChains(page).click_and_hold(card).move_by_offset(dx // 2, dy // 2).move_by_offset(dx // 2, dy // 2).release().perform()
            if text(page, "done").endswith(f"tick\n{word}\n"):
                break
        must(text(page, "done").endswith(f"tick\n{word}\n"), f"after {word} {text(page, 'done')!r}")
    # two pages share nothing
    first = page.current_window_handle
    page.switch_to.new_window()
    opens(page)
    types(page, "yo")
    there = text(page, "done")
    page.switch_to.window(first)
    must(text(page, "done").endswith("lose-down\n") and there.endswith("timeout\n"), "two pages share something")


SIZES = {"wide": (1400, 1000, 1, False), "projector": (1920, 1080, 1, False), "narrow": (360, 740, 2, True)}


def read(page, folder=None):
    for mode in ("dark", "light"):
        page.execute_cdp_cmd("Emulation.setEmulatedMedia", {"features": [{"name": "prefers-color-scheme", "value": mode}, {"name": "prefers-reduced-motion", "value": "reduce"}]})
        for name, (width, height, scale, mobile) in SIZES.items():
            page.execute_cdp_cmd("Emulation.setDeviceMetricsOverride", {"width": width, "height": height, "deviceScaleFactor": scale, "mobile": mobile})
            for words in ("scene=lost-answer", "scene=repeat"):
                opens(page, words)
                if "lost" not in words:
                    steps_to_the_end(page)
                must(not page.execute_script("return document.documentElement.scrollWidth > innerWidth"), f"{name}: it is wider than the screen")
                has_contrast(page, f"{mode} {name} {words}")
                if folder:
                    page.save_screenshot(os.path.join(folder, f"{name}-{mode}-{words.split('=')[1]}.png"))
        must(page.execute_script("return document.getAnimations().length") == 0, "it moves though less motion is asked for")
    page.execute_cdp_cmd("Emulation.clearDeviceMetricsOverride", {})
    has_names(page)
    asked = page.execute_script("return performance.getEntriesByType('resource').map(e => e.name).filter(e => !e.startsWith('data:'))")
    must(not asked, f"it asks for {asked}")
    told = [it["message"] for it in page.get_log("browser")]
    must(not told, f"the browser tells {told}")
    recorded = page.execute_script("return line.record()")
    must(recorded == json.loads((TOP / "js/line/recorded.json").read_text()), "js/line/recorded.json isn't what the page records: tools/tests/line.py record prints it")
    # Without 64-bit memories: in words, and a recorded run.
    opens(page, "recorded")
    must("no 64-bit memories" in text(page, "no-memories") and not page.find_element(By.CSS_SELECTOR, "[data-do=down]").is_enabled(), "a recorded run can be changed")
    while page.find_element(By.ID, "forward").is_enabled():
        click(page, "#forward")
    must("holds: 1 aired, 1 reported" in text(page, "verdict-text"), f"the recorded run ends with {text(page, 'verdict-text')!r}")


def record(page):
    page.get(PAGE)
    print(json.dumps(page.execute_script("return line.record()"), ensure_ascii=False, separators=(",", ":")))


# What the library for JavaScript answers to each, in turn. (Of docs/PROTOCOL.md: what the port answers, the checksums by its rule, and the controller's table.)
LIBRARY = r"""
thrown(() => v.Message.ack()) ==> Error  vdcp: await load() comes first
v.load().then(() => 'loaded') ==> loaded
var port = new v.Port([{id: 'CLIP0002', length: '00:00:00:02'}, {id: 'CLIP0001', length: '00:00:10:00'}], {cueFrames: 2}), reader = new v.Reader(); port.state ==> 1
[...reader.feed(bytes('0204300101')), ...reader.feed(bytes('01cd'))].map(it => hex(port.answer(it).bytes)).join() ==> 02033081014e
reader.silence() ==> clean
reader.feed([2, 2]); `${reader.held} ${hex(port.silence(reader.silence()))}` ==> 2 0580
JSON.stringify(new v.Reader().feed(bytes('ff'))) ==> [{"kind":"bad-start","place":1}]
var asks = text => port.answer(v.Message.ofBytes(v.Command.ofText(text).toBytes())), says = text => hex(asks(text).bytes); says('select 01') ==> 04
says('cue CLIP0002') ==> 04
JSON.stringify([port.frame(), port.copy().frame(), port.frame(), port.cued]) ==> [{"cued":false,"ended":false},{"cued":true,"ended":false},{"cued":true,"ended":false},{"id":"CLIP0002","left":0}]
`${asks('play').aired.id} ${port.playing.left} ${port.state} ${port.access}` ==> CLIP0002 2 4 selected
port.finishClip(), says('cue CLIP0001'), port.finishCue(); `${port.playing} ${port.cued.left} ${port.state}` ==> null 0 128
port.restart(); `${port.access} ${port.cued} ${port.state}` ==> closed null 1
var controller = new v.Controller(['CLIP0001', {id: 'CLIP0002', start: '00:00:00:00', duration: '00:00:00:01'}], {limit: 2}); `${controller.tick()} ${controller.tick()} ${controller.phase} ${controller.awaiting}` ==> open 01 01 null open true
controller.hear(v.Message.ofBytes(bytes('02033081014e'))); `${controller.tick()} ${controller.phase}` ==> select 01 select
var before = controller.copy(); controller.timeout(), controller.tick(), controller.timeout(); `${controller.outcome} ${controller.phase} ${controller.settled} ${before.outcome} ${before.unanswered}` ==> lost null 0 null 0
before.stop(), before.timeout(); `${before.wishes.stop} ${before.tick()}` ==> true stop
before.forget(); var judge = new v.Judge(['CLIP0001']); `${judge.allows(v.Command.ofText('play'))} ${judge.allows(v.Command.ofText('open 01 01'))} ${judge.settled}` ==> false true 0
judge.add(v.Command.ofText('open 01 01'), v.Message.ofBytes(bytes('02033081014e'))); `${judge.allows(v.Command.ofText('select 01'))} ${judge.copy().allows(v.Command.ofText('play'))}` ==> true false
`${v.Reply.ofMessage(v.Message.ofBytes(bytes('02043085010446')))} ${v.meaning(v.Message.nak(1))} ${v.meaning(v.Message.ofBytes(bytes('02021002ee')))}` ==> state 04 nak 01 null
`${hex(v.idBytes('NEWS'))} ${v.idText(v.idBytes('0x0000000000000001'))} ${hex(v.timeBytes('01:02:03:04'))} ${v.timeText(bytes('04030201'), true)}` ==> 4e45575320202020 0x0000000000000001 04030201 01:02:03;04
[() => v.Command.ofText('flick'), () => v.idBytes(' X'), () => v.timeBytes('1:00')].map(thrown).join('; ') ==> VdcpError 102 no command or reply; VdcpError 102 no command or reply; VdcpError 103 a number out of its range
[() => new v.Port([], {unit: 16}), () => new v.Controller([], {limit: 0}), () => v.Command.ofText('play').toBytes(16)].map(thrown).every(it => it === 'VdcpError 103 a number out of its range') ==> true
thrown(() => new v.Port([{id: 'A', length: '00:00:01:00'}, {id: 'A', length: '00:00:01:00'}])) ==> VdcpError 105 clips out of order
thrown(() => v.Message.ofBytes(bytes('0404'))) ==> VdcpError 101 no message
// more than the module's own memory holds
var many = new v.Controller(Array(200000).fill({id: v.idBytes('NEWS')})); `${many.tick()} ${many.awaiting}` ==> open 01 01 true
"""
ASKS = """
const [address, rows, done] = arguments;
(async () => {
  const v = await import(address), got = [];
  const bytes = text => Uint8Array.from(text.match(/../g), it => parseInt(it, 16)), hex = it => Array.from(it, b => b.toString(16).padStart(2, '0')).join('');
  const thrown = f => { try { f(); return 'nothing'; } catch (error) { return `${error.name} ${error.code ?? ''} ${error.message}`; } };
  for (const row of rows) got.push(String(await eval(row)));
  const own = it => Object.getOwnPropertyNames(it.prototype).filter(name => name !== 'constructor'), classes = Object.entries(v).filter(([, it]) => /^class/.test(it));
  done([got, Object.keys(v), classes.flatMap(([name, it]) => own(it).map(method => [name, method]))]);
})().catch(error => done([[String(error.stack)], [], []]));
"""


def library(page):
    quiet = type("Quiet", (http.server.SimpleHTTPRequestHandler,), {"log_message": lambda *_: None, "extensions_map": {".mjs": "text/javascript", ".wasm": "application/wasm", "": "text/plain"}})
    server = http.server.ThreadingHTTPServer(("127.0.0.1", 0), functools.partial(quiet, directory=TOP))
    threading.Thread(target=server.serve_forever, daemon=True).start()
    address = f"http://127.0.0.1:{server.server_port}"
    page.get(f"{address}/js/vdcp.d.ts")
    rows = [it.split(" ==> ") for it in LIBRARY.splitlines() if " ==> " in it]
    got, names, methods = page.execute_async_script(ASKS, f"{address}/js/vdcp.mjs", [asked for asked, _ in rows])
    for (asked, wanted), said in zip(rows, got):
        must(said == wanted, f"{asked}: {said!r}, wanted {wanted!r}")
    must(len(got) == len(rows) and len(methods) > 20, f"only {len(got)} answers, {len(methods)} methods")
    # the types name what there is
    types_ = (TOP / "js/vdcp.d.ts").read_text()
    for name, method in [*((name, None) for name in names), *methods]:
        body = types_ if method is None else types_.split(f"class {name} ")[1].split("\n}")[0]
        must(f" {name}" in types_ and (method is None or f" {method}(" in body or f" {method}:" in body), f"vdcp.d.ts doesn't have {name} {method}")


what, *words = sys.argv[1:]
with browser(1400, 1000) as opened:
    opened.set_script_timeout(200)
    globals()[what](opened, *words)
