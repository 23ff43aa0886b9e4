#!/usr/bin/env python3
"""page.py port URL SERVER RUN..: opens the page of a port in headless Chromium, plays a list of two clips by the command RUN, and ends the
process SERVER. page.py run URL: opens the page of a run, holds and goes on by keys and clicks, takes by a click and by a key, and stops by a key that is asked twice.
page.py list URL: that of a run that began with event 28 of 40, whose first clips are short. page.py start URL: that of one that waits for its
start, which a key that is asked twice begins. page.py before URL PLAYED: that of one that went on in a journal of others, of which the first
played an event at PLAYED. page.py resumed URL PLAYED: that of one that was killed after it had played an event at PLAYED, and goes on. page.py
lost URL SERVER JOURNAL: that of one whose server stops to answer. page.py down URL LINE: that of
one that stays, where it leaves out the last of three events, and whose line is this process: it is held without one. It fails if the page doesn't show each of these, or can't be read. With a last word --picture=FILE it draws the page."""
import os
import re
import signal
import subprocess
import sys
import time

from selenium.webdriver.common.by import By
from selenium.webdriver.common.keys import Keys

sys.dont_write_bytecode = True
from browsing import browser, comes, has_contrast, has_names, must  # noqa: E402

WHOSE, URL, *WORDS = [word for word in sys.argv[1:] if not word.startswith("--picture=")]
PICTURES = [word.split("=", 1)[1] for word in sys.argv[3:] if word.startswith("--picture=")]


def text(page, name):
    return page.find_element(By.ID, name).text


def types(page, key):
    page.find_element(By.TAG_NAME, "body").send_keys(key)


def awaits(page, what, seconds=15, **wanted):
    """Waits until each part of this name has this text, or one of which this is true."""

    def is_shown(name, it):
        shown = text(page, name.replace("_", "-"))
        return it(shown) if callable(it) else shown == it

    comes(lambda: all(is_shown(*it) for it in wanted.items()), lambda: f"the page doesn't show {what}: {page.find_element(By.TAG_NAME, 'body').text!r}", seconds)


def can_be_read(page):
    """In dark and in light, by its names, by the keyboard, and on a telephone."""
    for mode in ("dark", "light"):
        page.execute_cdp_cmd("Emulation.setEmulatedMedia", {"features": [{"name": "prefers-color-scheme", "value": mode}]})
        has_contrast(page, mode)
    has_names(page)
    # (behind the buttons, if there are some)
    reached = []
    while "scroll" not in reached and len(reached) < 4:
        page.switch_to.active_element.send_keys(Keys.TAB)
        reached.append(page.switch_to.active_element.get_attribute("id"))
    must("scroll" in reached, f"the list can't be reached by the keyboard: {reached}")
    page.execute_cdp_cmd("Emulation.setDeviceMetricsOverride", {"width": 360, "height": 740, "deviceScaleFactor": 2, "mobile": True})
    must(not page.execute_script("return document.documentElement.scrollWidth > 360"), "it is wider than a telephone")
    page.execute_cdp_cmd("Emulation.clearDeviceMetricsOverride", {})


def port(page):
    server, run = int(WORDS[0]), WORDS[1:]
    page.get(URL)
    awaits(page, "that nobody is connected", health="nobody is connected", access="closed")
    playing = subprocess.Popen(run, stdout=subprocess.DEVNULL)
    awaits(page, "the first clip", playing_item="CLIP0002", state=lambda it: it.endswith("playing, cue done"))
    awaits(page, "the next cue", cued_item="CLIP0001", cued_left="ready")
    awaits(page, "who drives it", **{"from": lambda it: it.startswith("127.0.0.1:")}, health="connected")
    awaits(page, "the second clip", playing_item="CLIP0001", cued_item="nothing")
    for picture in PICTURES:
        page.save_screenshot(picture)
    before = text(page, "playing-left")
    awaits(page, "that frames pass", playing_left=lambda it: it != before)
    rows = [row.text.split()[:2] for row in page.find_elements(By.CSS_SELECTOR, "#rows tr")]
    must(rows == [["1", "CLIP0001"], ["0", "CLIP0002"]], f"what aired: {rows}")
    page.refresh()
    awaits(page, "the same when it is opened again", playing_item="CLIP0001")
    page.switch_to.new_window()
    page.get(URL)
    awaits(page, "the same in another window", playing_item="CLIP0001")
    can_be_read(page)
    playing.kill()
    playing.wait()
    awaits(page, "that nobody is connected any more", health="nobody is connected")
    os.kill(server, signal.SIGTERM)
    awaits(page, "that the server is gone", health=lambda it: it.startswith("the server has ended"), playing_item="CLIP0001")
    asked = page.execute_script("return performance.getEntriesByType('resource').map(e => e.name)")
    must(all(name.startswith(URL) for name in asked), f"it asked elsewhere: {asked}")


def lasts_30(said):
    """What the page says of the time on air, and of the time that is left, with its frames, is as long as this in all."""
    times = re.fullmatch(r"for 00:00:(\d\d), 00:00:(\d\d):([01]\d|2[0-4]) left", said)
    return times is not None and int(times[1]) + int(times[2]) in (29, 30)


def begins_with(word):
    return lambda it: it.startswith(word)


def by_24_hours(it):
    return re.fullmatch(r"([01]\d|2[0-3]):[0-5]\d:[0-5]\d", it)


def class_of(page, name):
    return page.find_element(By.ID, name).get_attribute("class")


def run(page):
    page.get(URL.split("#", maxsplit=1)[0])
    awaits(page, "that it has no token", told=lambda it: "To make calls" in it)
    must(not page.find_element(By.ID, "take").is_enabled(), "a page without a token makes calls")
    page.get("about:blank")
    page.get(URL[:-1] + ("0" if URL[-1] != "0" else "1"))
    awaits(page, "the first two", air_item="CLIP0001", next_item=begins_with("CLIP0002"))
    page.find_element(By.ID, "take").click()
    awaits(page, "that its token isn't right", told=lambda it: "open the new address" in it)
    page.get("about:blank")
    page.get(URL)
    awaits(page, "the first two", air_item="CLIP0001", next_item="CLIP0002 from 00:00:00:10 for 00:00:00:15", next_time=begins_with("cued, about "), air_time=lasts_30)
    must(re.fullmatch(r"News <2> \u00b7 six \u2192 127\.0\.0\.1:\d+", text(page, "name")), f"no heading: {text(page, 'name')}")
    must(re.fullmatch(r"News <2> \u25b6 CLIP0001 \u00b7 six \u2192 127\.0\.0\.1:\d+", page.title), f"no title: {page.title}")
    must(by_24_hours(text(page, "clock")), f"no clock of 24 hours: {text(page, 'clock')}")
    must(all(by_24_hours(it.text.removeprefix("~")) for it in page.find_elements(By.CSS_SELECTOR, "#rows td:nth-child(4)")), "no times")
    for picture in PICTURES:
        page.save_screenshot(picture)
    can_be_read(page)
    must(skips(page) == {}, f"a run that doesn't stay leaves out events: {skips(page)}")
    holds(page)
    page.find_element(By.ID, "take").click()
    awaits(page, "the call", told="take: made")
    awaits(page, "the second one", air_item=begins_with("CLIP0002"))
    takes_once_at_a_time(page)
    types(page, "s")
    awaits(page, "that it asks again", stop="Stop: once more")
    must("has ended" not in text(page, "health"), "one key stops the run")
    types(page, "s")
    awaits(page, "how it ended", health="the run has ended: stopped", air_item="nothing")
    ends = [re.sub(r"00:00:\d\d$", "", it) for it in column(page, 2)]
    must(ends == ["cut by a take after ", "aired, ran out", "cut by a take after ", "stopped after ", "", ""], f"how the clips ended: {ends}")
    must(all(by_24_hours(it) for at in column(page, 3)[:4] for it in at.split(" to ")), f"from when until when: {column(page, 3)}")
    must(not any(page.find_element(By.ID, name).is_enabled() for name in ("take", "stop", "hold")), "calls can be made once it has ended")
    time.sleep(2.5)
    must((text(page, "health"), class_of(page, "health")) == ("the run has ended: stopped", "idle"), "once the run is gone the page says otherwise")


def holds(page):
    """By a key and by a click, of which a second one within half a second does nothing; and goes on by a key and by a click."""
    types(page, "h")
    awaits(page, "that it holds", told="hold: made", hold="Go (G)", health="holding: nothing new goes to air", next_time="cued, held back", left="not known")
    must(set(column(page, 3)[1:]) == {""}, f"while it holds the next events have times: {column(page, 3)}")
    time.sleep(0.6)
    types(page, "h")
    types(page, "g")
    awaits(page, "that it goes on", told="go: made", hold="Hold (H)", health="runs", next_time=begins_with("cued, about "))
    time.sleep(0.6)
    page.execute_script("const hold = document.getElementById('hold'); hold.click(); setTimeout(() => hold.click(), 400);")
    awaits(page, "that it holds again", hold="Go (G)", health="holding: nothing new goes to air")
    time.sleep(1)
    must(text(page, "hold") == "Go (G)", "a click just behind another one goes on")
    page.find_element(By.ID, "hold").click()
    awaits(page, "that it goes on again", told="go: made", hold="Hold (H)", health="runs")


def skips(page):
    """The buttons that leave out an event, by their names."""
    return {it.accessible_name: it for it in page.find_elements(By.CSS_SELECTOR, "#rows button") if it.is_displayed()}


def leaves_out(page):
    """The third of three events, while the second one is cued, by a second press. Then nothing would replace that one."""
    awaits(page, "that the second one is cued", next_time=begins_with("cued"))
    must(list(skips(page)) == ["Skip, event 1", "Skip, event 2"], f"what can be left out: {list(skips(page))}")
    skips(page)["Skip, event 2"].click()
    comes(lambda: list(skips(page)) == ["Skip, event 1", "Skip: once more, event 2"], lambda: f"it doesn't ask again: {list(skips(page))}")
    must(column(page, 2)[2] == "", "one press leaves out an event")
    skips(page)["Skip: once more, event 2"].click()
    awaits(page, "the call", told="skip 2: made")
    comes(lambda: column(page, 2) == ["on air", "cued", "left out: by hand"], lambda: f"the event isn't left out: {column(page, 2)}")
    must(skips(page) == {}, f"what is left out can be left out again, or all can be: {list(skips(page))}")
    can_be_read(page)


def takes_once_at_a_time(page):
    """Of three presses within half a second one takes."""
    awaits(page, "that the third one is cued", air_item="CLIP0001", next_item="CLIP0001", next_time=begins_with("cued"))
    page.execute_script("for (const at of [0, 200, 400]) setTimeout(() => document.dispatchEvent(new KeyboardEvent('keydown', { key: 't' })), at)")
    awaits(page, "the last one", next_item="CLIP0002")
    time.sleep(1)
    must(text(page, "next-item") == "CLIP0002", "more than one press took")


def column(page, k):
    return [row.find_elements(By.TAG_NAME, "td")[k].text for row in page.find_elements(By.CSS_SELECTOR, "#rows tr")]


def row_is_seen(page):
    """Whether the row of what is on air lies in the list's box."""
    return page.execute_script("""
const row = document.querySelector('#rows tr.air').getBoundingClientRect(), box = document.getElementById('scroll').getBoundingClientRect();
return box.top <= row.top && row.bottom <= box.bottom;""")


def follows(page, what):
    comes(lambda: row_is_seen(page), lambda: f"the list doesn't follow {what}", 15)


def follow_list(page):
    page.get(URL)
    awaits(page, "the first one", air_item="CLIP0001", count=lambda it: "from 28 on in this run" in it)
    follows(page, "the first one")
    states = column(page, 2)
    must(states[:20] == ["before this run"] * 19 + ["on air"], f"what this run didn't play: {states}")
    page.execute_script("const box = document.getElementById('scroll'); box.dispatchEvent(new WheelEvent('wheel')); box.scrollTop = 0;")
    time.sleep(2)
    must(page.execute_script("return document.getElementById('scroll').scrollTop") == 0, "the list doesn't stay where it was scrolled to")
    follows(page, "after a while")


def before(page):
    page.get(URL)
    awaits(page, "what plays", air_item="CLIP0001", count=begins_with("five: 1 of 2 reported, from 3 on in this run"))
    must(column(page, 2) == ["aired", "may have aired", "left out: by hand", "on air", "cued"], f"what the journal says: {column(page, 2)}")
    at = column(page, 3)
    must(re.fullmatch(WORDS[0][11:19] + r" to ([01]\d|2[0-3]):[0-5]\d:[0-5]\d", at[0]) and at[1:3] == ["", ""], f"when it aired: {at}")


def resumed(page):
    page.get(URL)
    awaits(page, "what plays", air_item="CLIP0002", air_time=begins_with("for 00:00:"), next_item="CLIP0002")
    must((column(page, 2)[0], column(page, 3)[0]) == ("on air", WORDS[0][11:19]), f"since when it plays: {column(page, 3)}")


def start(page):
    page.get(URL)
    awaits(page, "that it waits", name=begins_with("list \u2192 127.0.0.1:"), health="waits for its start", next_item="CLIP0001", next_time=lambda it: re.fullmatch(r"at [\d:]{8}, in 00:00:\d\d:\d\d", it))
    types(page, "t")
    awaits(page, "that it asks again", take="Start now: once more")
    time.sleep(1)
    must(text(page, "air-item") == "nothing", "one key starts the run")
    types(page, "t")
    awaits(page, "the first one", air_item="CLIP0001", take="Take (T)")


def lost(page):
    server, journal = int(WORDS[0]), WORDS[1]
    page.get(URL)
    awaits(page, "the first one", air_item="CLIP0001", next_time=begins_with("cued"))
    os.kill(server, signal.SIGSTOP)
    awaits(page, "what is known", health="the run has ended: lost", air_item="unknown, last seen CLIP0001", step=lambda it: f"--resume {journal}" in it)
    must(class_of(page, "health") == "gone", "that isn't told in red")


def down(page):
    page.get(URL)
    awaits(page, "the first one", air_item="CLIP0001", health="runs", alarm="none")
    leaves_out(page)
    os.kill(int(WORDS[0]), signal.SIGTERM)
    awaits(
        page, "since when it is down",
        health=lambda it: re.fullmatch(r"line down since ([01]\d|2[0-3]):[0-5]\d:[0-5]\d: tried again each second", it),
        alarm=begins_with("line down: "), air_item="CLIP0001", air_time=lambda it: re.fullmatch(r"for 00:00:\d\d, until ([01]\d|2[0-3]):[0-5]\d:[0-5]\d by its length", it),
    )  # fmt: skip
    must((class_of(page, "health"), page.find_element(By.TAG_NAME, "body").get_attribute("class")) == ("gone", "stale"), "that isn't told in red, or the rest isn't dim")
    types(page, "h")
    awaits(page, "a call without a line", told="hold: made", hold="Go (G)")


opened = browser(1200, 800)
try:
    {"port": port, "run": run, "list": follow_list, "start": start, "before": before, "resumed": resumed, "lost": lost, "down": down}[WHOSE](opened)
finally:
    opened.quit()
