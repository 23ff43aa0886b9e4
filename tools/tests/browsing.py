#!/usr/bin/env python3
"""A headless Chromium, and whether a page there can be read: for page.py and line.py."""
import sys
import time

from selenium import webdriver

CONTRAST = """
const lit = c => { const [r, g, b] = c.match(/[\\d.]+/g).map(Number).map(x => x / 255).map(x => x <= .03928 ? x / 12.92 : ((x + .055) / 1.055) ** 2.4); return .2126 * r + .7152 * g + .0722 * b; };
const ground = e => { for (; e; e = e.parentElement) { const c = getComputedStyle(e).backgroundColor; if (!/, 0\\)$/.test(c)) return c; } return 'rgb(255, 255, 255)'; };
let worst = [99, ''];
for (const e of document.querySelectorAll('body *')) {
  if (!e.innerText || !e.checkVisibility() || e.disabled || ['SCRIPT', 'OPTION'].includes(e.tagName) || [...e.childNodes].every(n => n.nodeType !== 3 || !n.data.trim())) continue;
  const [a, b] = [lit(getComputedStyle(e).color), lit(ground(e))].sort((x, y) => y - x);
  const ratio = (a + .05) / (b + .05);
  if (ratio < worst[0]) worst = [ratio, e.outerHTML];
}
return worst;
"""
NAMELESS = """
const labelled = e => e.labels?.length || e.getAttribute('aria-label') || (e.getAttribute('aria-labelledby') && document.getElementById(e.getAttribute('aria-labelledby')).textContent) || (e.tagName === 'BUTTON' && e.textContent);
return [...document.querySelectorAll('section, nav, [role=region], [role=group], [tabindex], button, input, select, textarea, dialog')].filter(e => !labelled(e)).map(e => e.outerHTML)
  .concat(document.documentElement.lang ? [] : ['no language'], document.title ? [] : ['no title']);
"""


def browser(width, height):
    options = webdriver.ChromeOptions()
    for word in ("--headless=new", "--no-sandbox", "--disable-gpu", "--disable-dev-shm-usage", f"--window-size={width},{height}"):
        options.add_argument(word)
    options.set_capability("goog:loggingPrefs", {"browser": "ALL"})
    return webdriver.Chrome(options=options)


def must(holds, fault):
    if not holds:
        sys.exit(fault)


def comes(holds, why, seconds=10):
    """Waits for what the page does next."""
    end = time.monotonic() + seconds
    while not holds():
        must(time.monotonic() < end, why())
        time.sleep(0.05)


def has_contrast(page, where):
    ratio, what = page.execute_script(CONTRAST)
    must(ratio >= 4.5, f"{where}: a contrast of {ratio:.1f}: {what}")


def has_names(page):
    nameless = page.execute_script(NAMELESS)
    must(not nameless, f"no name: {nameless}")
