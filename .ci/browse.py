#!/usr/bin/python3
"""Reads reports in a real browser, for .ci/tried/report.py: Debian's chromium, driven by python3-selenium.

Standard input has a list of jobs as JSON, each with a page and what is done there; standard output gets as a list what each
page says: its tables, plots, slots at the ticks that are asked for, pictures as the tree of accessibility has them, and what
the browser complained of. It needs the Python of the system, since selenium is a package of Debian.
"""

import base64
import json
import re
import sys
from pathlib import Path

from awaited import SECONDS, wait_for
from selenium import webdriver
from selenium.webdriver.common.action_chains import ActionChains
from selenium.webdriver.common.by import By
from selenium.webdriver.common.keys import Keys
from selenium.webdriver.chrome.options import Options
from selenium.webdriver.chrome.service import Service

SHEET_WIDTH = 688  # pixels of a sheet A4 within its margins
WORDS = ("--headless=new", "--no-sandbox", "--disable-gpu", "--disable-dev-shm-usage", "--window-size=1160,1400")

TABLE = """
const cells = (row) => [...row.cells].map((cell) => cell.textContent);
return [...document.querySelectorAll(arguments[0])].map((table) => ({
  name: table.id, caption: table.caption.textContent, header: cells(table.tHead.rows[0]),
  rows: [...table.tBodies].flatMap((body) => [...body.rows].map(cells)) }));
"""
PLOTS = """
const labels = (svg, kind, at) => [...svg.querySelectorAll(`text.${kind}`)].map((it) => [Number(it.getAttribute(at)), it.textContent]);
return [...document.querySelectorAll("svg[id*='-plot-']")].map((svg) => ({
  name: svg.getAttribute("aria-label"), ticks: labels(svg, "tick", "x"), values: labels(svg, "value", "y"),
  path: svg.querySelector(".plot")?.getAttribute("d") ?? "", before: svg.querySelector(".before")?.getAttribute("d") ?? "" }));
"""
GO = """
const [number, tick] = [document.querySelector(".tick-number"), arguments[0]];
number.value = tick;
number.dispatchEvent(new Event("input"));
"""
CHOOSE = """
const slots = document.querySelector(".slot-task");
slots.value = arguments[0];
slots.dispatchEvent(new Event("change"));
"""
DRAWN = "return document.querySelector('article').dataset.drawn ?? ''"
COLOURS = """
const svg = document.querySelector("figure svg");
return [getComputedStyle(document.body).backgroundColor, getComputedStyle(document.body).color, svg ? getComputedStyle(svg).filter : ""];
"""
TOLD = "return [...document.querySelectorAll(arguments[0])].map((it) => it.textContent)"
TOO_WIDE = """
return [...document.querySelectorAll("table, svg, ol, p")].filter((it) => it.getBoundingClientRect().right > innerWidth + 1)
  .map((it) => `${it.tagName} ${it.id}`);
"""
ELEMENTS = "return [...new Set([...document.querySelectorAll('*')].map((it) => it.tagName.toLowerCase()))].sort()"


def browser():
    """Starts the browser."""
    options = Options()
    for word in WORDS:
        options.add_argument(word)
    options.set_capability("goog:loggingPrefs", {"browser": "ALL"})
    driver = webdriver.Chrome(service=Service("/usr/bin/chromedriver"), options=options)
    driver.set_script_timeout(SECONDS)
    return driver


def wait_until(driver, script, is_wanted):
    """Waits until a script returns what is wanted, and returns that."""
    try:
        return wait_for(lambda: driver.execute_script(script), is_wanted)
    except TimeoutError as error:
        raise TimeoutError(f"{script}: {error}") from error


def open_page(driver, file):
    """Opens a page, and waits until its script has drawn it."""
    driver.get(Path(file).resolve().as_uri())
    wait_until(driver, "return document.documentElement.dataset.ready", bool)
    if driver.find_elements(By.CSS_SELECTOR, ".controls"):
        wait_until(driver, DRAWN, bool)


def pictures(driver):
    """Returns the name and the description of each picture that the tree of accessibility has."""
    driver.execute_cdp_cmd("Accessibility.enable", {})
    nodes = driver.execute_cdp_cmd("Accessibility.getFullAXTree", {})["nodes"]
    images = [it for it in nodes if it.get("role", {}).get("value") in ("image", "img") and not it.get("ignored")]
    return [[it.get(part, {}).get("value", "") for part in ("name", "description")] for it in images]


def at_tick(driver, tick, tasks):
    """Returns what the page says at a tick: the window, and the slots of each task."""
    driver.execute_script(GO, tick)
    drawn = wait_until(driver, DRAWN, lambda it: it.split()[:1] == [str(tick)])
    slots = []
    for task in range(tasks):
        driver.execute_script(CHOOSE, str(task))
        slots += driver.execute_script(TABLE, "table.slots")
    return {"drawn": drawn, "slots": slots}


def moved(driver):
    """Returns the windows before and after the slider was moved from tick 0 by keys: by one step, and to its end."""
    at_tick(driver, 0, 0)
    slider = driver.find_element(By.CSS_SELECTOR, ".tick-slider")
    found = [driver.execute_script(DRAWN)]
    for key in (Keys.ARROW_RIGHT, Keys.END):
        slider.send_keys(key)
        found.append(wait_until(driver, DRAWN, lambda it: it != found[-1]))
    return found


def pointed(driver):
    """Returns what the page says when one points at the first read that is drawn, and what the read says itself."""
    reads = driver.find_elements(By.CSS_SELECTOR, ".read-mark")
    if not reads:
        return None
    driver.execute_script("arguments[0].scrollIntoView({block: 'center'})", reads[0])
    ActionChains(driver).move_to_element(reads[0]).perform()
    said = driver.find_element(By.CSS_SELECTOR, ".pointed").text
    return [said, reads[0].get_attribute("data-read")]


def colours(driver, scheme):
    """Returns the colours of the page, and the filter of its pictures, in the light or in the dark."""
    features = [{"name": "prefers-color-scheme", "value": scheme}]
    driver.execute_cdp_cmd("Emulation.setEmulatedMedia", {"features": features})
    return driver.execute_script(COLOURS)


def printed(driver):
    """Returns the sizes of the sheets on which a page is printed, and the elements that are wider than one."""
    pdf = base64.b64decode(driver.execute_cdp_cmd("Page.printToPDF", {"preferCSSPageSize": True})["data"])
    sizes = sorted({it.decode() for it in re.findall(rb"/MediaBox\s*\[([^\]]*)\]", pdf)})
    driver.execute_cdp_cmd("Emulation.setEmulatedMedia", {"media": "print"})
    driver.set_window_size(SHEET_WIDTH, 1000)
    wait_until(driver, "return innerWidth", lambda it: it <= SHEET_WIDTH)
    found = driver.execute_script(TOO_WIDE)
    driver.execute_cdp_cmd("Emulation.setEmulatedMedia", {"media": ""})
    driver.set_window_size(1160, 1400)
    return {"sizes": sizes, "too_wide": found}


def shoot(driver, job):
    """Takes a picture of a page, or of the elements between two of it."""
    for scheme in ("light", job.get("scheme", "light")):
        colours(driver, scheme)
    if "tick" in job:
        at_tick(driver, job["tick"], 0)
    height = driver.execute_script("return document.documentElement.scrollHeight")
    box = {"x": 0, "y": 0, "width": 1160, "height": height, "scale": 0.7}
    if "of" in job:
        places = [driver.find_element(By.CSS_SELECTOR, it).rect for it in job["of"]]
        box["y"] = max(0, places[0]["y"] - 10)
        box["height"] = places[-1]["y"] + places[-1]["height"] - box["y"] + 10
    taken = driver.execute_cdp_cmd("Page.captureScreenshot", {"clip": box, "captureBeyondViewport": True})
    return taken["data"]


def read_page(driver, job):
    """Returns what a page says."""
    open_page(driver, job["page"])
    if "shot" in job:
        return {"shot": shoot(driver, job["shot"])}
    found = {"tables": driver.execute_script(TABLE, "table"), "plots": driver.execute_script(PLOTS)}
    found["pictures"], found["elements"] = pictures(driver), driver.execute_script(ELEMENTS)
    found["scripts"] = driver.execute_script("return document.scripts.length")
    found["marked"] = driver.execute_script("return window.marked ?? null")
    found["drawn"] = driver.execute_script(DRAWN) if job.get("tasks") else ""
    found["ticks"] = [at_tick(driver, tick, job["tasks"]) for tick in job.get("ticks", [])]
    found["plots_there"] = driver.execute_script(PLOTS)
    found["pointed"] = pointed(driver) if job.get("ticks") else None
    found["bars"] = driver.execute_script(TOLD, "svg[id$='-timeline'] :is(.served, .blocked, .end, .late) > title")
    found["moved"] = moved(driver) if job.get("is_moved") else []
    found["colours"] = {scheme: colours(driver, scheme) for scheme in ("light", "dark")}
    found["printed"] = printed(driver) if job.get("is_printed") else None
    found["said"] = [it["message"] for it in driver.get_log("browser")]
    return found


def main():
    """Reads the pages of all jobs."""
    driver = browser()
    try:
        json.dump([read_page(driver, job) for job in json.load(sys.stdin)], sys.stdout)
    finally:
        driver.quit()


if __name__ == "__main__":
    main()
