#!/usr/bin/python3
"""Uses pages of tools/studio in a real browser, for .ci/tried/studio.py: by keys and clicks, as a user does.

Standard input has a list of jobs as JSON, each with the address of a page, what is done there, and what that needs; standard
output gets as a list what each page says then.
"""

import json
import sys
import time
from pathlib import Path

from awaited import wait_for
from browse import TOLD, browser, wait_until
from selenium.common.exceptions import WebDriverException
from selenium.webdriver.common.action_chains import ActionChains
from selenium.webdriver.common.by import By
from selenium.webdriver.common.keys import Keys

READY = "return document.documentElement.dataset.ready"
SHOWN = "return document.getElementById('report-view').dataset.shown ?? ''"
TEXT = """
const mirror = document.querySelector(".CodeMirror")?.CodeMirror;
return mirror ? mirror.getValue() : document.querySelector("#editor textarea").value;
"""
PUT = """
const mirror = document.querySelector(".CodeMirror")?.CodeMirror;
if (mirror) mirror.setValue(arguments[0]);
else {
  const area = document.querySelector("#editor textarea");
  area.value = arguments[0];
  area.dispatchEvent(new Event("input"));
}
"""
GO_TO = """
const [line, place] = arguments, mirror = document.querySelector(".CodeMirror")?.CodeMirror;
if (mirror) {
  mirror.setCursor(line - 1, place);
  mirror.focus();
} else {
  const area = document.querySelector("#editor textarea"), lines = area.value.split("\\n").slice(0, line - 1);
  area.focus();
  area.selectionStart = area.selectionEnd = lines.reduce((sum, it) => sum + it.length + 1, place);
}
"""
# Each marked text with the number of its line as the editor shows it, how many letters are before it there, and its kind.
MARKS = """
return [...document.querySelectorAll(".CodeMirror .marked")].map((mark) => {
  const line = mark.closest("pre"), before = document.createRange();
  before.setStart(line, 0);
  before.setEndBefore(mark);
  const number = line.parentElement.querySelector(".CodeMirror-linenumber").textContent;
  return [Number(number), before.toString().length + 1, mark.textContent, [...mark.classList].at(-1), mark.title];
});
"""
LISTED = "return [...document.querySelectorAll('#messages li')].map((it) => it.textContent)"
SELECTED = """
const mirror = document.querySelector(".CodeMirror").CodeMirror;
return [mirror.getCursor("from").line + 1, mirror.getSelection()];
"""
TOKENS = """
const mirror = document.querySelector(".CodeMirror").CodeMirror;
return Array.from({ length: mirror.lineCount() }, (_, at) => mirror.getLineTokens(at, true).map((it) => [it.string, it.type]));
"""
SAVED = "return [document.getElementById('saved').textContent, document.getElementById('save').disabled]"
SAVES = "return performance.getEntriesByType('resource').filter((it) => it.name.includes('/save?')).length"
COLOUR = """
return [...document.querySelectorAll(arguments[0])].map((it) => [it.textContent, getComputedStyle(it)[arguments[1]]]);
"""
STEP = """
const cells = (row) => [...row.cells].map((cell) => cell.textContent), line = document.querySelector(".step-line")?.parentElement;
return {
  at: Number(document.getElementById("steps-view").dataset.at),
  now: [...document.querySelectorAll(".around .now")].map((it) => it.textContent),
  line: line?.querySelector(".CodeMirror-linenumber").textContent ?? null,
  changed: [...document.querySelectorAll("#step-tables .changed")].map((it) => it.textContent),
  tables: [...document.querySelectorAll("#step-tables table")].map((table) => [...table.tBodies[0].rows].map(cells)),
};
"""
EACH_STEP = f"""
const step = () => {{ {STEP} }}, button = document.getElementById(arguments[0]);
return Array.from({{ length: arguments[1] }}, () => {{ button.click(); return step(); }});
"""
# Returns what is told of turns; a run that reached a limit, as on a machine that does much else, is asked for again.
TURNS = """
const told = document.getElementById("turns-told"), said = told.textContent;
if (said.startsWith("a limit is reached")) {
  told.textContent = "";
  document.getElementById("turns-number").dispatchEvent(new Event("input"));
}
return said;
"""
# Notes by the number of an edit how long after it its first report is shown.
WATCH = """
const mirror = document.querySelector(".CodeMirror").CodeMirror, view = document.getElementById("report-view");
window.times = {};
let start = 0;
mirror.on("change", () => { start = performance.now(); });
new MutationObserver(() => { times[parseInt(view.dataset.shown)] ??= performance.now() - start; })
  .observe(view, { attributeFilter: ["data-shown"] });
"""
# Clicks what stops a report as soon as it is there, and returns what is told of that report.
STOP = """
const stop = document.getElementById("stop"), told = document.getElementById("progress").textContent;
if (stop.hidden) return "";
stop.click();
return told;
"""
# Notes where the report says that one is, after the page has heard it.
LISTEN = "addEventListener('message', ({ data }) => { if (data.kind === 'moved') window.place = data.place; })"
# Notes the longest time in which the page does nothing else, and how long letters take from their keys to the picture.
STALLS = """
window.stalls = [];
new PerformanceObserver((list) => stalls.push(...list.getEntries().map((it) => it.duration))).observe({ type: "longtask" });
document.addEventListener("keydown", (event) => {
  const start = event.timeStamp;
  requestAnimationFrame(() => setTimeout(() => keys.push(performance.now() - start)));
}, true);
window.keys = [];
"""


# Shows a part of the report, and waits until it is drawn there.
SCROLL = """
const [part, done] = arguments;
document.querySelector(part).scrollIntoView();
requestAnimationFrame(() => requestAnimationFrame(done));
"""


def shown(driver, revision, kind="whole"):
    """Waits until the report of an edit is shown."""
    wait_until(driver, SHOWN, lambda it: it == f"{revision} {kind}")


def opened(driver, job):
    """Opens a page, and waits until its report is shown."""
    driver.get(job["address"])
    wait_until(driver, READY, bool)
    shown(driver, 0)


def typed(driver, *keys, control=False):
    """Types keys where the cursor is, with the control key or without."""
    chain = ActionChains(driver)
    if control:
        chain.key_down(Keys.CONTROL)
    chain.send_keys(*keys)
    if control:
        chain.key_up(Keys.CONTROL)
    chain.perform()


def edited(driver, line, place, *keys):
    """Types keys at a place of the text."""
    driver.execute_script(GO_TO, line, place)
    typed(driver, *keys)


def is_in_frame(driver):
    """Whether the driver asks a report: if that is gone, it asks the page around it, or nothing."""
    try:
        return driver.execute_script("return parent !== window")
    except WebDriverException:
        return False


def asked_once(driver, call, *given):
    """Returns in a list what a call finds in the report that is shown, or nothing if another one took its place meanwhile."""
    try:
        driver.switch_to.frame(driver.find_element(By.CSS_SELECTOR, "#report-view iframe:not(.coming)"))
        found = [call(*given)]
        return found if is_in_frame(driver) else []
    except WebDriverException:
        if is_in_frame(driver):
            raise
        return []
    finally:
        driver.switch_to.default_content()


def in_frame(driver, call, *given):
    """Returns what a call finds in the report that is shown."""
    return wait_for(lambda: asked_once(driver, call, *given), bool)[0]


def told(driver, selector):
    """Returns the texts of elements."""
    return driver.execute_script(TOLD, selector)


def edits(driver, job):
    """Breaks a line and mends it, changes a cost, and makes an overrun."""
    opened(driver, job)
    found = {"first": driver.execute_script(MARKS), "listed": told(driver, "#messages li")}
    edited(driver, *job["break"])
    found["broken"] = wait_until(driver, MARKS, bool)
    found["broken_list"] = wait_until(driver, LISTED, bool)
    shown(driver, 1)
    found["verdict"] = driver.execute_script(COLOUR, "#verdict", "color")
    typed(driver, Keys.BACKSPACE)
    wait_until(driver, MARKS, lambda it: not it)
    shown(driver, 2)
    found["mended"] = [driver.execute_script(MARKS), told(driver, "#messages li"), driver.execute_script(TEXT)]
    driver.execute_script(LISTEN)
    in_frame(driver, placed, driver)
    found["place"] = [in_frame(driver, driver.execute_script, PLACE)]
    wait_until(driver, "return place ? [place.scroll, ...Object.values(place.values)] : null", lambda it: it == found["place"][0])
    edited(driver, *job["cost"])
    shown(driver, 4)
    found["place"].append(in_frame(driver, driver.execute_script, PLACE))
    found["bars"] = in_frame(driver, told, driver, "svg[id$='-timeline'] :is(.served, .end, .late) > title")
    edited(driver, *job["overrun"])
    shown(driver, 6)
    found["overrun_marks"] = driver.execute_script(MARKS)
    found["overrun"] = [in_frame(driver, driver.execute_script, COLOUR, *it) for it in OVERRUN]
    found["links"] = followed(driver)
    return found


OVERRUN = ((".messages > li.error", "color"), ("svg .loud", "fill"), ("svg .overrun", "stroke"), ("p.verdict", "color"))
PLACE = "return [scrollY, document.querySelector('.tick-number').value, document.querySelector('.slot-task').value]"


def placed(driver):
    """Goes to a tick, a task and a place of a report, as a user does."""
    slider = driver.find_element(By.CSS_SELECTOR, ".tick-slider")
    slider.send_keys(Keys.HOME, *[Keys.ARROW_RIGHT] * 5)
    driver.find_element(By.CSS_SELECTOR, ".slot-task").send_keys(Keys.ARROW_DOWN)
    driver.execute_script("scrollTo(0, 700)")


def followed(driver):
    """Clicks the place of the first message in the report, and returns what is selected in the text then."""
    in_frame(driver, driver.execute_script, "document.querySelector('.messages a').click()")
    return wait_until(driver, SELECTED, lambda it: it[1])


def speed(driver, job):
    """Types letters one after the other, and returns how long after each the report is shown."""
    opened(driver, job)
    driver.execute_script(WATCH)
    for number in range(1, job["count"] + 1):
        edited(driver, 1, 5, " ")
        shown(driver, number)
    return driver.execute_script("return Object.values(times)")


def undone(driver, job):
    """Types letters, opens the page anew, and undoes them."""
    opened(driver, job)
    found = [driver.execute_script(TEXT)]
    edited(driver, 1, 5, " ", "#", Keys.ENTER, "#")
    shown(driver, 4)
    for _ in range(2):
        found.append(driver.execute_script(TEXT))
        driver.refresh()
        wait_until(driver, READY, bool)
    found.append(driver.execute_script(TEXT))
    driver.execute_script(GO_TO, 1, 0)
    for _ in range(4):
        typed(driver, "z", control=True)
    found.append(driver.execute_script(TEXT))
    typed(driver, "y", control=True)
    found.append(driver.execute_script(TEXT))
    return found


def warned(driver):
    """Waits for the warning that the file has changed, and returns it."""
    return wait_until(driver, "const it = document.getElementById('warning'); return it.hidden ? '' : it.innerText", bool)


def saving(driver, job):
    """Saves a text, lets another program write the file, and takes both ways out of that."""
    opened(driver, job)
    file, found = Path(job["file"]), []

    def keep(wanted):
        told = wait_until(driver, SAVED, lambda it: it[0] == wanted)
        found.append([file.read_text(), driver.execute_script(TEXT), told])

    keep("saved")
    edited(driver, 1, 5, " ")
    keep("not saved")
    typed(driver, "s", control=True)
    keep("saved")
    file.write_text(job["other"])
    found.append(warned(driver))
    edited(driver, 1, 5, " ")
    driver.execute_script("performance.clearResourceTimings()")
    typed(driver, "s", control=True)
    wait_until(driver, SAVES, bool)
    keep("not saved")
    driver.find_element(By.ID, "overwrite").click()
    keep("saved")
    file.write_text(job["other"])
    found.append(warned(driver))
    driver.find_element(By.ID, "load").click()
    wait_until(driver, TEXT, lambda it: it == job["other"])
    keep("saved")
    driver.execute_script(GO_TO, 1, 0)
    typed(driver, "z", control=True)
    keep("not saved")
    return found


def example(driver, job):
    """Opens an example, changes it, and goes back to the own document, which was changed before."""
    opened(driver, job)
    edited(driver, 1, 5, " ")
    found = []
    for name in (job["example"], job["own"]):
        driver.execute_script("""const it = document.getElementById("documents"); it.value = arguments[0];
          it.dispatchEvent(new Event("change"))""", name)
        wait_until(driver, "return document.title", lambda it: it.startswith(name))
        found.append([driver.execute_script(TEXT), driver.find_element(By.ID, "save").get_attribute("disabled")])
        edited(driver, 1, 0, "#")
        typed(driver, "s", control=True)
    wait_until(driver, SAVED, lambda it: it[0] == "saved")
    return found


def steps(driver, job):
    """Goes through the steps of a script forward, back, and to its end; returns what is shown at each."""
    opened(driver, job)
    driver.find_element(By.ID, "steps-tab").click()
    wait_until(driver, "return document.getElementById('steps-view').dataset.at ?? ''", bool)
    found = {"told": told(driver, "#step-told"), "steps": [driver.execute_script(STEP)]}
    forward, slider = (driver.find_element(By.ID, name) for name in ("step-forward", "step-slider"))
    if job["by_hand"]:
        found["steps"] += [shown_after(driver, forward.click) for _ in range(job["count"])]
        found["back"] = [shown_after(driver, slider.send_keys, Keys.ARROW_LEFT) for _ in range(job["count"])]
    else:
        found["steps"] += driver.execute_script(EACH_STEP, "step-forward", job["count"])
        found["back"] = driver.execute_script(EACH_STEP, "step-back", job["count"])
    driver.find_element(By.ID, "step-last").click()
    found["last"] = driver.execute_script(STEP)
    return found


def shown_after(driver, act, *given):
    """Does something as a user does, and returns what is shown of a step then."""
    act(*given)
    return driver.execute_script(STEP)


def turns(driver, job):
    """Moves the slider of the turns, and returns what is shown for each number."""
    opened(driver, job)
    driver.find_element(By.ID, "turns-tab").click()
    found = []
    for keys in ([], [Keys.ARROW_RIGHT], [Keys.ARROW_RIGHT] * 5, [Keys.END]):
        driver.find_element(By.ID, "turns-slider").send_keys(*keys)
        number = driver.execute_script("return document.getElementById('turns-slider').value")
        said = wait_until(driver, TURNS, lambda it: it.startswith(f"run --turns {number}: "))
        found.append([number, said, told(driver, "#turns-lines")[0]])
    field = driver.find_element(By.ID, "turns-number")
    for number in job["numbers"]:
        driver.execute_script("arguments[0].value = ''", field)
        field.send_keys(number)
        said = wait_until(driver, TURNS, lambda it: it.startswith(f"run --turns {number}: ") or "status" in it)
        found.append([number, said, told(driver, "#turns-lines")[0]])
    return found


def large(driver, job):
    """Opens a large document, edits it while its report is made, and stops that."""
    driver.get(job["address"])
    wait_until(driver, READY, bool)
    found = {"first": [], "stalls": [], "keys": [], "pictures": []}
    wait_until(driver, SHOWN, bool)
    driver.execute_script(STALLS)
    driver.execute_script(WATCH)
    for number in range(1, job["rounds"] + 1):
        driver.execute_script("stalls.length = keys.length = 0")
        edited(driver, 1, 5, *job["typed"])
        revision = number * len(job["typed"])
        wait_until(driver, SHOWN, lambda it: it.startswith(f"{revision} "))
        for part in ("stalls", "keys"):
            found[part].append(driver.execute_script(f"return Math.max(0, ...{part})"))
        found["first"].append(driver.execute_script("return times[arguments[0]]", revision))
        found["pictures"].append(len(in_frame(driver, told, driver, "figure svg > desc")))
    edited(driver, 1, 5, " ")
    found["progress"] = wait_until(driver, STOP, bool)
    found["stopped"] = told(driver, "#verdict, #progress")
    found["is_there"] = driver.find_element(By.ID, "stop").is_displayed()
    found["text"] = len(driver.execute_script(TEXT))
    return found


def hostile(driver, job):
    """Puts texts with markup in place, and returns what has become of them."""
    opened(driver, job)
    found = []
    for number, text in enumerate(job["texts"], 1):
        driver.execute_script(PUT, text)
        shown(driver, number)
        marked = "return window.marked ?? null"
        elements = "return document.querySelectorAll('img, #messages :not(li):not(button)').length"
        there = in_frame(driver, driver.execute_script, marked)
        found.append([driver.execute_script(marked), driver.execute_script(elements), there])
    return found


def tokens(driver, job):
    """Returns the runs of each line of texts, with their styles."""
    opened(driver, job)
    found = []
    for text in job["texts"]:
        driver.execute_script(PUT, text)
        found.append(driver.execute_script(TOKENS))
    return found


def plain(driver, job):
    """Breaks a line where there is a text area alone, goes to the message, and mends the line."""
    opened(driver, job)
    edited(driver, *job["break"])
    listed = wait_until(driver, LISTED, bool)
    driver.find_element(By.CSS_SELECTOR, "#messages button").click()
    script = "const it = document.querySelector('textarea'); return [it.selectionStart, it.selectionEnd]"
    found = {"listed": listed, "selected": driver.execute_script(script)}
    typed(driver, "z", control=True)
    wait_until(driver, "return document.querySelectorAll('#messages li').length", lambda it: it == 0)
    return found


def shot(driver, job):
    """Changes a text, and returns a picture of the page with a part of the report."""
    opened(driver, job)
    edited(driver, *job["edit"])
    shown(driver, 2)
    driver.execute_script(GO_TO, 1, 0)
    in_frame(driver, driver.execute_async_script, SCROLL, job["part"])
    box = {"x": 0, "y": 0, "width": 1400, "height": 700, "scale": 0.6}
    return driver.execute_cdp_cmd("Page.captureScreenshot", {"clip": box})["data"]


JOBS = {it.__name__: it for it in (edits, speed, undone, saving, example, steps, turns, large, hostile, tokens, plain, shot)}


def done(driver, job):
    """Does a job; returns what it finds, or what went wrong, and what the browser complained of."""
    driver.switch_to.default_content()
    start = time.monotonic()
    try:
        found = JOBS[job["do"]](driver, job)
    except Exception as error:  # of the browser: the job fails, and the others go on
        found = {"failed": f"{type(error).__name__}: {str(error)[:500]}"}
    said = [it["message"] for it in driver.get_log("browser") if it["level"] == "SEVERE"]
    return {"found": found, "said": said, "seconds": time.monotonic() - start}


def main():
    """Does all jobs."""
    driver = browser()
    driver.set_window_size(1400, 900)
    try:
        json.dump([done(driver, job) for job in json.load(sys.stdin)], sys.stdout)
    finally:
        driver.quit()


if __name__ == "__main__":
    main()
