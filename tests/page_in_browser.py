"""Uses the page in Chromium, and prints a line for each test: its name, and passed or failed.

    page_in_browser.py BROWSER DRIVER PAGE EXAMPLES PICTURES

What is wanted is taken from the examples and their reports, and from docs/MODEL.md and docs/FORMATS.md by hand.
"""

import pathlib
import struct
import sys
import time
import traceback
import zlib

from selenium import webdriver
from selenium.webdriver.chrome.options import Options
from selenium.webdriver.chrome.service import Service
from selenium.webdriver.common.by import By
from selenium.webdriver.common.keys import Keys
from selenium.webdriver.support.ui import Select

BROWSER, DRIVER, PAGE, EXAMPLES, PICTURES = sys.argv[1:]
SIZES = {"small": (390, 844), "middle": (1024, 768), "large": (1600, 1000)}
VERSION = pathlib.Path("VERSION").read_text().strip()
HEADER = "credits 4\nbudget 16\nlongest 8\ntimeout 60\nunit 0 10 2 1 1000\ngo\n"


def start():
    options = Options()
    options.binary_location = BROWSER
    for word in ("--headless=new", "--no-sandbox", "--disable-gpu", "--disable-dev-shm-usage"):
        options.add_argument(word)
    options.set_capability("goog:loggingPrefs", {"browser": "ALL"})
    return webdriver.Chrome(service=Service(DRIVER), options=options)


driver = start()


def at(name):
    return driver.find_element(By.ID, name)


def click(name):
    element = at(name)
    driver.execute_script("arguments[0].scrollIntoView({block: 'center'})", element)
    element.click()


def text(name):
    return at(name).text


def value(name):
    return at(name).get_property("value")


def write(name, what):
    element = at(name)
    element.clear()
    element.send_keys(str(what))


def said():
    return text("said")


def open_page(hash_=""):
    driver.get("about:blank")
    driver.get(pathlib.Path(PAGE).resolve().as_uri() + hash_)
    for _ in range(100):
        if text("now"):
            return
        time.sleep(0.1)
    raise AssertionError("the page doesn't begin")


def run_script(script):
    driver.execute_script("document.getElementById('script').value = arguments[0]", script)
    click("run-script")


def add(line):
    write("line", line)
    click("add")
    return said()


def items():
    """The waiting commands: each one's text, and its figure."""
    found = driver.find_elements(By.CSS_SELECTOR, "#queue li[data-figure]")
    return [(item.text, int(item.get_attribute("data-figure"))) for item in found]


def figures():
    return [figure for _, figure in items()]


def moment():
    return int(value("at"))


def go_to(number):
    driver.execute_script(
        "const it = document.getElementById('at'); it.value = arguments[0]; it.dispatchEvent(new Event('input'))",
        number,
    )


def scripts():
    return sorted(it for it in pathlib.Path(EXAMPLES).glob("*.mscp") if not it.with_suffix(".status").exists())


def loads_as_a_file():
    open_page()
    assert driver.title.startswith("Toadnickel")
    assert driver.execute_script("return performance.getEntriesByType('resource').length") == 0
    assert not driver.get_log("browser")
    assert len(items()) == 6


def examples_give_their_reports():
    open_page()
    assert len(scripts()) > 30
    for script in scripts():
        Select(at("examples")).select_by_visible_text(script.stem)
        click("open")
        assert value("script") == script.read_text(), script.stem
        assert value("report") == script.with_suffix(".out").read_text(), script.stem
        assert said() == f"The example {script.stem}.", said()


def faults_are_told():
    open_page()
    before = value("report")
    for script in pathlib.Path(EXAMPLES).glob("*.err"):
        if script.with_suffix(".args").exists():
            continue
        run_script(script.with_suffix(".mscp").read_text())
        assert script.read_text().strip() in said(), said()
        assert "fault" in at("said").get_attribute("class")
        assert value("report") == before
    for line, fault in (("read 1", "count"), ("read 1 0 -1 0", "number"), ("jump", "word"), ("bad 0001", "status"),
                        ("packet 0", "hex"), ("second step 1", "word"), ("second", "count"), ("look\t", "byte"),
                        ("#" + "x" * 200, "long"), ("step 1001", "number")):
        run_script(HEADER + "look\n" + line + "\n")
        assert f"line 8: {fault}." in said(), (line, said())
    for script, fault in (("credits 65\nbudget 1\nlongest 1\ntimeout 1\nunit 0 1 1 1 1\ngo\n", "line 6: config"),
                          ("credits 4\npassing 1\nlongest 8\n", "line 4: header"),
                          (HEADER.replace("go", "unit 0 1 1 1 1\ngo"), "line 6: unit")):
        run_script(script)
        assert fault in said(), said()


# Each cause with a script that has it, and what is right, as DIAGNOSTICS of docs/mscpq.1 says it.
MEANINGS = (
    ("credits 400", "line 6: config", "The credits are 400: they are 2 to 64."),
    ("credits 4 1", "line 6: config", "The credits of the second host are 1: they are 2 to 62, or 0."),
    ("credits 40 30", "line 6: config", "The credits of both hosts are 70: together they are at most 64."),
    ("longest 8388609", "line 6: config", "The longest transfer is 8388609: it is 1 to 8388608 blocks."),
    ("timeout 6000", "line 6: config", "The timeout is 6000: it is 1 to 255 seconds."),
    ("budget 4294967295", "line 6: config", "The bound is 4294967319: it is under 4294967296."),
    ("timeout 65536", "line 4: number", "a unit is 0 to 65535"),
    ("unit 0 0 2 1 1000", "line 5: unit", "The four sizes of a unit are at least 1"),
    ("reed 1 0 1024 40", "line 7: word", "The line is: reed 1 0 1024 40"),
    ("read 1 0 1024", "line 7: count", "a READ is read 1 0 1024 40"),
    ("bad 8", "line 7: hex", "a status has 4 digits"),
    ("bad 0004", "line 7: status", "5 or more"),
    ("look\t", "line 7: byte", "a tab, for example"),
    ("#" + "x" * 200, "line 7: long", "over 200 bytes"),
    ("step 1000\n" * 6, "line 12: events", "the page plays 5,000"),
)


def with_line(line):
    """The header with this line in place of the one with its word, or behind it."""
    lines, word = HEADER.split("\n"), line.split(" ")[0]
    found = [it for it in lines if it.split(" ")[0] == word]
    return HEADER.replace(found[0], line) if found else HEADER + line + "\n"


def faults_say_what_is_right():
    open_page()
    for line, fault, meaning in MEANINGS:
        script = with_line(line)
        run_script(script)
        assert text("fault").startswith(f"{fault}. ") and meaning in text("fault"), (line, text("fault"))
        assert value("script") == script, "the script is in its box still"
        assert at("script").get_attribute("aria-invalid") == "true"
    box, fault = at("script").rect, at("fault").rect
    assert 0 <= fault["y"] - box["y"] - box["height"] < 40 and abs(fault["x"] - box["x"]) < 10, (box, fault)


def faulty_scripts_stay():
    open_page()
    run_script(HEADER + "online 9 0\n")
    shown, wrong = value("script"), with_line("credits 400")
    run_script(wrong)
    click("step")
    assert said().startswith("serve 9") and value("script") == wrong and "config" in text("fault")
    click("restore")
    assert value("script") == shown + "step 1\n" and text("fault") == "" and not at("restore").is_displayed()
    at("script").send_keys("lo")
    click("look")
    assert value("script").endswith("lo") and at("restore").is_displayed(), "what is written stays too"
    run_script(HEADER)
    assert value("script") == HEADER and text("fault") == "" and not at("restore").is_displayed()
    assert "jump" in add("jump") and "line 7: word" in said() and value("line") == "jump"
    open_page("#script=" + wrong.replace(" ", "+").replace("\n", "%0A"))
    assert value("script") == wrong and text("fault").startswith("line 6: config") and len(items()) == 6


# Without a scroll: which version it is, what a figure is, what to press first, and what the patterns mean.
def first_screen_tells():
    for width, height in SIZES.values():
        resize(width, height)
        open_page()
        head = driver.find_element(By.TAG_NAME, "header").text
        for words in (f"version {VERSION}.", "how many steps it may still wait, at most", "Press Run first"):
            assert words in head, head
        key = [it.split(":")[0] for it in text("legend").split("\n")]
        assert key == ["earlier", "service", "budget", "own"], key
        for name in ("legend", "run"):
            place = "return document.getElementById(arguments[0]).getBoundingClientRect().bottom"
            low = driver.execute_script(place, name)
            assert low <= height, (name, width, low)
    driver.execute_cdp_cmd("Emulation.clearDeviceMetricsOverride", {})


# docs/MODEL.md has these figures, in "An example".
def figures_are_those_of_the_model():
    open_page()
    run_script(HEADER + "online 9 0\nstep 1\ntake\nwrite 1 0 1024 0\nerase 2 0 512 100\n")
    assert figures() == [18, 19]
    for wanted in ([1, 18], [17], []):
        click("step")
        assert figures() == wanted, figures()


# At each look of an example the list has what the report has.
def figures_are_those_of_look():
    for name in ("six_figures", "two_connections", "abort_of_the_passer", "budget_is_spent"):
        open_page()
        Select(at("examples")).select_by_visible_text(name)
        click("open")
        looks = 0
        for number in range(1, int(at("at").get_attribute("max")) + 1):
            go_to(number)
            row = driver.find_element(By.CSS_SELECTOR, "#moments tr[aria-current]").text
            if "look" in row.split("\n")[0] and said().split(" ")[0] in ("figure", "second"):
                looks += 1
                assert [int(it.split(" ")[-1]) for it in said().split(", ")] == figures(), (name, number)
        assert looks > 0, name


# Each picture and table has the figures of the list.
def table_has_the_figures():
    open_page()
    run_script(HEADER + "online 9 0\nstep 1\ntake\nwrite 1 0 1024 0\nerase 2 0 512 100\nstep 2\n")
    driver.find_element(By.CSS_SELECTOR, "#figures summary").click()
    rows = [[cell.text for cell in row.find_elements(By.CSS_SELECTOR, "th, td")]
            for row in driver.find_elements(By.CSS_SELECTOR, "#figures-table tr")]
    assert rows == [["steps", "9", "1", "2"], ["0", "17", "", ""], ["1", "", "18", "19"], ["2", "", "1", "18"],
                    ["3", "", "", "17"]], rows
    assert len(driver.find_elements(By.CSS_SELECTOR, "#figures-picture polyline")) == 3


# Who keeps whom back, by the rules of docs/MODEL.md: two fences, and the budget.
def reasons_are_told():
    open_page()
    run_script(HEADER.replace("budget 16", "budget 3").replace("credits 4", "credits 9") + "online 9 0\nstep 1\ntake\n"
               "read 1 0 512 900\nread 2 0 2048 0\nread 3 0 1536 0\navailable 4 0\nread 5 0 512 0\n")
    texts = [it for it, _ in items()]
    assert "● may start" in texts[0], texts[0]
    assert "■ kept back: may not pass READ 1: it takes 4, and 3 of that one's budget is left" in texts[1]
    assert "● may start" in texts[2], texts[2]
    assert "■ kept back: fenced by READ 1, READ 2, READ 3" in texts[3], texts[3]
    assert "■ kept back: fenced by AVAILABLE 4" in texts[4], texts[4]
    run_script(HEADER + "online 9 0\nstep 1\ntake\nread 1 0 512 900\nread 2 0 2048 0\nstep 1\n")
    texts = [it for it, _ in items()]
    assert "◷ waits: READ 2 is in service" in texts[0], texts[0]
    assert "▶ in service: 1 of 4 steps done" in texts[1], texts[1]


def time_buttons_move():
    open_page()
    click("first")
    assert moment() == 0 and not at("back").is_enabled() and not items()
    click("forward")
    assert moment() == 1 and said() == "queued 900"
    click("last")
    assert moment() == 40 and not at("forward").is_enabled()
    click("back")
    assert moment() == 39
    at("at").send_keys(Keys.ARROW_LEFT)
    assert moment() == 38 and "Moment 38 of 40" in text("now")


def run_runs_and_stops():
    open_page()
    run_script(HEADER + "online 9 0\nstep 1\nread 1 0 1024 40\n")
    click("back")
    click("run")
    for _ in range(100):
        if text("run") == "Run":
            break
        time.sleep(0.1)
    assert not items() and value("script").endswith("read 1 0 1024 40\nstep 1\nstep 1\n"), value("script")
    # A run that is far from its end, so that it doesn't end by itself where the browser is slow.
    run_script(HEADER + "step 100\n")
    click("first")
    click("run")
    assert text("run") == "Stop"
    click("run")
    assert text("run") == "Run"


def commands_are_sent():
    open_page()
    run_script(HEADER + "online 9 0\nstep 1\ntake\n")
    for word, line in (("read", "read 10 0 1024 40"), ("write", "write 11 0 512 80"), ("unitstatus", "unitstatus 12 0"),
                       ("setcontroller", "setcontroller 13")):
        Select(at("command")).select_by_value(word)
        if word in ("read", "write"):
            write("bytes", line.split()[3])
            write("block", line.split()[4])
        assert value("reference") == line.split()[1], value("reference")
        click("send-it")
        assert value("script").endswith(f"\n{line}\n"), value("script")
        assert said() in (f"queued {line.split()[1]}", f"answered {line.split()[1]}", "refused no-credit"), said()
    assert len(items()) == 2
    words = [it.get_attribute("value") for it in Select(at("command")).options]
    wanted = "read write access erase compare online available setunit unitstatus setcontroller"
    assert sorted(words) == sorted(wanted.split())


def steps_takes_and_looks():
    open_page()
    run_script(HEADER + "online 9 0\nstep 1\nread 1 0 1024 40\nread 2 0 512 60\n")
    click("take")
    assert said().startswith("end 09000000"), said()
    click("look")
    assert said() == "figure 1 18, figure 2 19", said()
    click("step")
    assert said() == "serve 1 unit 0 block 40 seek 2", said()
    Select(at("status")).select_by_value("000b")
    click("bad")
    assert said() == "serve 1 unit 0 block 41 seek 0 ended 000b", said()
    click("take")
    row = driver.find_element(By.CSS_SELECTOR, "#moments tr[aria-current]").text
    assert "end 1 unit 0 code a1 status 000b bytes 512" in row, row
    assert "0100000000000000a1000b0000020000" in row, row
    click("take")
    assert said() == "none"


def polls_and_aborts():
    open_page()
    run_script(HEADER + "online 9 0\nstep 1\ntake\nread 1 0 1024 40\nread 2 0 512 60\n")
    driver.find_element(By.CSS_SELECTOR, "[aria-label='Poll READ 1']").click()
    assert said() == "answered 10", said()
    click("take")
    assert "end 10 unit 0 code 82 status 0000 of 1 figure 18" in driver.find_element(By.CSS_SELECTOR, "#moments").text
    driver.find_element(By.CSS_SELECTOR, "[aria-label='Abort READ 1']").click()
    assert said() == "answered 11 aborted 1", said()
    assert len(items()) == 1 and figures() == [17], items()


def lines_come_and_go():
    open_page()
    run_script(HEADER)
    assert add("online 9 0") == "queued 9"
    assert value("line") == ""
    assert "line 8: word" in add("go")
    assert value("line") == "go" and value("script") == HEADER + "online 9 0\n"
    click("undo")
    assert said() == "Removed: online 9 0" and value("script") == HEADER
    click("undo")
    assert said() == "Only the header is left." and value("script") == HEADER
    add("packet 050000000000000005000000")
    assert "command 5 unit 0 unknown opcode 5" in text("moments")


def random_read_is_one():
    open_page()
    run_script(HEADER + "online 9 0\nstep 1\ntake\n")
    click("random")
    line = value("script").split("\n")[-2].split(" ")
    assert line[:3] == ["read", "10", "0"] and int(line[3]) % 512 == 0, line
    assert int(line[4]) + int(line[3]) // 512 <= 1000 and said() == "queued 10"


def controllers_are_made():
    open_page()
    run_script(HEADER + "online 9 0\nstep 1\n")
    for name, number in (("credits", 6), ("second", 3), ("budget", 5), ("longest", 7), ("timeout", 9)):
        write(name, number)
    Select(at("count")).select_by_visible_text("2")
    Select(at("picker")).select_by_value("oldest")
    click("make")
    header = "credits 6 3\nbudget 5\nlongest 7\ntimeout 9\nunit 0 10 2 1 1000\nunit 1 10 2 1 1000\ngo\n"
    assert value("script") == header + "online 9 0\nstep 1\n", value("script")
    assert "The bound is 7 × 7 + 5 = 54 steps" in text("bound"), text("bound")
    click("clear")
    assert value("script") == header
    write("credits", 99)
    click("make")
    assert value("script") == header, "a number out of its range is refused"
    write("credits", 64)
    click("make")
    assert "config" in said() and value("script") == header


# Where 2 is on the head's cylinder and 1 is far away, the sweep starts 2, and the oldest is 1.
def pickers_pick():
    script = HEADER + "online 9 0\nstep 1\nread 1 0 512 900\nread 2 0 512 0\n"
    for picker, wanted in (("sweep", "serve 2"), ("oldest", "serve 1")):
        open_page()
        run_script(script)
        Select(at("picker")).select_by_value(picker)
        click("make")
        click("step")
        assert said().startswith(wanted), (picker, said())
        assert ("sweep alone" in text("whose")) == (picker == "oldest")


def second_hosts_are_there():
    open_page()
    run_script(HEADER)
    assert not at("hosts").is_displayed()
    run_script(HEADER.replace("credits 4", "credits 4 3"))
    assert at("hosts").is_displayed()
    driver.find_element(By.CSS_SELECTOR, "[name=host][value='1']").click()
    Select(at("command")).select_by_value("online")
    click("send-it")
    assert said() == "second queued 1" and "ONLINE 1 of the second host" in items()[0][0], said()
    driver.find_element(By.CSS_SELECTOR, "[aria-label='Poll ONLINE 1 of the second host']").click()
    assert said() == "second answered 2"
    click("take")
    assert said().startswith("second end 02000000"), said()


# Written by hand: a link is such a one, and what the page writes is opened in another.
def links_hold_the_state():
    script = (HEADER + "online 9 0\nstep 1\ntake\nlook\n").replace(" ", "+").replace("\n", "%0A")
    open_page("#picker=oldest&at=3&script=" + script)
    assert moment() == 3 and value("picker") == "oldest" and said() == "" and "Moment 3 of 4" in text("now")
    open_page()
    go_to(17)
    click("copy")
    assert "link is" in said()
    link, shown, state = value("link"), text("queue"), text("now")
    open_page(link[link.index("#"):])
    assert text("queue") == shown and text("now") == state and moment() == 17
    open_page("#script=credits")
    assert "line 1: count" in said() and len(items()) == 6


def moments_are_chosen():
    open_page()
    driver.find_element(By.CSS_SELECTOR, "[aria-label='Show moment 5']").click()
    assert moment() == 5


# By keys alone: what has the focus keeps it, and a command that is gone leaves it in the list.
def keys_are_enough():
    open_page()
    run_script(HEADER + "online 9 0\nstep 1\ntake\nread 1 0 1024 40\nread 2 0 512 60\n")
    at("step").send_keys(Keys.ENTER)
    assert said() == "serve 1 unit 0 block 40 seek 2"
    assert driver.switch_to.active_element.get_attribute("id") == "step"
    driver.find_element(By.CSS_SELECTOR, "[aria-label='Poll READ 2']").send_keys(Keys.SPACE)
    assert said() == "answered 10"
    assert driver.switch_to.active_element.get_attribute("aria-label") == "Poll READ 2"
    driver.find_element(By.CSS_SELECTOR, "[aria-label='Abort READ 2']").send_keys(Keys.ENTER)
    assert "refused no-credit" == said() or driver.switch_to.active_element.get_attribute("id") == "waiting", said()
    at("line").send_keys("look", Keys.ENTER)
    assert said().startswith("figure 1 1"), said()


def all_has_a_name():
    open_page()
    nameless = driver.execute_script(
        "return [...document.querySelectorAll('input, select, textarea, button, svg:not([aria-hidden])')].filter(it =>"
        "!(it.labels && it.labels.length) && !it.getAttribute('aria-label') && !it.textContent.trim())"
        ".map(it => it.outerHTML)"
    )
    assert not nameless, nameless


def resize(width, height):
    driver.execute_cdp_cmd("Emulation.setDeviceMetricsOverride", {
        "width": width, "height": height, "deviceScaleFactor": 1, "mobile": False})
    for _ in range(100):
        if driver.execute_script("return innerWidth") == width:
            break
        time.sleep(0.1)


def save_picture(name):
    """Saves what the window shows, with the version in a chunk of its own, before the last one, which has 12 bytes."""
    picture = driver.get_screenshot_as_png()
    chunk = b"tEXt" + b"Software\0Toadnickel " + VERSION.encode()
    chunk = struct.pack(">I", len(chunk) - 4) + chunk + struct.pack(">I", zlib.crc32(chunk))
    pathlib.Path(PICTURES, name).write_bytes(picture[:-12] + chunk + picture[-12:])


def sizes_have_room():
    for dark in (False, True):
        driver.execute_cdp_cmd("Emulation.setEmulatedMedia", {
            "features": [{"name": "prefers-color-scheme", "value": "dark" if dark else "light"}]})
        open_page()
        go_to(17)
        for name, (width, height) in SIZES.items():
            resize(width, height)
            wide = driver.execute_script("return document.documentElement.scrollWidth")
            assert wide <= width, (name, wide)
            save_picture(f"{name}{'_dark' if dark else ''}.png")
        paper = driver.execute_script("return getComputedStyle(document.body).backgroundColor")
        assert paper == ("rgb(20, 23, 27)" if dark else "rgb(246, 247, 249)"), paper
    driver.execute_cdp_cmd("Emulation.clearDeviceMetricsOverride", {})


TESTS = (loads_as_a_file, examples_give_their_reports, faults_are_told, faults_say_what_is_right, faulty_scripts_stay,
         first_screen_tells, figures_are_those_of_the_model,
         figures_are_those_of_look, table_has_the_figures, reasons_are_told, time_buttons_move, run_runs_and_stops,
         commands_are_sent, steps_takes_and_looks, polls_and_aborts, lines_come_and_go, random_read_is_one,
         controllers_are_made, pickers_pick, second_hosts_are_there, links_hold_the_state, moments_are_chosen,
         keys_are_enough, all_has_a_name, sizes_have_room)
try:
    for test in TESTS:
        try:
            test()
            print(test.__name__, "passed", flush=True)
        except Exception:
            traceback.print_exc()
            print(test.__name__, "failed", flush=True)
finally:
    driver.quit()
