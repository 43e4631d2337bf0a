"""The page of a report, also as a browser shows it."""
import re
import subprocess
from html.parser import HTMLParser

from workbench.program import call

from tooling.common import EXAMPLES, each, leave_out, own_folder, there, tool, want

NEEDS = ["dot", "matplotlib", "jinja2"]


class Tags(HTMLParser):
    """Whether each tag of a page is closed, in order."""

    def __init__(self):
        super().__init__()
        self.open, self.right = [], True

    def handle_starttag(self, tag, attrs):
        if tag != "meta":
            self.open.append(tag)

    def handle_startendtag(self, tag, attrs):
        pass

    def handle_endtag(self, tag):
        self.right = self.right and bool(self.open) and self.open.pop() == tag


def is_html(text):
    tags = Tags()
    tags.feed(text)
    return tags.right and not tags.open


def pages_are_written(folder):
    def written(example):
        checked = ["fast", "certificate"] if (example / "certificate").exists() else []
        page = folder / f"{example.name}.html"
        return page, tool("report", "net", "stream", *checked, "-o", page, folder=example)

    for example, (page, (status, _, error)) in each(written, EXAMPLES):
        text = page.read_text() if page.exists() else ""
        want(f"report {example.name}", not status and is_html(text), error)
        want(f"{example.name}'s page stands alone", "<svg" in text and not re.search(r'(src|href)="(?!#|http://www.w3.org)', text))
        rows = call(["outline", str(example / "net")]).output.count(b"\n")
        want(f"{example.name}'s page has the outline", text.count("<tr><td>") == min(rows, 2_000) and ("these are the first" in text) == (rows > 2_000), rows)
    page = folder / "boiler.html"
    text = page.read_text()
    want("the page has each step", text.count("<details><summary>") >= 21 and "accepted 21" in text)
    shown = browsed(page) if there("chromium") else None
    if shown is not None:
        want("the page in a browser", "(repeatedly 1 unit)" in shown and "accepted 21" in shown and '<span class="label">input.fst</span>' in shown, shown[:300])
        dark, light = brightness(page, 0), brightness(page, 1)
        want("the page dark and light", dark < 0.2 and light > 0.8, (dark, light))
    else:
        leave_out("since no browser runs here (Debian's chromium): the page in a browser")


BROWSER = ["chromium", "--headless", "--no-sandbox", "--disable-gpu", "--disable-dev-shm-usage"]


def browsed(page):
    """The page as a browser has it, when its scripts have had their time; or None where no browser runs."""
    try:
        ran = subprocess.run([*BROWSER, "--virtual-time-budget=20000", "--dump-dom", page.as_uri()], capture_output=True, timeout=300)
    except subprocess.TimeoutExpired:
        return None
    return ran.stdout.decode(errors="replace") if ran.returncode == 0 else None


def brightness(page, mode):
    """How bright the page's edge is as a browser shows it, from 0 to 1."""
    from matplotlib.image import imread

    picture = page.with_suffix(f".{mode}.png")
    words = [f"--blink-settings=preferredColorScheme={mode}", f"--screenshot={picture}"]
    subprocess.run([*BROWSER, *words, page.as_uri()], capture_output=True, timeout=120)
    return float(imread(picture)[5, 5, :3].mean())


def try_all() -> None:
    with own_folder() as folder:
        pages_are_written(folder)
