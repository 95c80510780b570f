"""Pages that packets_cli writes by `report`: nothing in them is loaded from elsewhere or run, whatever the names of files, and their
numbers are those of `summary` and `flows --json` (tools/page_numbers)."""

import glob
import html.parser
import os
import shutil
import subprocess
import sys
import tempfile

NUMBERS = os.path.join(os.path.dirname(os.path.dirname(os.path.abspath(__file__))), "page_numbers")
NAMES = ("<script>alert(1)<script>.pcap", "\"><img src=x onerror=alert(1)>.pcap", "'&lt;b&#39;.pcap", "--><svg onload=alert(1)>.pcap", "<title><b>.pcap")
VOID = {"meta", "rect", "path"}
ALLOWED = {"html", "head", "title", "style", "body", "main", "section", "footer", "h1", "h2", "h3", "p", "em", "dl", "div", "dt", "dd", "table", "thead", "tbody"}
ALLOWED |= {"tr", "th", "td", "svg", "defs", "pattern", "details", "summary", "span", "code"} | VOID


class Tags(html.parser.HTMLParser):
    """What is wrong with the tags of a page, and its texts."""

    def __init__(self, text):
        super().__init__()
        self.wrong, self.open, self.texts = [], [], []
        self.feed(text)

    def handle_starttag(self, tag, attributes):
        if tag not in ALLOWED or any(name.startswith("on") or name in ("src", "href", "xlink:href") for name, _ in attributes):
            self.wrong.append(tag)
        if tag not in VOID:
            self.open.append(tag)

    def handle_startendtag(self, tag, attributes):
        self.handle_starttag(tag, attributes)
        if tag not in VOID:
            self.open.pop()

    def handle_endtag(self, tag):
        if not self.open or self.open.pop() != tag:
            self.wrong.append(f"/{tag}")

    def handle_data(self, data):
        self.texts.append(data)


def page(program, path):
    return subprocess.run([program, "report", path], capture_output=True, encoding="utf-8", timeout=60, check=False)


def checked(program, folder):
    """The name of each check, and whether all was well."""
    with tempfile.TemporaryDirectory() as place:
        for name in NAMES:
            path = os.path.join(place, name)
            shutil.copy(os.path.join(folder, "page.pcap"), path)
            done = page(program, path)
            tags = Tags(done.stdout)
            headed = f"Packets: {path}" in tags.texts
            yield f"a page of {name}", (done.returncode, done.stderr, tags.wrong, tags.open, headed) == (0, "", [], [], True)
            loads = [it for it in ("http:", "https:", "@import", "url(") if it in done.stdout.replace("url(#hatched)", "").replace(path, "")]
            yield f"which loads nothing: {name}", loads == []
    captures = sorted(glob.glob(os.path.join(folder, "*.pcap*")))
    done = subprocess.run([sys.executable, NUMBERS, program, *captures], capture_output=True, encoding="utf-8", timeout=600, check=False)
    if done.returncode:
        print(done.stdout)
    yield "numbers of pages", done.returncode == 0
