"""Opens the site that docs/site generates in chromium, without a screen.

A page of this test loads all pages of the site in frames that are 360 and 1,440 pixels wide. It
sends its results to a server in this module: links, possible targets of links, and elements that
are cut off. It doesn't follow links to other hosts.
"""
from __future__ import annotations

import functools
import http.server
import json
import pathlib
import queue
import shutil
import subprocess
import threading
import urllib.parse
from collections.abc import Iterator
from typing import Any

import harness
import pytest
from harness import TOP, Checks

PROBE = pathlib.Path(__file__).parent / "site" / "probe.html"
# How many seconds chromium has for all pages.
SECONDS = 300
pytestmark = pytest.mark.chromium


class Handler(http.server.SimpleHTTPRequestHandler):
    """Serves the files of a site, and receives the results that the page of the test sends."""

    def __init__(self, *args: Any, sent: queue.Queue[bytes], **how: Any) -> None:
        self.sent = sent
        super().__init__(*args, **how)

    def do_POST(self) -> None:
        self.sent.put(self.rfile.read(int(self.headers["Content-Length"])))
        self.send_response(204)
        self.end_headers()

    def log_message(self, *_: Any) -> None:
        """Prints nothing."""


def looked_at(site: pathlib.Path, profile: pathlib.Path) -> dict[str, Any]:
    """Returns the results of the test's page in chromium for all pages of a site."""
    sent: queue.Queue[bytes] = queue.Queue()
    server = http.server.ThreadingHTTPServer(
        ("127.0.0.1", 0), functools.partial(Handler, directory=str(site), sent=sent)
    )
    threading.Thread(target=server.serve_forever, daemon=True).start()
    words = [
        "chromium",
        "--headless",
        "--no-sandbox",
        "--disable-gpu",
        f"--user-data-dir={profile}",
        "--remote-debugging-port=0",
    ]
    with open(profile / "said", "wb") as said:
        browser = subprocess.Popen(
            [*words, f"http://127.0.0.1:{server.server_port}/probe.html"], stdout=said, stderr=said
        )
    try:
        found: dict[str, Any] = json.loads(sent.get(timeout=SECONDS))
    finally:
        browser.terminate()
        browser.wait()
        server.shutdown()
    return found


@pytest.fixture(scope="module")
def seen() -> Iterator[dict[str, Any]]:
    """Returns the results for the pages of the site, and the folder of the site."""
    with harness.new_folder() as folder:
        site, profile = folder / "site", folder / "profile"
        profile.mkdir()
        status, out, err = harness.run([TOP / "docs" / "site", site], timeout=SECONDS)
        assert status == 0, (out + err).decode()
        shutil.copy(PROBE, site)
        pages = sorted(
            str(path.relative_to(site))
            for path in site.rglob("*.html")
            if path.name not in ("probe.html", "search.html")
        )
        (site / "pages.json").write_text(json.dumps({"pages": pages, "search": "reset"}))
        yield {**looked_at(site, profile), "asked": pages, "site": site}


def test_links(checks: Checks, seen: dict[str, Any]) -> None:
    """Each link of the site leads to an existing page and an existing place on it."""
    names = {page["path"]: set(page["names"]) for page in seen["pages"]}
    checks.wants("the pages that were loaded", set(seen["asked"]), set(names))
    for page in seen["pages"]:
        for link in map(urllib.parse.urlsplit, page["links"]):
            path, place = urllib.parse.unquote(link.path).lstrip("/"), urllib.parse.unquote(
                link.fragment
            )
            if link.hostname == "127.0.0.1":
                is_there = (seen["site"] / path).is_file() or (
                    seen["site"] / path / "index.html"
                ).is_file()
                checks.check(is_there, f"{page['path']}: no such page: {path}")
                checks.check(
                    not place or place in names.get(path, {place}),
                    f"{page['path']}: no such place: {path}#{place}",
                )


def test_widths(checks: Checks, seen: dict[str, Any]) -> None:
    """No element is cut off in frames that are 360 and 1,440 pixels wide."""
    for page in seen["pages"]:
        checks.check(
            not page["isWide"] and not page["cut"],
            f"{page['path']} at {page['width']} pixels: {page['cut'][:3]}",
        )


def test_search(seen: dict[str, Any]) -> None:
    """If one searches for a word of the page about options, the search finds this page."""
    assert any("docs/reference/" in link for link in seen["results"]), seen["results"]
