"""Opening an address in the user's browser, so that no other user of the machine sees it.

The words of a command are seen by all, so the browser is given a file that this user alone can read, and that leads to
the address.
"""
from __future__ import annotations

import html
import json
import os
import sys
import webbrowser
from pathlib import Path

LEADS = """<!DOCTYPE html>
<html lang="en"><head><meta charset="utf-8"><title>ltm</title></head>
<body><a href="{href}">on to the live page</a><script>location.replace({address})</script></body></html>
"""


def has_window() -> bool:
    """Whether there is a screen on which a browser can be opened."""
    return sys.platform in ("darwin", "win32") or any(os.environ.get(name) for name in ("DISPLAY", "WAYLAND_DISPLAY"))


def leading_to(address: str, folder: str) -> Path:
    """A file in a folder, for this user alone, that leads to an address."""
    path = Path(folder, "live.html")
    text = LEADS.format(href=html.escape(address), address=json.dumps(address).replace("<", "\\u003c"))
    with open(os.open(path, os.O_WRONLY | os.O_CREAT | os.O_EXCL, 0o600), "w", encoding="utf-8") as file:
        file.write(text)
    return path


def open_browser(address: str, folder: str) -> bool:
    """Opens the address in the user's browser: whether one was found."""
    return has_window() and webbrowser.open(leading_to(address, folder).as_uri())
