#!/usr/bin/env python3
"""Looks for what the page's sources are not to have, and at the built page: its policy has the sums of its scripts and its style alone. And the
version of the package is that of the header for C."""
import base64
import hashlib
import json
import re
import sys
from pathlib import Path

WEB = Path(__file__).resolve().parents[1]
SCRIPTS = [WEB / "illcanon.js", WEB / "json.js", *sorted((WEB / "page").glob("*.js"))]
FORBIDDEN = [
    (r"\b(innerHTML|outerHTML|insertAdjacentHTML|document\.write|createContextualFragment|DOMParser)\b", "text that is read as markup"),
    (r"\beval\(|new Function\(|setTimeout\(\s*[\"']", "text that is run"),
    (r"\b(XMLHttpRequest|WebSocket|EventSource|sendBeacon|RTCPeerConnection|importScripts)\b", "a way to send"),
    (r"\blocalStorage|sessionStorage|indexedDB|document\.cookie", "a place to keep"),
]
LONGEST_FUNCTION = 40


def functions(text):
    """Each function or method that begins a block of its own, with its first line and its number of lines."""
    lines = text.splitlines()
    for at, line in enumerate(lines):
        opening = re.match(r"( *)(?:export )?(?:async )?(?:\*|static |get |set )?(?:function\*? )?#?[\w$]+\([^=]*\) \{$", line)
        if opening and not re.match(r" *(if|for|while|switch|catch)\b", line):
            end = next(i for i in range(at + 1, len(lines)) if lines[i].startswith(opening[1] + "}"))
            yield line.strip(), end - at + 1


def faults_of_sources():
    for path in SCRIPTS:
        text = path.read_text(encoding="utf-8")
        for pattern, what in FORBIDDEN:
            for found in re.finditer(pattern, text):
                yield f"{path.name}: {found[0]}: {what}"
        if "fetch(" in text and path.name != "illcanon.js":
            yield f"{path.name}: fetch"
        for name, count in functions(text):
            if count > LONGEST_FUNCTION:
                yield f"{path.name}: {count} lines: {name}"
    page = (WEB / "page/page.html").read_text(encoding="utf-8")
    for found in re.finditer(r"<[^>]*\s(?:style|on\w+|src|href)=\"(?!#)[^>]*>", page):
        yield f"page.html: {found[0][:80]}"


def faults_of_version():
    found = json.loads((WEB / "package.json").read_text(encoding="utf-8"))["version"]
    wanted = re.search(r'ILLCANON_VERSION "([^"]+)"', (WEB.parent / "c/illcanon.h").read_text(encoding="utf-8"))[1]
    if found != wanted:
        yield f"package.json: the version {found}, and the header has {wanted}"


def sum_of(text):
    return "'sha256-" + base64.b64encode(hashlib.sha256(text.encode()).digest()).decode() + "'"


def faults_of_page():
    page = (WEB / "build/illcanon.html").read_text(encoding="utf-8")
    parts = [re.findall(rf"<{tag}[^>]*>(.*?)</{tag}>", page, re.S) for tag in ("script", "style")]
    if [len(part) for part in parts] != [2, 1]:
        yield "the page has another number of scripts or styles"
    policy = re.search(r'Content-Security-Policy" content="([^"]*)"', page)[1]
    if sorted(re.findall(r"'sha256-[^']*'", policy)) != sorted(sum_of(text) for part in parts for text in part):
        yield "the sums of the policy are not those of the scripts and the style"
    rest = re.sub(r"'sha256-[^']*' ?", "", policy).split("; ")
    wanted = ["default-src 'none'", "script-src 'wasm-unsafe-eval'", "style-src", "connect-src 'none'", "form-action 'none'", "base-uri 'none'"]
    if [part.strip() for part in rest] != wanted:
        yield f"the policy says {rest}"
    module = (WEB / "build/illcanon.wasm").read_bytes()
    if base64.b64encode(module).decode() not in page or hashlib.sha256(module).hexdigest() not in page:
        yield "the page has another module, or doesn't say its sum"


def main():
    faults = [*faults_of_sources(), *faults_of_version(), *faults_of_page()]
    print("\n".join([*faults, f"{len(SCRIPTS)} scripts and the page: {len(faults)} faults"]))
    return bool(faults)


if __name__ == "__main__":
    sys.exit(main())
