#!/usr/bin/env python3
"""Puts the page together as one file, build/illcanon.html, of page/, illcanon.js with json.js, build/illcanon.wasm and examples/. Writes
build/SHA256SUMS.

The scripts are one script there: what each exports is a name of the whole, so names differ, and the lines of `import` go. The policy of the
page allows that script, that style and the module alone: nothing can be loaded or sent.
"""
import base64
import hashlib
import re
import sys
from pathlib import Path

HERE = Path(__file__).resolve().parent
PAGE, BUILD, EXAMPLES = HERE / "page", HERE / "build", HERE.parents[1] / "examples"

SHOWN = [
    ("every-part.ber", "2", "24 messages, each part at least once"),
    ("expired-long-form.ber", "2", "lengths that are longer than needed"),
    ("module.ber", "module", "extensions and EXTERNAL values"),
    ("refused", "2", "a good message, and two that are refused"),
]
# An EXPIRED; one that ends after its version; and one with a NULL where its version is due.
REFUSED = "741f301d800102a10aa1031b0147a2031b0151a20ca00a8008323032343032323974053003800102740430020500"
IMPORT = re.compile(r'^import \{ ([\w$, ]+) \} from "(\.{1,2}/[\w/]+\.js)";\n', re.M)


def scripts(path, seen):
    """The files that a script imports, each after those that it imports, and itself."""
    if path in seen:
        return []
    seen.append(path)
    text = path.read_text(encoding="utf-8")
    below = [it for _, name in IMPORT.findall(text) for it in scripts((path.parent / name).resolve(), seen)]
    return below + [path]


def joined(paths):
    """The scripts as one. It stops at a name that two of them declare."""
    parts, names = [], set()
    for path in paths:
        text = re.sub(r"^export (?=(async )?(function|class|const)\b)", "", IMPORT.sub("", path.read_text(encoding="utf-8")), flags=re.M)
        if re.search(r"^(import|export)\b", text, re.M):
            sys.exit(f"build_page.py: {path.name} imports or exports in another form")
        own = set(re.findall(r"^(?:async )?(?:function\*?|class) ([\w$]+)", text, re.M))
        for line in re.findall(r"^(?:const|let) (.*)$", text, re.M):
            own.update(re.findall(r"(?:^|, )([A-Za-z_$][\w$]*) =(?![=>])", line))
        if own & names:
            sys.exit(f"build_page.py: {path.name} declares again {', '.join(sorted(own & names))}")
        names |= own
        parts.append(text)
    return "".join(parts)


def examples():
    lines = []
    for name, profile, words in SHOWN:
        octets = bytes.fromhex(REFUSED) if name == "refused" else (EXAMPLES / name).read_bytes()
        encoded = base64.b64encode(octets).decode()
        lines.append(f'  {{ name: "{name}", profile: "{profile}", words: "{words}", octets: "{encoded}" }},\n')
    return f"const EXAMPLES = [\n{''.join(lines)}];\n"


def sum_of(text):
    return "'sha256-" + base64.b64encode(hashlib.sha256(text.encode()).digest()).decode() + "'"


def page(module, proof):
    script = f'const MODULE = "{base64.b64encode(module).decode()}";\n{examples()}{joined(scripts(PAGE / "page.js", []))}'
    style, old = (PAGE / "page.css").read_text(encoding="utf-8"), (PAGE / "old.js").read_text(encoding="utf-8")
    policy = (
        f"default-src 'none'; script-src {sum_of(script)} {sum_of(old)} 'wasm-unsafe-eval'; style-src {sum_of(style)}; "
        "connect-src 'none'; form-action 'none'; base-uri 'none'"
    )
    build = f"Module: {len(module):,} octets, SHA-256 {hashlib.sha256(module).hexdigest()}. The prover’s line: {proof}"
    text = (PAGE / "page.html").read_text(encoding="utf-8")
    for name, value in {"policy": policy, "style": style, "build": build, "old": old, "script": script}.items():
        if text.count(f"@{name}@") != 1:
            sys.exit(f"build_page.py: page.html has @{name}@ not once")
        text = text.replace(f"@{name}@", value)
    return text


def main():
    module = (BUILD / "illcanon.wasm").read_bytes()
    text = page(module, (BUILD / "proof.txt").read_text().strip()).encode()
    (BUILD / "illcanon.html").write_bytes(text)
    sums = [f"{hashlib.sha256(octets).hexdigest()}  {name}\n" for name, octets in (("illcanon.html", text), ("illcanon.wasm", module))]
    (BUILD / "SHA256SUMS").write_text("".join(sums))
    print(f"{sums[0].rstrip()}, {len(text):,} octets")


if __name__ == "__main__":
    main()
