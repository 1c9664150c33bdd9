#!/usr/bin/env python3
"""Tries the page in a browser, and takes pictures of it: page.py chromium|firefox [PICTURES]"""
import base64
import json
import re
import sys
import tempfile
import time
from pathlib import Path

import page_fields
from browser import IS_READY, PAGE, bare, start, without_webassembly
from sources import sum_of
from vectors import VECTORS, octets_of

ROOT = VECTORS.parent
NAME = sys.argv[1]
PICTURES = Path(sys.argv[2]) if len(sys.argv) > 2 else None
TAB, ENTER, HOME, END, DOWN, UP, RIGHT, LEFT = "\ue004", "\ue007", "\ue011", "\ue010", "\ue015", "\ue013", "\ue014", "\ue012"

EVERY = (ROOT / "examples/every-part.ber").read_bytes()
LONG_FORM = (ROOT / "examples/expired-long-form.ber").read_bytes()
MODULE = (ROOT / "examples/module.ber").read_bytes()
EXPIRED = bytes.fromhex("741f301d800102a10aa1031b0147a2031b0151a20ca00a80083230323430323239")
# An EXPIRED; one that ends after its version; one with a NULL where its version is due.
REFUSED = EXPIRED + bytes.fromhex("74053003800102740430020500")
# An EXPIRED with an extension, which profile 2 does not read: 11 elements are before it, and 9 lines are of it.
EXTENDED = bytes.fromhex("74343032800102a10aa1031b0147a2031b0151a20ca00a80083230323430323239bf31123010800101810100a2803080050000000000")
# An EXPIRED whose SEQUENCE is primitive, and one whose version has nine octets.
WRONG_FORM = bytes.fromhex("74021000")
LONG_NUMBER = bytes.fromhex("740d300b8009010000000000000000")
# The names and sizes of a check of the same example, one line a message.
CHECK = (ROOT / "examples/every-part.check").read_text(encoding="utf-8").splitlines()

failed = []


def vector(file, wanted):
    for group in json.loads((VECTORS / f"{file}.json").read_text(encoding="utf-8"))["groups"]:
        for it in group["vectors"]:
            if it["id"] == wanted:
                return octets_of(it)
    raise KeyError(wanted)


def element(tag, content):
    """An element with a length in four octets."""
    return bytes([tag, 0x83]) + len(content).to_bytes(3, "big") + content


def check(what, is_so):
    print("ok    " if is_so else "FAILED", what, flush=True)
    if not is_so:
        failed.append(what)


class Session:
    """The page in a browser, and what a test does with it."""

    def __init__(self, size=(1440, 900), fragment=""):
        self.browser = start(NAME, size, fragment)
        self.theme("light")

    def run(self, code, *words):
        return self.browser.execute_script(f"const {{ page }} = illcanonPage; {code}", *words)

    def wait(self, code, *words):
        result = self.browser.execute_async_script(
            f"const {{ page }} = illcanonPage, done = arguments[arguments.length - 1], words = arguments; (async () => {{ {code} }})().then((it) => done(it), (error) => done('failed: ' + error));",
            *words)
        assert not str(result).startswith("failed: "), result
        return result

    def drop(self, octets, name):
        """Drops a file on the page, and returns how many milliseconds it takes until it is read and drawn."""
        self.run("page.clear()")
        return self.wait("""const octets = Uint8Array.from(atob(words[0]), (it) => it.charCodeAt(0)), transfer = new DataTransfer();
            transfer.items.add(new File([octets], words[1]));
            const begin = performance.now();
            dispatchEvent(new DragEvent("drop", { dataTransfer: transfer }));
            await settled();
            return Math.round(performance.now() - begin);
            async function settled() {
              const { said, fault } = { said: document.getElementById("said"), fault: document.getElementById("fault") };
              said.textContent = "";
              while (!said.textContent.includes(" read of ") && fault.hidden) await new Promise((next) => setTimeout(next, 5));
              await new Promise((drawn) => requestAnimationFrame(() => setTimeout(drawn)));
            }""", base64.b64encode(octets).decode(), name)

    def paste(self, text):
        self.run("page.clear(); document.getElementById('text').value = arguments[0]; document.getElementById('read').click()", text)
        return self.wait("for (let i = 0; i < 400 && !page.messages.length && document.getElementById('fault').hidden; i++) await new Promise((next) => setTimeout(next, 5));"
                         "return page.messages.map((message) => message.size)")

    def text(self, selector):
        return self.run("return document.querySelector(arguments[0]).innerText", selector)

    def focus(self, identifier):
        self.run("document.getElementById(arguments[0]).focus()", identifier)

    def press(self, *keys):
        self.browser.press(keys)

    def theme(self, which):
        self.run("document.documentElement.dataset.theme = arguments[0]", which)

    def picture(self, name):
        if PICTURES:
            time.sleep(0.4)
            self.browser.save_screenshot(str(PICTURES / f"{NAME}-{name}.png"))

    def in_dark(self, name):
        self.theme("dark")
        self.picture(name)
        self.theme("light")

    def accessible(self):
        """What a screen reader gets of Chromium: the role, the name and the states of each thing."""
        nodes = self.browser.execute_cdp_cmd("Accessibility.getFullAXTree", {})["nodes"]
        states = [{p["name"]: p["value"].get("value") for p in it.get("properties", [])} for it in nodes]
        return [(it["role"]["value"], it.get("name", {}).get("value", ""), own) for it, own in zip(nodes, states) if not it["ignored"]]

    def active(self):
        return self.run("return document.getElementById('tree').getAttribute('aria-activedescendant')")

    def quit(self):
        self.browser.quit()


def try_start(page):
    page.picture("start")
    page.in_dark("start-dark")
    check("the start offers four examples", page.run("return document.querySelectorAll('#examples button').length") == 4)
    page.run("document.querySelectorAll('#examples button')[2].click()")
    page.wait("while (!page.messages.length) await new Promise((next) => setTimeout(next, 5)); await new Promise((next) => setTimeout(next, 100))")
    check("the example of the module profile is read in it", page.run("return page.messages.every((message) => !message.refusal) && document.getElementById('profile').value") == "module")
    page.picture("module")
    page.run("page.clear(); document.getElementById('profile').value = '2'")


def try_messages(page):
    print(f"      every-part.ber: {page.drop(EVERY, 'every-part.ber')} ms")
    check("every message of the example is read", page.run("return page.messages.length") == 24)
    check("the list says what they are", "24 messages in every-part.ber" in page.text("#summary") and "Not normal 2" in page.text(".filters"))
    said = page.run("return page.messages.map((it, i) => `message ${i + 1}: ${page.nameOf(it)}, ${it.size} octets, ` + (it.isNormal ? 'normal' : `not normal, normal form ${it.normalSize} octets`))")
    check("names, sizes and decisions are those of the example's list", said == CHECK)
    page.picture("every-part")
    page.in_dark("every-part-dark")
    page.run("document.querySelector('[data-filter=other]').click()")
    check("the filter lists what is not normal", page.run("return document.querySelectorAll('#list [role=option]').length") == 2)
    page.focus("list")
    page.press(DOWN)
    check("the arrow keys move in the list", page.run("return document.querySelector('#list [aria-selected=true]').id") != "m0")
    page.run("document.querySelector('[data-filter=all]').click()")


def try_elements(page):
    page.drop(LONG_FORM, "expired-long-form.ber")
    page.run("page.view.tree.select(7)")
    page.picture("element")
    check("each element's header is what the octets are", page.run("""const { elements, message } = page.view;
        for (let i = 0; i < elements.count; i++) elements.element(i).header.forEach((octet, at) => { if (octet !== message.octets[elements.offsets[i] + at]) throw i; });
        return elements.count""") == 11)
    page.focus("tree")
    page.press(HOME, DOWN, DOWN)
    check("the arrow keys move in the tree", page.active() == "e2")
    page.press(LEFT, LEFT, LEFT)
    check("an element is closed by keys", page.run("return document.querySelectorAll('#tree [role=treeitem]').length") == 2 and page.active() == "e0")
    page.press(RIGHT, END)
    check("it is opened by keys", page.active() == "e1")
    page.press(RIGHT, END)
    check("End goes to the last element", page.active() == "e10")
    page.press(ENTER, LEFT)
    check("Left goes to the element round it", page.active() == "e9")
    states = page.run("return [...document.querySelectorAll('#tree [role=treeitem]')].map((it) => [it.getAttribute('aria-level'), it.getAttribute('aria-posinset'), it.getAttribute('aria-setsize'), it.getAttribute('aria-expanded')])")
    check("the tree has levels and places", states[0] == ["1", "1", "1", "true"] and states[2] == ["3", "1", "3", None] and states[8] == ["3", "3", "3", "true"])
    for octet, wanted in (10, "transaction-id"), (26, "GeneralString"), (43, "date"), (0, "Expired"):
        page.run("""const line = document.querySelectorAll('#hex .v')[arguments[0] >> 4], range = document.createRange();
            const walk = document.createTreeWalker(line.querySelector('.digits'), NodeFilter.SHOW_TEXT);
            let column = (arguments[0] & 15) * 3 + ((arguments[0] & 15) > 7 ? 1 : 0), node = walk.nextNode();
            for (; column >= node.length; node = walk.nextNode()) column -= node.length;
            range.setStart(node, column); range.setEnd(node, column + 1);
            const at = range.getBoundingClientRect();
            line.dispatchEvent(new MouseEvent('click', { clientX: at.left + at.width / 2, clientY: at.top + at.height / 2, bubbles: true }));""", octet)
        check(f"a click on octet {octet} finds {wanted}", page.text("#detail .path b") == wanted)
    page.focus("hex")
    page.press(DOWN, DOWN, LEFT)
    check("the arrow keys move in the octets", page.text("#detail .path b") == "date-time-of-this-service")


def try_views(page):
    page.drop(LONG_FORM, "expired-long-form.ber")
    for tab in "text", "normal":
        page.run("document.getElementById(`tab-${arguments[0]}`).click()", tab)
        page.picture(f"tab-{tab}")
    check("the normal form is shown", page.run("return [...document.querySelectorAll('#normal .digits')].map((it) => it.textContent).join('').replace(/ /g, '')") == EXPIRED.hex())
    page.wait("await page.read(Uint8Array.from(words[0]), 'expired.der'); page.choose(0); document.getElementById('other').value = '2'; document.getElementById('tab-same').click()", list(EXPIRED))
    check("two spellings are the same", "same" in page.text("#verdict") and "different" not in page.text("#verdict"))
    page.picture("same")
    page.wait("await page.read(Uint8Array.from(atob(words[0]), (it) => it.charCodeAt(0)), 'every-part.ber'); page.choose(0); const it = document.getElementById('other'); it.value = '8'; it.dispatchEvent(new Event('input'))",
              base64.b64encode(EVERY).decode())
    check("two messages are different", "different" in page.text("#verdict"))
    page.picture("different")
    page.run("document.getElementById('tab-elements').click()")


def try_refusals(page):
    page.drop(REFUSED + LONG_FORM, "refused.ber")
    check("the work goes on after a refused message", page.run("return page.messages.map((it) => it.refusal ? it.refusal.cause : 'good').join()") == "good,Missing,UnexpectedTag,good")
    page.run("page.choose(2)")
    shown = page.text("#refused")
    for line in "Refused at offset 4: UnexpectedTag", "This tag is not expected here.", "Clause", "X.690, 8.9.2, 8.10.2, 8.13 and 8.14, with the types of ISO 10161-1", "[UNIVERSAL 5] NULL primitive: 05", "[0] protocol-version-num":
        check(f"the refusal says: {line}", line in shown)
    page.picture("refused")
    page.run("page.choose(1)")
    page.in_dark("refused-dark")
    for octets, name, cause in (bytes.fromhex("74ff"), "no-length.ber", "BadLength"), (b"%PDF-1.7 and so on", "paper.pdf", "UnexpectedTag"), (b"\0", "nul", "BadTag"):
        page.drop(octets, name)
        check(f"{name} is refused: {cause}", cause in page.text("#refused"))
    check("octets that are no message have no name", page.text("#title") == "Not a message")
    for octets, is_text in (b"Fr\xc3\xa4ulein\r\n", False), (b"hello, world!\r\n", True), (b"\x05\x00", False):
        page.drop(octets, "mail")
        lines = page.text("#refused").splitlines()
        check(f"no message begins with {octets}", page.text("#title") == "Not a message" and "No ILL message begins here." in lines and ("It looks like text." in lines) == is_text)
    try_rest(page)
    for octets, wanted in (WRONG_FORM, ["Clause", "X.690, 8.2.1, 8.3.1, 8.8.1, 8.9.1, 8.10.1, 8.14 and 8.19.1", "Found", "[UNIVERSAL 16] SEQUENCE primitive: 10", "Due here", "[UNIVERSAL 16] SEQUENCE constructed: 30"]), (LONG_NUMBER, ["Clause", "limit of illcanon"]):
        page.drop(octets, "wrong.ber")
        check(f"the refusal says: {', '.join(wanted)}", all(line in page.text("#refused") for line in wanted))
    page.drop(MODULE, "module.ber")
    check("a part that profile 2 leaves out is refused", "LeftOut" in page.text("#refused") and "The module profile reads this part." in page.text("#refused"))
    page.run("document.getElementById('read-module').click()")
    page.wait("for (let i = 0; i < 400 && page.messages.some((it) => it.refusal); i++) await new Promise((next) => setTimeout(next, 5))")
    check("the module profile reads it", page.run("return page.messages.every((it) => !it.refusal) && document.getElementById('refused').hidden"))
    page.run("page.clear(); document.getElementById('profile').value = '2'")


def try_rest(page):
    """The elements after the place of a refusal are in the tree, and marked as not judged in words."""
    page.drop(EXTENDED, "extended.ber")
    page.picture("refused-rest")
    page.in_dark("refused-rest-dark")
    items = page.run("return [...document.querySelectorAll('#tree [role=treeitem]')].map((it) => [Number(it.id.slice(1)), it.innerText.includes('not judged')])")
    check("all elements from the place on are marked as not judged, and no other is", items == [[i, i >= 11] for i in range(20)])
    between = page.run("return [document.getElementById('e10').nextElementSibling.innerText, document.getElementById('e11').previousElementSibling.innerText]")
    check("the place is between them", between[0] == between[1] and "✕ LeftOut Expired.expired-extensions" in between[0])
    check("the element at the place is selected, and its details say so", page.active() == "e11" and "Not judged" in page.text("#detail") and page.text("#detail .path b") == "expired-extensions")
    if NAME == "chromium":
        names = [name for role, name, _ in page.accessible() if role == "treeitem"]
        check("a screen reader says so of each", len(names) == 20 and [name.endswith("not judged") for name in names] == [i >= 11 for i in range(20)])
    page.focus("tree")
    page.press(UP)
    before = page.active()
    page.press(DOWN, DOWN, DOWN)
    check("the arrow keys pass the place", [before, page.active()] == ["e10", "e13"] and page.text("#detail .path") == "Expired › expired-extensions › [UNIVERSAL 16] SEQUENCE › [0]")
    page.press(END)
    check("End goes to the last element that is not judged", page.active() == "e19")
    page.run("document.getElementById('close-all').click()")
    lines = page.run("return [...document.querySelectorAll('#tree .v')].map((it) => it.innerText)")
    check("the place is seen where all is closed", len(lines) == 3 and "LeftOut" in lines[2])
    page.run("document.getElementById('open-all').click()")
    page.drop(bytes.fromhex("74ff") + EXPIRED, "no-length.ber")
    line = page.text("#tree [role=treeitem]").split()
    check("octets that begin no element are a line", page.text("#title") == "Expired" and line[:5] == ["0", "octets", "=", "74", "ff"] and line[-2:] == ["not", "judged"])


def try_texts(page):
    pem = f"-----BEGIN ILL-----\n{base64.encodebytes(EXPIRED).decode()}-----END ILL-----\n"
    forms = {
        "hexadecimal": EXPIRED.hex(), "hexadecimal with blanks": EXPIRED.hex(" ").upper(), "a table in C": ", ".join(f"0x{octet:02x}" for octet in EXPIRED),
        "base64": base64.b64encode(EXPIRED).decode(), "base64 of links": base64.urlsafe_b64encode(EXPIRED).decode().rstrip("="), "base64 between lines": pem,
    }
    for what, text in forms.items():
        check(f"{what} is read", page.paste(text) == [33])
    dump = "".join(f"{at:07} {EXPIRED[at : at + 16].hex(' ')}\n" for at in range(0, 33, 16))
    check("a hex dump is read", page.paste(f"{dump}{33:07}\n") == [33])
    page.drop(dump.encode(), "dump.txt")
    check("a file with a hex dump is read", page.run("return page.messages.map((it) => it.size)") == [33] and "hex dump" in page.text("#summary"))
    page.drop(b"From: a library\r\nSubject: ILL\r\n\r\n" + base64.encodebytes(EXPIRED), "mail.eml")
    check("an e-mail is refused in words", "mail.eml was not read to its end: it is an e-mail" in page.text("#fault"))
    for what, text, wanted in ("a dump without a line", dump.replace("0000016", "0000032"), "has the offset 0000032, after 16 octets"), ("an odd digit", "741", "odd in number"), ("another character", "74 zz!", "neither hexadecimal nor base64"), ("no text", "  ", "no octets"):
        page.paste(text)
        check(f"{what} is refused in words", wanted in page.text("#fault"))
    for what, octets in ("hexadecimal", EXPIRED.hex().encode()), ("base64", base64.encodebytes(EXPIRED)):
        page.drop(octets, "text.txt")
        check(f"a file of {what} is read", page.run("return page.messages.map((it) => it.size)") == [33] and what in page.text("#summary"))
    evil = b'<img src=x onerror=alert(1)>"\\</script>'
    body = bytes.fromhex("800102") + bytes([0xA1, 9 + len(evil), 0xA1, 2 + len(evil), 0x1B, len(evil)]) + evil + bytes.fromhex("a2031b0151a20ca00a80083230323430323239")
    body = bytes([0x30, len(body)]) + body
    page.drop(b"\x74" + bytes([len(body)]) + body, "<img src=x onerror=alert(2)>.ber")
    check("markup in a value and in a name is text", page.run("return !document.querySelector('img') && page.messages.length === 1") and "<img src=x" in page.text("#tree"))
    page.picture("markup")
    octets = body.replace(b"img ", b"\xe2\x80\xae\x07")
    page.run("document.getElementById('profile').value = 'module'")
    page.drop(b"\x74" + bytes([len(octets)]) + octets, "escapes.ber")
    check("control characters are written as escapes", page.run("return !page.messages[0].refusal && /\\\\xe2\\\\x80\\\\xae\\\\x07/.test(document.getElementById('tree').innerText)"))
    page.run("page.clear(); document.getElementById('profile').value = '2'")


def try_large(page):
    for name in "limit-message", "limit-many-items", "limit-many-empty-items", "limit-many-segments":
        octets = vector("limits", name)
        taken = page.drop(octets, f"{name}.ber")
        count, last, nodes = page.wait("""const begin = performance.now(), { count } = page.view.elements;
            page.view.tree.select(count - 1);
            await new Promise((drawn) => requestAnimationFrame(() => setTimeout(drawn)));
            return [count, Math.round(performance.now() - begin), document.querySelectorAll('*').length]""")
        print(f"      {name}: {len(octets):,} octets, {count:,} elements, {taken} ms to read and draw, {last} ms to the last element, {nodes} nodes")
        check(f"{name} is drawn with few nodes", nodes < 2500 and page.active() == f"e{count - 1}")
        if name == "limit-many-empty-items":
            page.picture("many-elements")
    try_large_refused(page)
    page.drop(vector("limits", "limit-many-segments"), "limit-many-segments.ber")
    for tab in "text", "normal":
        taken = page.wait("const begin = performance.now(); document.getElementById(`tab-${words[0]}`).click(); await new Promise((drawn) => requestAnimationFrame(() => setTimeout(drawn))); return Math.round(performance.now() - begin)", tab)
        print(f"      its view {tab}: {taken} ms")
    page.run("document.getElementById('tab-elements').click()")
    print(f"      100,000 messages: {page.drop(EXPIRED * 100000, '100000.ber')} ms")
    check("100,000 messages are read", page.run("return page.messages.length") == 100000)
    page.picture("100000")
    try_turns(page)
    try_files(page)


def try_large_refused(page):
    """A message of 1 MB with 524,286 elements after the place, and one in whose text of 1 MB an escape sequence begins."""
    octets = element(0x74, b"\x05\x00" * 524285 + b"\x05")
    taken = page.drop(octets, "refused.ber")
    count, nodes = page.wait("""page.view.tree.select(page.view.elements.count - 1);
        await new Promise((drawn) => requestAnimationFrame(() => setTimeout(drawn)));
        return [page.view.elements.count, document.querySelectorAll('*').length]""")
    print(f"      refused at 5: {len(octets):,} octets, {count:,} elements, {taken} ms to read and draw, {nodes} nodes")
    check("1 MB that is not judged is drawn with few nodes", count == 524287 and nodes < 2500 and page.active() == "e524286")
    check("its last line is an octet", page.text("#detail .path b") == "octets" and "1 octet" in page.text("#detail"))
    text = element(0x74, element(0x30, b"\x80\x01\x02" + element(0xA1, element(0xA1, element(0x1B, b"A" * 1000000 + b"\x1b")))))
    taken = page.drop(text, "escape.ber")
    said = page.text("#refused")
    print(f"      refused in a text: {len(text):,} octets, {taken} ms to read and draw")
    check("what was found is cut short", "BadText" in said and "… cut here" in said and len(said) < 2000 and "The module profile reads escape sequences." in said)


def try_turns(page):
    """Files that are dropped at once are read one after another, also where the profile is changed meanwhile, and not once the page is cleared."""
    drops = """page.clear();
        const [unit, count, then] = words, octets = new Uint8Array(unit.length * count);
        for (let at = 0; at < octets.length; at += unit.length) octets.set(unit, at);
        for (const name of ['one', 'two', 'three']) {
          const transfer = new DataTransfer();
          transfer.items.add(new File([octets], name));
          dispatchEvent(new DragEvent('drop', { dataTransfer: transfer }));
        }
        while (page.messages.length === 0) await new Promise((next) => setTimeout(next, 1));
        if (then === 'profile') await page.setProfile('module');
        if (then === 'clear') page.clear();
        for (let i = 0; i < 200 && page.messages.length < 3 * count; i++) await new Promise((next) => setTimeout(next, then === 'clear' ? 3 : 50));
        await page.turn;
        return page.messages.map((message) => message.file).filter((file, at, all) => at === 0 || file !== all[at - 1]).concat(page.messages.length)"""
    names = {then: page.wait(drops, list(EXPIRED), 30000, then) for then in ("wait", "profile", "clear")}
    for then in "wait", "profile":
        check(f"three files at once are read in turn ({then}) {names[then]}", sorted(map(str, names[then])) == ["90000", "one", "three", "two"])
    check("a cleared page reads nothing more", names["clear"] == [0])
    page.run("page.clear(); document.getElementById('profile').value = '2'")


def try_files(page):
    """Files that the page makes itself: of 256 MiB and an octet, of 256 MiB of zeros, of large refused messages, and of too many messages."""
    drop = """page.clear();
        const [size, step, unit] = words, octets = new Uint8Array(size), transfer = new DataTransfer(), begin = performance.now();
        for (let at = 0; unit && at + step <= size; at += step) octets.set(unit, at);
        transfer.items.add(new File([octets], 'large.ber'));
        dispatchEvent(new DragEvent('drop', { dataTransfer: transfer }));
        const { said, fault } = { said: document.getElementById('said'), fault: document.getElementById('fault') };
        said.textContent = '';
        while (!said.textContent.includes(' read of ') && fault.hidden) await new Promise((next) => setTimeout(next, 20));
        return [page.messages.length, fault.textContent, Math.round(performance.now() - begin)]"""
    count, fault, _ = page.wait(drop, 268435457, 0, None)
    check("a file of 256 MiB and an octet is refused in words", count == 0 and "more than 256 MiB" in fault)
    count, fault, taken = page.wait(drop, 268435456, 0, None)
    check(f"a file of 256 MiB of zeros is read: {taken} ms", (count, fault) == (1, "") and "BadTag" in page.text("#refused") and "not judged" in page.text("#tree"))
    count, fault, taken = page.wait(drop, 268435456, 1048576, list(bytes.fromhex("74830ffffb")))
    check(f"a file of 256 refused messages of 1 MiB is read: {taken} ms", (count, fault) == (256, ""))
    count, fault, taken = page.wait(drop, 33 * 1000001, 33, list(EXPIRED))
    check(f"of 1,000,001 messages all but one are read: {taken} ms", count == 1000000 and "only the first 1,000,000 messages are read" in fault)
    page.run("page.clear()")


def try_faults(page):
    page.drop(REFUSED + LONG_FORM, "refused.ber")
    page.run("""const { calls } = page, dump = calls.dump, huge = new Uint8Array(900000000);
        huge.set([0x74, 0x84, 0x35, 0xa4, 0xe8, 0xfa]);
        calls.dump = () => calls.messages(huge).next();
        page.choose(3);
        calls.dump = dump""")
    check("memory that runs out is said", "memory of the reader ran out" in page.text("#fault"))
    page.run("page.choose(0)")
    check("and the work goes on", page.run("return document.getElementById('fault').hidden") and page.text("#title") == "Expired")


def try_file_names(page):
    """Letters of names that are not seen are shown by their octets, wherever a name is."""
    hidden = "\u202e\u034f\U000e0100"
    shown = "$'a\\342\\200\\256\\315\\217\\363\\240\\204\\200b.ber'"
    in_page = "return [...arguments[0]].filter((letter) => document.documentElement.outerHTML.includes(letter))"
    for octets, end in (LONG_FORM, ""), (LONG_FORM.hex().encode(), " (hexadecimal)"):
        page.drop(octets, f"a{hidden}b.ber")
        check(f"a name is shown by its octets{end}", page.text("#summary") == f"1 message in {shown}{end}")
        check("no hidden letter is in the page", page.run(in_page, hidden) == [])
    page.drop(b"", f"a{hidden}b.ber")
    check("so is the name of a file that is not read", page.text("#fault") == f"{shown} is empty.")
    check("no hidden letter is in the words", page.run(in_page, hidden) == [])
    page.paste("74\u202e")
    check("nor in those of a text", "“$'\\342\\200\\256'” comes after 2 digits" in page.text("#fault") and page.run(in_page.replace("outerHTML", "innerText"), hidden) == [])
    page.run("page.clear()")


def follow(page, octets, answer):
    """Goes to a link where the answer to each question is known; returns how many questions there were, and the names of what is loaded."""
    return page.wait("""const [link, answer] = words, asked = [], own = window.confirm;
        window.confirm = (text) => { asked.push(text); return answer; };
        location.hash = link;
        await new Promise((next) => setTimeout(next, 200));
        await page.turn;
        window.confirm = own;
        return [asked.length, page.inputs.map(({ name }) => name), page.messages.map(({ size }) => size)]""",
        octets if isinstance(octets, str) else f"octets={base64.urlsafe_b64encode(octets).decode().rstrip('=')}", answer)


def try_links_that_replace(page):
    page.run("page.clear()")
    check("a link is read at once where nothing is loaded", follow(page, EXPIRED, False) == [0, ["the link"], [33]])
    check("what is loaded stays where that is the answer", follow(page, LONG_FORM, False) == [1, ["the link"], [33]])
    page.drop(LONG_FORM, "expired-long-form.ber")
    check("so does a file", follow(page, EXPIRED, False) == [1, ["expired-long-form.ber"], [44]])
    check("a bad link asks nothing", follow(page, "octets=!", True) == [0, ["expired-long-form.ber"], [44]])
    check("an address without octets asks nothing", follow(page, "list", True) == [0, ["expired-long-form.ber"], [44]])
    check("the link is read where that is the answer", follow(page, REFUSED[:33] * 2, True) == [1, ["the link"], [33, 33]])
    page.run("page.clear()")


def try_links(page):
    page.drop(LONG_FORM, "expired-long-form.ber")
    link = page.wait("let copied = ''; navigator.clipboard && (navigator.clipboard.writeText = async (text) => { copied = text; }); document.getElementById('copy-link').click();"
                     "for (let i = 0; i < 100 && !copied; i++) await new Promise((next) => setTimeout(next, 5)); return copied")
    check("a link carries the message after its #", link.split("#")[-1] == f"octets={base64.urlsafe_b64encode(LONG_FORM).decode().rstrip('=')}")
    other = Session(fragment=f"#profile=module&octets={base64.urlsafe_b64encode(MODULE[:200]).decode().rstrip('=')}")
    check("a link is read", other.run("return [page.messages[0].octets[0], document.getElementById('profile').value]") == [MODULE[0], "module"])
    other.run("location.hash = 'octets=!'")
    other.wait("await new Promise((next) => setTimeout(next, 200))")
    check("a bad link is refused in words", "The link was not read" in other.text("#fault"))
    other.quit()
    page.drop(vector("limits", "limit-message"), "large.ber")
    check("a large message has no link", page.run("return document.getElementById('copy-link').disabled"))
    try_links_that_replace(page)


def try_controls(page):
    """Each control that is seen has a name, and is reached by Tab, or by arrow keys in its list of tabs."""
    page.drop(REFUSED + LONG_FORM, "refused.ber")
    page.run("page.choose(1); document.getElementById('paste').click(); document.activeElement.blur()")
    wanted = page.run("""return [...document.querySelectorAll('button, select, input, textarea, summary, [tabindex="0"]')]
        .filter((it) => it.checkVisibility() && !it.disabled && it.tabIndex >= 0).map((it, i) => { it.dataset.control = i; return i; })""")
    try_names(page)
    unnamed = page.run("""const nameOf = (it) => it.getAttribute('aria-label') || (it.labels && it.labels.length && it.labels[0].innerText) || it.textContent.trim();
        return [...document.querySelectorAll('[data-control]')].filter((it) => !nameOf(it)).map((it) => it.outerHTML)""")
    check(f"each of {len(wanted)} controls has a name {unnamed or ''}", not unnamed)
    page.run("document.querySelector('.skip').focus()")
    reached = set()
    for _ in range(len(wanted) + 5):
        page.press(TAB)
        reached.add(page.run("return document.activeElement.dataset.control || ''"))
    missed = [page.run("return document.querySelector(`[data-control='${arguments[0]}']`).outerHTML.slice(0, 120)", i) for i in wanted if str(i) not in reached]
    check(f"each is reached by Tab {missed or ''}", not missed)
    page.focus("tab-elements")
    page.run("page.choose(3)")
    page.press(RIGHT, RIGHT)
    check("arrow keys move between the views", page.run("return document.activeElement.id") == "tab-text" and "message 4 Expired" in page.text("#lines"))
    page.press(HOME)


def try_names(page):
    """What a screen reader gets of Chromium: a name for each control, and the places of the elements in their tree."""
    if NAME != "chromium":
        return
    seen = page.accessible()
    unnamed = [role for role, name, states in seen if states.get("focusable") and not name and role not in ("RootWebArea", "main")]
    check(f"a screen reader gets a name for each control {unnamed or ''}", len(seen) > 50 and not unnamed)
    items = [(name, states.get("level")) for role, name, states in seen if role == "treeitem"]
    check("and the levels of the elements", [level for _, level in items] == [1, 2, 3] and items[2][0].endswith("protocol-version-num = 2"))


def try_printing(page):
    page.drop(EVERY, "every-part.ber")
    lines = "return [document.querySelectorAll('#tree [role=treeitem]').length, page.view.elements.count, document.querySelectorAll('#hex .v').length, Math.ceil(page.messages[0].size / page.view.hex.perLine)]"
    before = page.run(lines)
    page.run("dispatchEvent(new Event('beforeprint'))")
    printed = page.run(lines)
    check("all lines are printed, and before that those in sight", before[0] < before[1] and printed[0] == printed[1] and printed[2] == printed[3])
    if NAME == "chromium":
        page.browser.execute_cdp_cmd("Emulation.setEmulatedMedia", {"media": "print"})
        page.picture("print")
        check("the bar and the list are not printed", page.run("return !document.querySelector('.tools').checkVisibility() && !document.querySelector('.side').checkVisibility()"))
        paper = base64.b64decode(page.browser.execute_cdp_cmd("Page.printToPDF", {})["data"])
        check("more than a page is printed", paper.count(b"/Type /Page\n") + paper.count(b"/Type /Page/") > 1 or paper.count(b"/Type/Page") > 2)
        page.browser.execute_cdp_cmd("Emulation.setEmulatedMedia", {"media": ""})
    page.run("dispatchEvent(new Event('afterprint'))")
    check("after it those in sight are drawn", page.run(lines)[0] == before[0])


def try_policy(page):
    blocked = page.wait("""const seen = []; addEventListener("securitypolicyviolation", (event) => seen.push(event.effectiveDirective));
        try { await fetch("http://127.0.0.1:9/"); } catch {}
        await new Promise((done) => setTimeout(done, 200));
        return [seen, performance.getEntriesByType("resource").map((it) => it.name).filter((it) => !it.startsWith("http://127.0.0.1:9/"))];""")
    check("the page can't send, and loaded nothing", blocked == [["connect-src"], []])
    if NAME == "chromium":
        severe = [it for it in page.browser.get_log("browser") if it["level"] == "SEVERE" and "127.0.0.1:9" not in it["message"]]
        check(f"no error was logged {severe or ''}", not severe)


def try_narrow():
    page = Session((420, 860))
    page.picture("narrow-start")
    for octets, name in (LONG_FORM, "narrow"), (EXTENDED, "narrow-refused"):
        page.drop(octets, "message.ber")
        page.run("page.choose(page.messages.length - 1)")
        check(f"nothing is wider than a narrow window ({name})", page.run("return document.documentElement.scrollWidth <= innerWidth"))
        page.picture(name)
    check("octets are in lines of eight", page.run("return document.querySelector('#hex .digits').textContent.trim().split(/ +/).length") <= 8)
    page.run("document.getElementById('hex').scrollIntoView()")
    page.picture("narrow-octets")
    page.quit()
    page = Session((1000, 800))
    page.drop(EXTENDED, "message.ber")
    tree, detail, octets = page.run("return ['tree', 'detail', 'hex'].map((id) => document.getElementById(id).getBoundingClientRect()).map((it) => [it.left, it.top, it.right, it.bottom])")
    check("each part is in a middle window, the elements above the others", tree[3] <= detail[1] and detail[2] <= octets[0] and octets[2] <= 1000 and tree[3] - tree[1] > 120)
    page.picture("middle")
    page.quit()


def try_widths():
    """Names and values are in sight in windows of each width; in narrow ones, where lines are drawn aside, they are in the lines."""
    for size in (390, 844), (768, 1024), (1024, 768), (1181, 800), (1280, 800), (1366, 768), (1440, 900), (1920, 1080):
        page = Session(size)
        page.drop(EVERY, "every-part.ber")
        cut, seen = page.run("""const tree = document.getElementById("tree"), end = tree.getBoundingClientRect().right, aside = innerWidth <= 900 ? tree.scrollWidth - tree.clientWidth : 0;
            const parts = [...tree.querySelectorAll(".v .name, .v .value")];
            return [parts.filter((it) => it.getBoundingClientRect().right > end + aside + 1).map((it) => it.textContent), parts.length]""")
        check(f"{seen} names and values are in sight at {size[0]} by {size[1]} {cut or ''}", seen > 10 and not cut)
        top = page.run("return document.getElementById('tree').getBoundingClientRect().top")
        check(f"the elements begin in the upper part of the screen: {round(top)} of {size[1]}", top < 0.75 * size[1])
        page.quit()


def try_others(page):
    """Texts that are pasted have names of their own, and the message to compare with is chosen from a list."""
    page.paste(EXPIRED.hex())
    page.run("document.getElementById('read').click()")
    names = page.wait("while (page.messages.length < 2) await new Promise((next) => setTimeout(next, 5)); return page.messages.map((message) => message.file)")
    check("two pasted texts have two names", names == ["pasted", "pasted 2"])
    page.drop(EVERY, "every-part.ber")
    offered, chosen, said = page.run("""page.choose(0);
        document.getElementById('tab-same').click();
        const others = document.getElementById('others');
        others.value = '5';
        others.dispatchEvent(new Event('change'));
        return [[...others.options].map((it) => it.textContent), document.getElementById('other').value, document.getElementById('other-name').textContent]""")
    wanted = [re.sub(r"^message (\d+): (.*? octets).*", r"\1: \2, every-part.ber", line) for line in CHECK]
    check("the list to compare with has every message", offered == wanted)
    check("the one that is chosen is compared", chosen == "5" and said.endswith("message 5 of every-part.ber"))
    page.run("document.getElementById('tab-elements').click(); page.clear()")


def try_many_files(page):
    """The first message of many files is shown, once, and the keys go to it; an empty one among them is named."""
    count, fault, shown, taken = page.wait("""page.clear();
        const octets = Uint8Array.from(atob(words[0]), (it) => it.charCodeAt(0)), transfer = new DataTransfer(), show = page.view.show, begin = performance.now();
        for (let i = 0; i < 226; i++) transfer.items.add(new File([octets], `${i}.ber`));
        transfer.items.add(new File([], "none.ber"));
        let shown = 0;
        page.view.show = function (message) { shown++; show.call(this, message); };
        dispatchEvent(new DragEvent('drop', { dataTransfer: transfer }));
        const fault = document.getElementById('fault');
        while (fault.hidden) await new Promise((next) => setTimeout(next, 5));
        page.view.show = show;
        return [page.messages.length, fault.textContent, shown, Math.round(performance.now() - begin)]""", base64.b64encode(EVERY).decode())
    check(f"226 files are read: {taken} ms", count == 226 * 24 and shown == 1 and taken < 2000 and fault == "none.ber is empty.")
    check("the first of them is shown, and has the keys", page.run("return [page.current, document.activeElement.id]") == [0, "main"])
    page.run("page.clear()")


def try_fields(page):
    page_fields.try_all(page, check, vector)


def try_narrow_fields():
    page = Session((390, 844))
    page_fields.try_width(page_fields.Form(page), check, NAME == "chromium")
    page.quit()


def try_without_webassembly():
    """A browser that can't run the module says so."""
    browser = without_webassembly(NAME)
    browser.get(PAGE.as_uri())
    ready = browser.execute_async_script(IS_READY)
    said = browser.execute_script("return document.getElementById('fault').innerText")
    check(f"a browser without WebAssembly says so: {said}", ready is None and "can’t run the reader, which needs WebAssembly" in said)
    if PICTURES:
        browser.save_screenshot(str(PICTURES / f"{NAME}-without-webassembly.png"))
    browser.quit()


def try_old_browser():
    """A browser that doesn't know the script's language says so: here one that the browser doesn't know is in its place."""
    text = PAGE.read_text(encoding="utf-8")
    script, other = re.search(r'<script type="module">(.*?)</script>', text, re.S)[1], "a newer language"
    with tempfile.TemporaryDirectory() as folder:
        old = Path(folder, "old.html")
        old.write_text(text.replace(script, other).replace(sum_of(script), sum_of(other)), encoding="utf-8")
        browser = bare(NAME)
        browser.get(old.as_uri())
        said = browser.execute_script("return document.getElementById('fault').innerText")
        browser.quit()
    check(f"a browser that doesn't know the language says so: {said}", "too old for the page" in said)


def main():
    page = Session()
    for part in (try_start, try_messages, try_elements, try_views, try_refusals, try_texts, try_file_names, try_others, try_many_files, try_fields, try_controls, try_links, try_faults, try_printing, try_large, try_policy):
        part(page)
    page.quit()
    try_narrow()
    try_narrow_fields()
    try_widths()
    try_without_webassembly()
    try_old_browser()
    print(f"{len(failed)} failed")
    return bool(failed)


if __name__ == "__main__":
    sys.exit(main())
