"""Tries the tab Fields of the page. What is expected is made by the model in tests/model, or by hand, and not by the page's code."""
import json
import re
import sys

from vectors import VECTORS

ROOT = VECTORS.parent
sys.path.insert(0, str(ROOT / "tests"))
from model.builder import Builder

TABLES = json.loads((ROOT / "tests/model/tables.json").read_text(encoding="utf-8"))
EXAMPLES = {name: (ROOT / f"examples/{name}").read_bytes() for name in ("every-part.ber", "every-part.der", "expired-long-form.ber", "module.ber", "module.der")}
EXPIRED = bytes.fromhex("741f301d800102a10aa1031b0147a2031b0151a20ca00a80083230323430323239")
EXTERNALS = bytes.fromhex("".join((ROOT / "bindings/tests/externals.hex").read_text(encoding="utf-8").split()))
TAB = "\ue004"

# Each field in sight: its section, the groups round it, its label, what it shows, and whether it can be changed.
FIELDS = """return [...document.querySelectorAll('#fields .field')].map((field) => {
    const control = field.querySelector('input, select, textarea'), groups = [];
    for (let it = field.closest('fieldset'); it; it = it.parentElement.closest('fieldset')) groups.unshift(it.querySelector('legend span').textContent);
    const shown = control.tagName === 'SELECT' ? control.selectedOptions[0].textContent : control.value;
    return [field.closest('section').querySelector('h3').textContent, ...groups, control.labels[0].textContent, shown, !control.readOnly];
});"""
# Finds a field by the labels of its groups and its own, whose last words are given.
FIND = """const find = (words) => [...document.querySelectorAll('#fields .field')].find((field) => {
    const labels = [field.querySelector('label').textContent];
    for (let it = field.closest('fieldset'); it; it = it.parentElement.closest('fieldset')) labels.unshift(it.querySelector('legend span').textContent);
    return words.every((word, at) => word === labels[labels.length - words.length + at]);
});"""
# Presses the button and returns the name and the octets of the file that is offered.
DOWNLOAD = """const own = [URL.createObjectURL, HTMLAnchorElement.prototype.click], got = [];
    URL.createObjectURL = (blob) => { got.push(blob); return 'blob:none'; };
    HTMLAnchorElement.prototype.click = function () { got.push(this.download); };
    document.getElementById('save-made').click();
    [URL.createObjectURL, HTMLAnchorElement.prototype.click] = own;
    return got.length ? [got[1], [...new Uint8Array(await got[0].arrayBuffer())]] : null;"""


class Form:
    """The tab Fields of the page, and what a test does with it."""

    def __init__(self, page):
        self.page = page

    def open(self, octets, name, profile="2"):
        self.page.run("page.clear(); document.getElementById('profile').value = arguments[0]", profile)
        self.page.drop(octets, name)
        self.page.run("document.getElementById('tab-fields').click()")

    def choose(self, number):
        self.page.run("page.choose(arguments[0] - 1)", number)

    def fields(self):
        return [tuple(it) for it in self.page.run(FIELDS)]

    def change(self, *words, to):
        self.page.run(FIND + """const control = find(arguments[0]).querySelector('input, select, textarea');
            control.value = arguments[1]; control.dispatchEvent(new Event('change', { bubbles: true }))""", words, to)

    def remove(self, *words):
        self.page.run(FIND + "find(arguments[0]).querySelector('.removal').click()", words)

    def made(self):
        made = self.page.run("const { made } = page.view.fields; return made && [...made]")
        return made and bytes(made)

    def download(self):
        got = self.page.wait(DOWNLOAD)
        return got and (got[0], bytes(got[1]))

    def file(self):
        """The octets of the file that is offered, or None."""
        got = self.download()
        return got and got[1]

    def line(self):
        """The line of JSON of the message, as the program's call writes it."""
        return json.loads(self.page.run("return page.calls.json(page.view.message.octets, page.options)"))

    def lines_of_text(self):
        return self.page.run("return page.calls.show(page.view.message.octets, page.options)").splitlines()[1:]

    def refusals(self):
        """The labels of the fields and the groups that have a refusal beside them, and its words."""
        return [tuple(it) for it in self.page.run("""return [...document.querySelectorAll('#fields .refusal')].map((it) =>
            [(it.querySelector('label, legend span')).textContent, [...it.children].find((inner) => inner.className === 'field-said').textContent,
             (it.tagName === 'FIELDSET' ? it : it.querySelector('input, select, textarea')).getAttribute('aria-invalid')])""")]

    def differences(self):
        return [tuple(it) for it in self.page.run("return [...document.querySelectorAll('#made-differences tr')].slice(1).map((row) => [...row.children].map((it) => it.textContent))")]


def model(line, profile="2"):
    return Builder(TABLES, profile).line(json.dumps(line))


def set_at(line, *path, to):
    inner = line["value"]
    for step in path[:-1]:
        inner = inner[step]
    inner[path[-1]] = to


def is_refused_at(form, labels, cause):
    """Says whether a refusal is beside the field with a label, and no other, and no file is offered."""
    refusals = form.refusals()
    return len(refusals) == 1 and refusals[0][0] == labels and cause in refusals[0][1] and refusals[0][2] == "true" and form.download() is None and form.made() is None


def seen(text):
    """A value of the text of a message as the form shows it."""
    if found := re.fullmatch(r'(?:general|visible) "(.*)"', text):
        return found[1]
    if re.fullmatch(r"\d{8}", text):
        return f"{text[:4]}-{text[4:6]}-{text[6:]}"
    if re.fullmatch(r"\d{6}", text):
        return f"{text[:2]}:{text[2:4]}:{text[4:]}"
    return {"TRUE": "Yes", "FALSE": "No"}.get(text, plain_number(text.strip('"')))


def plain_number(text):
    """A number without its name, which stands before or after it."""
    return re.sub(r"^(\d+) \(.*\)$|^.* \((\d+)\)$", lambda found: found[1] or found[2], text)


def elements(octets):
    """The messages that octets in DER are, one after another."""
    while octets:
        size, at = octets[1], 2
        if size >= 0x80:
            at += size & 0x7F
            size = int.from_bytes(octets[2:at], "big")
        yield octets[: at + size]
        octets = octets[at + size :]


def try_shown(form, check):
    form.open(EXAMPLES["expired-long-form.ber"], "expired-long-form.ber")
    wanted = [("Who", "Transaction", "Transaction group", "G", True), ("Who", "Transaction", "Transaction number", "Q", True),
              ("Dates", "This service", "Date", "2024-02-29", True), ("More", "Protocol version", "2", True)]
    check("the fields of the example are in their order, with their labels", form.fields() == wanted)
    form.open(EXAMPLES["every-part.ber"], "every-part.ber")
    shown = form.fields()
    for it in (("Who", "Requester", "Symbol of person", "g11"), ("Who", "Responder", "Name of person", "g14"), ("Who", "Transaction", "Initial requester", "Name of person", "v3"),
               ("Who", "Client", "Name", "g58"), ("What", "Service type 1", "43 (no name)"), ("What", "Item", "Author", "g64"), ("What", "Item", "Title", "g65"),
               ("Dates", "This service", "Time", "08:08:56"), ("Dates", "Original service", "Date", "2024-10-10"), ("Dates", "Search", "Need before", "2024-03-23"),
               ("More", "Optional messages of the requester", "Can send Received", "Yes"), ("More", "Deliver to", "Postal address", "City", "g26")):
        check(f"a field: {' › '.join(it)}", shown.count((*it, True)) == 1)
    check("who, what, dates and more come in this order", list(dict.fromkeys(it[0] for it in shown)) == ["Who", "What", "Dates", "More"])
    summary = form.page.text("#fields-summary")
    check(f"one line says who asks whom for what: {summary}", summary == "ILL-Request · requester “g11” · responder “g13” · service type 43 (no name) · title “g65”")
    lost = []
    for number in range(1, 25):
        form.choose(number)
        values = sorted(seen(line.split(" = ", 1)[1]) for line in form.lines_of_text())
        if sorted(plain_number(it[-2]) for it in form.fields()) != values:
            lost.append(number)
    check(f"each leaf of each of 24 messages has a field {lost or ''}", not lost)
    form.page.picture("fields")
    form.page.in_dark("fields-dark")


def try_names(form, check):
    """Numbers are shown and chosen by their names."""
    line = {"apdu": "ILL-Answer", "value": {**form.line()["value"], "transaction-results": 3, "results-explanation": {"unfilled-results": {"reason-unfilled": 1}}}}
    for name in [it for it in line["value"] if it not in ("protocol-version-num", "transaction-id", "service-date-time", "requester-id", "responder-id", "transaction-results", "results-explanation")]:
        del line["value"][name]
    form.open(model(line), "answer.ber")
    shown = form.fields()
    check("a result and a reason are shown by their names", ("Results", "Result", "Unfilled (3)", True) in shown and ("Results", "Unfilled", "Reason", "In use on loan (1)", True) in shown)
    form.change("Unfilled", "Reason", to="3")
    set_at(line, "results-explanation", "unfilled-results", "reason-unfilled", to=3)
    check("a reason is chosen by its name", ("Results", "Unfilled", "Reason", "Lost (3)", True) in form.fields() and form.made() == model(line))
    form.page.picture("fields-answer")
    here = {"location-id": {"person-or-institution-symbol": {"institution-symbol": {"general": "L"}}}}
    set_at(line, "results-explanation", to={"locations-results": {"reason-locs-provided": 7, "location-list": [here, here]}})
    form.open(model(line), "locations.ber")
    remove = "[...document.querySelectorAll('#fields legend .removal')].forEach((it) => it.click())"
    form.page.run(remove)
    check("a list that has to be there is missed in the group that it was in", form.refusals()[:1] == [("Locations provided", "This has to be there. (MissingMember at /value/results-explanation/locations-results/location-list)", None)] and form.download() is None)
    form.page.run(remove)
    check("its items are put back", form.refusals() == [] and form.made() == model(line))


def try_changes(form, check):
    form.open(EXAMPLES["every-part.ber"], "every-part.ber")
    line, same = form.line(), form.page.text("#made-verdict")
    wanted = ("every-part-1-changed.der", EXAMPLES["every-part.der"][:701])
    check("what is not changed is downloaded as its normal form", form.download() == wanted and "the same as" in same)
    form.change("Item", "Title", to="Études, “1”")
    check("a character that no message has is refused beside its field", is_refused_at(form, "Title", "BadCharacter"))
    form.change("Item", "Title", to="Études 1")
    set_at(line, "item-id", "title", "general", to="Études 1")
    check("a text is changed: the file has the octets of the model", form.file() == model(line))
    check("and the field that differs is shown", form.differences() == [("item-id.title", 'general "g65"', 'general "\\xc9tudes 1"')])
    form.change("Search", "Need before", to="2027-01-31")
    form.change("Optional messages of the requester", "Can send Received", to="no")
    form.change("Protocol version", to="-9223372036854775808")
    for path, value in ((("search-type", "need-before-date"), "20270131"), (("requester-optional-messages", "can-send-received"), False), (("protocol-version-num",), -(2**63))):
        set_at(line, *path, to=value)
    check("a date, a flag and a number of 64 bits are changed", form.file() == model(line) and len(form.differences()) == 4)
    marked = form.page.run("return [...document.querySelectorAll('#fields .changed label')].map((it) => it.textContent)")
    check("the form says how many changes there are, and where", form.page.text("#fields-said").startswith("4 changes.") and marked == ["Title", "Need before", "Protocol version", "Can send Received"])
    form.choose(2)
    other = form.made()
    form.choose(1)
    check("changes stay where another message is shown meanwhile", other == EXAMPLES["every-part.der"][701:1099] and form.made() == model(line) and form.page.text("#fields-said").startswith("4 changes."))
    form.page.picture("fields-changed")
    form.page.run("document.getElementById('undo-fields').click()")
    check("changes are undone", form.made() == EXAMPLES["every-part.der"][:701] and form.page.run("return document.getElementById('undo-fields').disabled && !document.querySelector('#fields .changed')"))


def try_refused(form, check):
    form.open(EXAMPLES["expired-long-form.ber"], "expired-long-form.ber")
    form.change("This service", "Date", to="2023-02-29")
    check("a refused date has its refusal beside it, and no file", is_refused_at(form, "Date", "BadDate") and "no day that exists" in form.refusals()[0][1])
    check("and the top of the form says so", "because of “Date”" in form.page.text("#fields-said") and form.page.run("return document.getElementById('save-made').disabled"))
    form.page.run("document.getElementById('go-refused').click()")
    check("a button leads to it", form.page.run("return document.activeElement.labels[0].textContent") == "Date")
    form.page.picture("fields-refused")
    form.page.in_dark("fields-refused-dark")
    form.change("This service", "Date", to="20240301")
    check("a date that is good is taken", form.file() == EXPIRED.replace(b"20240229", b"20240301") and form.refusals() == [])
    form.change("Protocol version", to="two")
    check("a word is no number", is_refused_at(form, "Protocol version", "WrongType") and "no whole number" in form.refusals()[0][1])
    form.change("Protocol version", to="1")
    check("a number is taken", form.file() == EXPIRED.replace(b"\x80\x01\x02", b"\x80\x01\x01").replace(b"20240229", b"20240301"))
    form.open(EXAMPLES["every-part.ber"], "every-part.ber")
    form.choose(7)
    line = form.line()
    form.remove("Service type")
    check("a part that has to be there is missed where it was", is_refused_at(form, "Service type", "MissingMember"))
    form.page.run("document.getElementById('go-refused').click()")
    check("and a button leads to what puts it back", form.page.run("return document.activeElement.getAttribute('aria-label')") == "Put back Service type")
    form.remove("Service type")
    check("it is put back", form.refusals() == [] and form.made() == model(line))
    form.remove("Requester", "Symbol of person")
    del line["value"]["requester-id"]["person-or-institution-symbol"]
    form.remove("Requester note")
    del line["value"]["requester-note"]
    check("parts are removed, and a choice with what is in it", form.file() == model(line))
    form.page.run("page.calls.build = () => { const it = new Error(); throw Object.assign(it, { name: 'NotBuilt', cause: 'NormalTooLong', pointer: '', path: [] }); }")
    form.change("Requester", "Name of person", to="x")
    check("a refusal that names no field is at the top", form.refusals() == [] and "NormalTooLong" in form.page.text("#fields-said") and form.download() is None)
    form.page.run("delete page.calls.build")


def try_kept(form, check):
    """What is not changed is kept octet for octet."""
    for name, wanted, profile, most in (("every-part.ber", "every-part.der", "2", 24), ("every-part.ber", "every-part.der", "module", 22), ("module.ber", "module.der", "module", 20)):
        form.open(EXAMPLES[name], name, profile)
        made, said = form.page.run("""const all = [], said = new Set();
            page.messages.forEach((message, at) => {
              if (message.refusal) return;
              page.choose(at);
              all.push([at, [...page.view.fields.made || []]]);
              said.add(document.getElementById('made-verdict').textContent);
            });
            return [all, [...said]]""")
        forms = list(elements(EXAMPLES[wanted]))
        check(f"each of {len(made)} messages of {name} is its normal form, profile {profile}", len(made) == most and all(bytes(octets) == forms[at] for at, octets in made) and said == ["The message that is made is the same as the one that was there."])
    form.open(EXTERNALS, "externals.der", "module")
    shown = form.fields()
    fixed = [it for it in shown if not it[-1]]
    check("EXTERNALs are shown, and can't be changed", [it[:3] + it[-2:-1] for it in fixed] == [
        ("What", "Description of the item 1", "Direct reference", "1.2.840.10003.5.10"), ("What", "Description of the item 1", "Indirect reference", "5"),
        ("What", "Description of the item 1", "Data value descriptor", "MARC"), ("What", "Description of the item 1", "Octets", "583132333435"),
        ("What", "Description of the item 2", "ASN.1 value", "300e0201051b03612262a00205003100"),
        ("What", "Description of the item 3", "Direct reference", "oid 69ffffffffffffffffff7f"), ("What", "Description of the item 3", "Bits", "f8 (5 bits)")])
    form.change("Date returned", to="2024-03-01")
    at = EXTERNALS.rindex(b"20240229")
    check("and are kept where another field is changed", form.file() == EXTERNALS[:at] + b"20240301")
    form.page.picture("fields-module")
    form.page.run("[...document.querySelectorAll('#fields legend .removal')][1].click()")
    begin, end = EXTERNALS.index(bytes.fromhex("2812a010")), EXTERNALS.index(bytes.fromhex("2811060b"))
    short = EXTERNALS[:begin] + EXTERNALS[end:at] + b"20240301"
    for place in (1, 3, EXTERNALS.index(b"\xb1\x43") + 1):
        short = short[:place] + bytes([short[place] - (end - begin)]) + short[place + 1 :]
    check("an item of a list is removed", form.file() == short)


def try_hidden(form, check):
    """A text with characters that no field shows can't be changed; one of several lines can."""
    octets = EXPIRED.replace(bytes.fromhex("1b0147"), bytes.fromhex("1b0407ad5c41")).replace(bytes.fromhex("a10aa103"), bytes.fromhex("a110a106")).replace(bytes.fromhex("1b0151"), bytes.fromhex("1b04410a2042")).replace(bytes.fromhex("a203"), bytes.fromhex("a206"))
    octets = octets[:1] + bytes([0x25, 0x30, 0x23]) + octets[4:]
    form.open(octets, "hidden.ber")
    shown = form.fields()
    check("characters that aren't seen are escapes, and lines are lines", shown[:2] == [("Who", "Transaction", "Transaction group", "\\x07\\xad\\A", False), ("Who", "Transaction", "Transaction number", "A\n B", True)])
    form.change("Transaction number", to="A\nB2")
    check("the text with lines is changed, and the other one is kept", form.file() == octets.replace(b"A\n B", b"A\nB2"))


def try_by_keys(form, check):
    """A field is changed by keys, and keeps the keys."""
    form.open(EXAMPLES["expired-long-form.ber"], "expired-long-form.ber")
    form.page.run(FIND + "const it = find(arguments[0]).querySelector('input'); it.focus(); it.select()", ["Transaction number"])
    form.page.press("R", "2", TAB)
    here = form.page.run("return (document.activeElement.labels || [{}])[0].textContent")
    check(f"keys change a field, and Tab goes to the next one: {here}", here == "Date" and form.made() == model({"apdu": "Expired", "value": {
        "protocol-version-num": 2, "transaction-id": {"transaction-group-qualifier": {"general": "G"}, "transaction-qualifier": {"general": "R2"}},
        "service-date-time": {"date-time-of-this-service": {"date": "20240229"}}}}))
    form.open(EXAMPLES["module.ber"], "module.ber", "module")
    unnamed = form.page.run("""return page.messages.flatMap((_, at) => {
        page.choose(at);
        const controls = [...document.querySelectorAll('#panel-fields input, #panel-fields select, #panel-fields textarea')];
        const buttons = [...document.querySelectorAll('#panel-fields button')], ids = [...document.querySelectorAll('[id]')].map((it) => it.id);
        return [...controls.filter((it) => it.labels.length !== 1 || !it.labels[0].textContent || !document.getElementById(it.getAttribute('aria-describedby'))),
          ...buttons.filter((it) => !it.textContent), ...controls.filter((it) => it.tabIndex < 0)].map((it) => it.outerHTML).concat(ids.length - new Set(ids).size || []);
    })""")
    check(f"each field has one label and its place for a refusal {unnamed or ''}", not unnamed)


def try_large(form, check, vector):
    for name in "limit-message", "limit-many-items", "limit-many-empty-items", "limit-many-segments":
        octets = vector("limits", name)
        form.open(octets, f"{name}.ber")
        taken, nodes, is_whole = form.page.wait("""const begin = performance.now(), { view } = page;
            view.fields.leave();
            view.open('fields');
            await new Promise((drawn) => requestAnimationFrame(() => setTimeout(drawn)));
            const taken = Math.round(performance.now() - begin), form = view.normalForm(), { made } = view.fields;
            return [taken, document.querySelectorAll('*').length, made.length === form.length && form.every((octet, at) => octet === made[at])]""")
        is_said = "Only the first 1,000 parts" in form.page.text("#fields")
        check(f"the first fields of {name} are shown in {taken} ms, with {nodes} nodes, and all others are kept", nodes < 12000 and taken < 15000 and is_whole and is_said == ("items" in name))


def try_width(form, check, is_chromium):
    """Nothing is wider than a window of 390 pixels."""
    if is_chromium:
        form.page.browser.execute_cdp_cmd("Emulation.setDeviceMetricsOverride", {"width": 390, "height": 844, "deviceScaleFactor": 1, "mobile": False})
    form.open(EXTERNALS, "externals.der", "module")
    form.change("Date returned", to="2023-02-29")
    width, inner, cut = form.page.run("""const end = document.documentElement.clientWidth;
        return [document.documentElement.scrollWidth, innerWidth, [...document.querySelectorAll('.tabs button, #panel-fields input, #panel-fields button, #panel-fields p')]
          .filter((it) => it.checkVisibility() && it.getBoundingClientRect().right > end).map((it) => it.outerHTML)]""")
    check(f"nothing is wider than {inner} pixels: {width} {cut or ''}", width <= inner and not cut)
    form.page.run("document.getElementById('panel-fields').scrollIntoView()")
    form.page.picture("fields-narrow")
    if is_chromium:
        form.page.browser.execute_cdp_cmd("Emulation.clearDeviceMetricsOverride", {})


def try_all(page, check, vector):
    form = Form(page)
    for part in (try_shown, try_names, try_changes, try_refused, try_kept, try_hidden, try_by_keys):
        part(form, check)
    try_large(form, check, vector)
    page.run("document.getElementById('tab-elements').click(); page.clear(); document.getElementById('profile').value = '2'")
