"""What `tools/documents` finds: a small set of documents over the real builders, sound, and with a fault at a time."""
import os
import shutil
import tempfile

import browser
import set_up
from tally import TOP, Tally

documents = set_up.module_of(os.path.join(TOP, "tools", "documents"))
TALLY = Tally("documents")
# A document that is not there: in two parts, since the tool reads this file too.
NONE = os.path.join("docs", "SETTING.md")
GUIDE, HEAD, TESTS, CLAUSES = documents.DROPPED
ASSUMED, CRATES = documents.ASSUMED, {"crates.txt": "# name: libraries\none may_wait=1: two log\ntwo: log\nexamples: one anyhow\n",
                                     os.path.join("tools", "promises.txt"): "A promise\n    one::Type step\n"}
ASSUMPTIONS = f"# Proofs\n\n{documents.BEGIN} Its checker, and `log` (`two`).\n- **Owner.** It is right.\n"
COMMENTED = os.path.join("crates", documents.PLAIN[0], "src", "lib.rt")
DATA, PICTURE = os.path.join("tests", "pages", "night.json"), os.path.join(documents.PICTURES, "night.png")
REPORT, STATUS = (os.path.join("crates", "pool_reports", "src", it) for it in ("text.rt", "status.rt"))
SOURCES = [documents.BUILDER, documents.OF_TASKS[1], documents.TUNING, *TESTS, *CLAUSES, REPORT, STATUS, documents.SCHEMA]
DROPPED = (f"# Guide\n\n| {HEAD} |\n|---|---|---|\n| a drain | a closed pool | `drop_drain.book`, `drop_drain.line`, `a_drain` |\n"
           "| a pool | nothing | `a_drain` |\n| a query | a broken one | `poll_exchange.pending`, `try_cancelled` |\n")
CRATE_README = os.path.join("crates", "one", "README.md"), "# One\nA crate of the pool.\n"
README = "# A pool\nSee [settings](docs/SETTINGS.md#names-elsewhere), `no [link](NONE.md)`.\n```sh\n# no heading\n```\n"


def put(top, path, text, encoding="utf-8"):
    os.makedirs(os.path.dirname(os.path.join(top, path)), exist_ok=True)
    with open(os.path.join(top, path), "w", encoding=encoding) as file:
        file.write(text)


# The tests of the settings that have one, in the words of a document.
NUMBER, LENGTH = "`count > 0`", "`!length.is_zero()`"
CHECKED = {"max_size": NUMBER, "thread_pool": NUMBER, "connection_timeout": LENGTH, "max_waiting": f"None, or {NUMBER}", "fair_queue": f"None, or {NUMBER}",
           "max_retry_delay": f"None, or {LENGTH}", "max_lifetime": f"None, or {LENGTH}", "idle_timeout": f"None, or {LENGTH}",
           "min_idle": "`builder.limits().is_some()`: at most `max_size`"}


def settings(top):
    """A row for each setting, as the builders have them."""
    names = [name for name, _, _ in documents.wanted_rows(top)]
    rows = "".join(f"| `{name}` | {default} | {pools} | it | ever | {CHECKED.get(name, '')} |\n" for name, pools, default in documents.wanted_rows(top))
    elsewhere = "\n## Names elsewhere\n\n| Setting | HikariCP |\n|---|---|\n| `max_size` | `maximumPoolSize` |\n"
    none = f"{documents.NO_NAMES}{', '.join(f'`{it}`' for it in names if it != 'max_size')}.\n\n"
    return "# Settings\n\n| Setting | Default | Pools | Does | When | Test |\n|---|---|---|---|---|---|\n" + rows + elsewhere + none


def made(top):
    """A sound set. Its words, and beside them those of the README of a crate."""
    for path in SOURCES:
        os.makedirs(os.path.dirname(os.path.join(top, path)), exist_ok=True)
        shutil.copy(os.path.join(TOP, path), os.path.join(top, path))
    # (it names a document that is not in this set)
    put(top, REPORT, documents.read(TOP, REPORT).replace("docs/JOURNAL.md", "the schema"))
    put(top, documents.README, README)
    put(top, *CRATE_README)
    put(top, documents.SETTINGS, settings(top))
    put(top, GUIDE, DROPPED)
    put(top, ASSUMED, ASSUMPTIONS)
    for path, text in CRATES.items():
        put(top, path, text)
    put(top, COMMENTED, "/// What it is.\npub fn told() {}\n")
    put(top, DATA, "{}\n")
    put(top, PICTURE, browser.png(1, b"", b"", "{}\n").decode("latin-1"), "latin-1")
    put(top, os.path.join("crates", "one", "out", "left.md"), "[what checks keep](NONE.md)\n")
    return len((README + settings(top) + DROPPED + ASSUMPTIONS).split()), len(CRATE_README[1].split())


def finds(what, path, old, new, wanted):
    """The fault that is found, and no other, once a passage of a file is another."""
    with tempfile.TemporaryDirectory(prefix="documents-") as top:
        made(top)
        text = documents.read(top, path)
        TALLY.check(f"{what}: what is changed", text.count(old) == 1, (path, old))
        put(top, path, text.replace(old, new))
        faults, _ = documents.checked(top)
        TALLY.check(what, faults == wanted, faults)


def try_the_schema():
    fields = "max_size, min_idle, max_lifetime, idle_timeout, connection_timeout, reap_every, order"
    wanted = f"{documents.SCHEMA}: LimitsText has the fields {fields}, and of these it needs {fields}"
    finds("a field that no report has", documents.SCHEMA, '"reap_every": {', '"reaps_every": {', [wanted])
    finds("a field that need not be there", documents.SCHEMA, '"reap_every", "order"]', '"order"]', [wanted])
    finds("a field that is new", REPORT, "    pub(crate) order: OrderText,\n", "    pub(crate) order: OrderText,\n    pub(crate) room: u64,\n",
          [wanted.replace("order", "order, room")])


def try_a_sound_set():
    with tempfile.TemporaryDirectory(prefix="documents-") as top:
        words, of_crate = made(top)
        both = words + of_crate
        faults, seen = documents.checked(top, both, words)
        looked_at = f"{words:,} words, {both:,} with READMEs of crates and folders"
        wanted = f"5 documents of {looked_at}, {len(list(documents.wanted_rows(top)))} settings, 1 links"
        TALLY.check("a sound set", faults == [] and seen == wanted, (faults, seen))
        faults, _ = documents.checked(top, both - 1, words)
        TALLY.check("a word too many", faults == [f"all Markdown files together have {both:,} words, more than {both - 1:,}"], faults)
        faults, _ = documents.checked(top, both, words - 1)
        wanted = [f"the documents without READMEs of crates and folders have {words:,} words, more than {words - 1:,}"]
        TALLY.check("a word too many beside the READMEs of crates", faults == wanted, faults)


def try_settings():
    path = documents.SETTINGS
    row, other = "| `thread_pool` | 3 | threads |", "| `max_waiting` | None; tasks: 1,000 | both |"
    line = f"{row} it | ever | {NUMBER} |\n"
    finds("a row that is missing", path, line, "", [f"{path}: no row of `thread_pool`"])
    finds("a row too many", path, line, line + "| `threads` | 3 | threads |\n", [f"{path}: no builder has `threads`"])
    finds("another default", path, row, row.replace("3", "30"), [f"{path}: the default of `thread_pool` is 3, and its row says 30"])
    finds("a default of one pool alone", path, other, other.replace("; tasks: 1,000", ""),
          [f"{path}: the default of `max_waiting` is None; tasks: 1,000, and its row says None"])
    finds("the other pool", path, row, row.replace("threads", "both"), [f"{path}: `thread_pool` is a setting of threads, and its row says both"])
    finds("what a default means", path, row, row.replace("3", "3: workers"), [])
    named = "it says {} times which names `max_size` has elsewhere, or that it has none"
    finds("a name elsewhere of no setting", path, "| `max_size` | `maximumPoolSize` |", "| `size` | `maximumPoolSize` |",
          [f"{path}: {named.format(0)}", f"{path}: no builder has `size`, which is said to have other names, or none"])
    finds("a setting with and without a name", path, documents.NO_NAMES, f"{documents.NO_NAMES}`max_size`, ", [f"{path}: {named.format(2)}"])


def try_tests_of_values():
    builder, path = documents.BUILDER, documents.SETTINGS
    said = "{}: the test of `{}` is not that of what it requires: {}"
    size, idle, jitter = f"it | ever | {CHECKED['max_size']} |", f"it | ever | {CHECKED['min_idle']} |", "| `lifetime_jitter` | None | both | it | ever |  |"
    rows = {"max_size": f"| `max_size` | 10 | both | {size}", "min_idle": f"| `min_idle` | None | both | {idle}"}
    finds("a test that is missing", path, rows["max_size"], rows["max_size"].replace(NUMBER, ""), [said.format(path, "max_size", "none")])
    finds("a test of another kind", path, rows["max_size"], rows["max_size"].replace(NUMBER, LENGTH), [said.format(path, "max_size", LENGTH)])
    finds("a test that nothing asks for", path, jitter, jitter.replace("ever |  |", f"ever | {LENGTH} |"), [said.format(path, "lifetime_jitter", LENGTH)])
    finds("a test of another bound", path, rows["min_idle"], rows["min_idle"].replace("`max_size`", "`size`"),
          [said.format(path, "min_idle", "`builder.limits().is_some()`: at most `size`")])
    finds("a precondition that went", builder, "        requires { 0 < workers }\n", "", [said.format(path, "thread_pool", NUMBER)])
    finds("a precondition of another kind", builder, "        requires { 0 < workers }", "        requires { ForSome workers (λ n. 0 < n) }",
          [said.format(path, "thread_pool", NUMBER)])


def try_builders():
    builder, path = documents.BUILDER, documents.SETTINGS
    finds("a default that the code changed", builder, "            max_size: 10,", "            max_size: 12,",
          [f"{path}: the default of `max_size` is 12, and its row says 10"])
    finds("a setter that became public", builder, "    pub(crate) fn reaper_rate(", "    pub fn reaper_rate(",
          [f"{path}: it says 0 times which names `reaper_rate` has elsewhere, or that it has none", f"{path}: no row of `reaper_rate`"])
    finds("a setter of another name", builder, "    pub fn lending_order(", "    pub fn order(",
          [f"{path}: it says 0 times which names `order` has elsewhere, or that it has none", f"{path}: no builder has `lending_order`",
           f"{path}: no builder has `lending_order`, which is said to have other names, or none", f"{path}: no row of `order`"])
    finds("a setter that tasks have too", builder, "It has no effect on a pool for tasks", "It is asked",
          [f"{path}: `thread_pool` is a setting of both, and its row says threads"])
    finds("a default of tasks that the code changed", documents.OF_TASKS[1], "PLACES: u32 = 1000;", "PLACES: u32 = 100;",
          [f"{path}: the default of `max_waiting` is None; tasks: 100, and its row says None; tasks: 1,000"])
    field = "            evict_idle_on_failed_check: "
    finds("a default beside the others", documents.TUNING, f"{field}false,", f"{field}true,",
          [f"{path}: the default of `evict_idle_on_failed_check` is on, and its row says off"])
    finds("a default of whether there is a value", documents.TUNING, "            in_line: false,", "            in_line: true,",
          [f"{path}: the default of `fair_queue` is on, and its row says None"])


def try_tests():
    none = f"{GUIDE}: {' and '.join(TESTS)} have no test"
    finds("a test that is not there", GUIDE, "nothing | `a_drain`", "nothing | `the_drain`", [f"{none} `the_drain`"])
    finds("a test of another name", TESTS[0], "fn a_drain(", "fn a_drain_that_is_dropped(", [f"{none} `a_drain`"] * 2)
    finds("a try of another name", TESTS[1], "def try_cancelled(", "def try_it(", [f"{none} `try_cancelled`"])
    for what, old, new in (("clause", "drop_drain.line", "drop_drain.lines"), ("function", "drop_drain.line", "drain.line")):
        finds(f"a {what} that is not there", GUIDE, f"`{old}`", f"`{new}`", [f"{GUIDE}: no function has a clause `{new}`, or not each"])
    finds("a clause of one adapter alone", CLAUSES[2], "ensures pending {", "ensures is {", [f"{GUIDE}: no function has a clause `poll_exchange.pending`, or not each"])


def try_assumptions():
    finds("a crate that is not assumed", ASSUMED, "`log`", "logs", [f"{ASSUMED}: promises stand on the toolchain's log, which is not assumed"])
    finds("a crate of a program that carries no promise", ASSUMED, "`log`", "`log`, `anyhow`", [f"{ASSUMED}: no promise stands on the toolchain's anyhow"])
    finds("a crate that a lower one comes to need", "crates.txt", "two: log\n", "two: log itoa\n",
          [f"{ASSUMED}: promises stand on the toolchain's itoa, which is not assumed"])


def try_words():
    finds("a word that readers do not expect", "README.md", "See [settings]", "It is told in [settings]", ["README.md: write says, reports, gets for 'told'"])
    finds("two words over a line's end", "README.md", "See [settings]", "In\nvain see [settings]", ["README.md: write timed out for 'In vain'"])
    finds("the same in code", "README.md", "See [settings]", "See `told`, [settings]", [])
    finds("a doc comment", COMMENTED, "/// What", "/// Since the making:\n/// what", [f"{COMMENTED}: write the creation for 'the making'"])
    finds("a comment for contributors", COMMENTED, "/// What", "// Since the making\n/// What", [])


def try_pictures():
    finds("a picture of other data", DATA, "{}", "[]", [f"{PICTURE}: it shows other data than tests/pages has: tools/pages takes it anew"])


def try_links():
    for what, old, new, fault in [
        ("a file", "SETTINGS.md#", "SETTING.md#", f"README.md: the link {NONE}#names-elsewhere leads nowhere"),
        ("a heading", "#names-elsewhere", "#names", "README.md: the link docs/SETTINGS.md#names leads nowhere"),
        ("a heading in code", "docs/SETTINGS.md#names-elsewhere", "#no-heading", "README.md: the link #no-heading leads nowhere"),
    ]:
        missing = [f"README.md: there is no {NONE}"] if what == "a file" else []
        finds(f"a link to {what} that is not there", "README.md", old, new, [fault, *missing])
    finds("a link to a heading of its own", "README.md", "docs/SETTINGS.md#names-elsewhere", "#a-pool", [])
    finds("a link to elsewhere", "README.md", "docs/SETTINGS.md#names-elsewhere", "https://example.org/none", [])
    finds("a name of a document that is not there", documents.TUNING, "// The settings that r2d2 has not", f"// {NONE}",
          [f"{documents.TUNING}: there is no {NONE}"])


def tried():
    try_a_sound_set()
    try_the_schema()
    try_settings()
    try_tests_of_values()
    try_builders()
    try_tests()
    try_assumptions()
    try_words()
    try_pictures()
    try_links()
    return TALLY
