"""The page of metrics that an example prints, and the alerts and the dashboard over them, read by promtool of Debian's package
`prometheus`. Where that is not installed, nobody has read them."""
import json
import os
import re
import shutil
import subprocess
import tempfile

from programs import examples
from tally import TOP, Tally

KINDS = 19
# A name of OpenTelemetry's is odd to promtool, which keeps `_count` for histograms.
ODD = 'db_client_connection_count non-histogram and non-summary metrics should not have "_count" suffix'
FOLDER = os.path.join(TOP, "crates", "pool_metrics", "prometheus")
FILES = ALERTS, PLAYED, DASHBOARD = "alerts.yml", "alerts_test.yml", "dashboard.json"
# A metric or a label of the page; and a metric with its labels.
NAME = re.compile(r"\bdb_client_connection_\w+")
SERIES = re.compile(r"db_client_connection_\w+\{[^}]*\}")
# What Prometheus adds to what it reads, and what the page has of one pool alone.
ADDED, POOL = re.compile(r',instance="\w+"'), re.compile(r'(?<=pool_name=)"\w+"')
# A label in a legend of Grafana's; a variable, and those that Grafana has in each dashboard.
LABEL, VARIABLE, GRAFANAS = re.compile(r"\{\{(\w+)\}\}"), re.compile(r"\$\{?(\w+)"), ["__all", "__rate_interval"]
# What Grafana puts in place of a variable for which all was chosen, and of the range that a rate needs.
CHOSEN, RANGE = ".*", ("$__rate_interval", "5m")
# What a page has once an error came, of which the example has none: as a test of the printer has it.
LATEST = re.compile(r'^const LATEST: &str = "\s+(\w+) (\w+) (\S+): \\\s+(.*?)";', re.MULTILINE | re.DOTALL)


class Page:
    """What a page has: kinds of metrics, the series of each, and the names of these and of their labels."""

    def __init__(self, text):
        self.kinds = re.findall(r"^# TYPE (\w+)", text, re.MULTILINE)
        self.series = re.findall(r"^(\w+\{.*\}) ", text, re.MULTILINE)
        self.names = {name for it in self.series for name in NAME.findall(it)}

    def has_shown(self, kind, names):
        return not names.isdisjoint({kind, f"{kind}_bucket", f"{kind}_sum", f"{kind}_count"})


def read(name):
    with open(os.path.join(FOLDER, name), encoding="utf-8") as file:
        return file.read()


def of_an_error():
    """What a page has besides, once an error came."""
    with open(os.path.join(TOP, "tests", "metrics", "printing.rs"), encoding="utf-8") as file:
        kind, name, value, what = LATEST.search(file.read()).groups()
    name = f"db_client_connection_{name}"
    return f'# HELP {name} {what}\n# TYPE {name} {kind}\n{name}{{db_client_connection_pool_name="orders"}} {value}\n'


def refused(what, path):
    """What promtool says of rules, or of tests of them, that do not pass; nothing of those that do."""
    done = subprocess.run(["promtool", what, "rules", path], stdin=subprocess.DEVNULL, capture_output=True, text=True)
    return (done.stdout + done.stderr)[-3000:] if done.returncode else ""


def try_page(tally, text, page):
    tally.check("how many metrics there are", len(page.kinds) == KINDS, len(page.kinds))
    told = subprocess.run(["promtool", "check", "metrics"], input=text, capture_output=True, text=True)
    odd = [line for line in (told.stdout + told.stderr).splitlines() if line != ODD]
    tally.check("promtool takes the page", not odd, odd)


def try_names(tally, page):
    for name in FILES:
        unknown = set(NAME.findall(read(name))) - page.names
        tally.check(f"each name in {name} is on the page", not unknown, sorted(unknown))


def try_alerts(tally, page):
    """Each fires in a test, and no test plays what the page has not: one that misspells a label as its alert does would pass."""
    for what, name in [("check", ALERTS), ("test", PLAYED)]:
        said = refused(what, os.path.join(FOLDER, name))
        tally.check(f"promtool {what} rules {name}", not said, said)
    played = read(PLAYED)
    alerts, fired = set(re.findall(r"- alert: (\w+)", read(ALERTS))), set(re.findall(r'alertname="(\w+)"', played))
    tally.check("there are alerts, and each fires in a test", alerts and alerts == fired, sorted(alerts ^ fired))
    series = {POOL.sub('""', ADDED.sub("", "".join(it.split()))) for it in SERIES.findall(played)}
    unknown = series - {POOL.sub('""', it) for it in page.series}
    tally.check("the tests of alerts play series of the page", series and not unknown, sorted(unknown))


def found(key, within):
    """All that stands under this key, however deep."""
    if isinstance(within, dict):
        yield from (it for name, it in within.items() if name == key)
    for it in within.values() if isinstance(within, dict) else within if isinstance(within, list) else []:
        yield from found(key, it)


def as_asked(query, variables):
    """A query as Grafana sends it where all is chosen."""
    for name in sorted(variables, key=len, reverse=True):
        query = query.replace(f"${name}", CHOSEN)
    return query.replace(*RANGE)


def shows_something(queries, page):
    """Tests for promtool: as all series of the page grow, each query answers something."""
    series = [{"series": it.replace("{", '{instance="here",'), "values": "1+1x40"} for it in page.series]
    asked = [{"expr": f"count({it}) > bool 0", "eval_time": "15m", "exp_samples": [{"labels": "{}", "value": 1}]} for it in queries]
    return {"evaluation_interval": "30s", "tests": [{"interval": "30s", "input_series": series, "promql_expr_test": asked}]}


def try_dashboard(tally, page):
    try:
        board = json.loads(read(DASHBOARD))
    except ValueError as error:
        tally.check("the dashboard parses", False, str(error))
        return
    panels = [it for it in board["panels"] if it["type"] != "row"]
    empty = [it["title"] for it in panels if not it["targets"]]
    tally.check("each panel asks for something", panels and not empty, empty)
    numbers = [it["id"] for it in board["panels"]]
    tally.check("each panel has a number of its own", len(set(numbers)) == len(numbers), numbers)
    sources = {it["uid"] for it in found("datasource", board)}
    tally.check("each panel asks the source that was chosen", sources == {"${datasource}"}, sorted(sources))
    targets = [it for some in found("targets", board) for it in some]
    legends = [(it["legendFormat"], it["expr"]) for it in targets]
    lost = [legend for legend, query in legends if any(label not in query for label in LABEL.findall(legend))]
    tally.check("each legend names labels of its query", not lost, lost)
    variables = [it["name"] for it in board["templating"]["list"]]
    unknown = set(VARIABLE.findall(read(DASHBOARD))) - {*variables, *GRAFANAS}
    tally.check("each variable of the dashboard is its own", not unknown, sorted(unknown))
    queries = [as_asked(it["expr"], variables) for it in targets]
    names = {name for it in queries for name in NAME.findall(it)}
    hidden = [it for it in page.kinds if not page.has_shown(it, names)]
    tally.check("the dashboard shows each metric", not hidden, hidden)
    with tempfile.TemporaryDirectory() as place:
        # JSON is YAML too.
        path = os.path.join(place, "queries.yml")
        with open(path, "w", encoding="utf-8") as out:
            json.dump(shows_something(queries, page), out)
        said = refused("test", path)
    tally.check("each query of the dashboard answers something", not said, said)


def tried():
    tally, program = Tally("metrics"), examples("metrics")
    if shutil.which("promtool") is None:
        tally.skip("promtool is not installed")
        return tally
    if not program.is_ready():
        tally.check("the examples are built", False)
        return tally
    done = subprocess.run([program.path, "metrics"], stdin=subprocess.DEVNULL, capture_output=True, text=True)
    tally.check("the example runs", done.returncode == 0, done.stderr[-2000:])
    tally.check("the example has no error", "latest_error" not in done.stdout)
    text = done.stdout + of_an_error()
    page = Page(text)
    try_page(tally, text, page)
    try_names(tally, page)
    try_alerts(tally, page)
    try_dashboard(tally, page)
    return tally
