"""Makes the page from the answers of servers. It needs no JavaScript: the filter and the order are in the address, and the page's script
only fetches the same page again. Strangers chose all names, ids and addresses, so these go through html.escape."""
import base64
import collections
import hashlib
import heapq
import html
import json
import math
import os
import re
import threading
import time
import urllib.parse

from gmd_metrics import printable, prometheus
from tables import STATES as ROW_STATES, done_within
from watch import NONE, PAUSE, STEP, STEPS, Ended

# The functions and the lines of connections that the page shows at most, and the functions in such a line.
MAX_SHOWN, MAX_LISTED = 200, 12
# The pages with different filters and orders that are kept, for a second or so many times as long as it took to sort all functions.
MAX_CACHED, KEPT_BY_COST = 64, 4
# With more functions than this, those that are idle are hidden until they are asked for.
MAX_UNFOLDED = 20
# The age of a queue is shown from this many seconds on.
SHOWN_AGE = 60
NO_WORKERS, TAKE_NONE, MORE_RUN, ONLY_GROWN, FULL, FINE = range(6)
STATES = {NO_WORKERS: ("bad", "no workers", "Jobs wait, and no worker can do them."),
          TAKE_NONE: ("bad", "workers take none", "Jobs wait, and in half a minute none was seen to run or to end. Workers of PHP and C "
                      "need gmd --as-gearmand; the journal of gmd says which packets it doesn't serve."),
          MORE_RUN: ("warn", "more run than workers", "A worker has several jobs, or one that it has left without an end."),
          ONLY_GROWN: ("note", "only grown", "The queue has grown and not fallen in the last five minutes, or since it was first seen."),
          FULL: ("note", "at its limit", "New jobs are refused with queue_full."),
          FINE: ("", "", "")}
COLUMNS = {"function": "Function", "server": "Server", "waiting": "Waiting", "running": "Running", "workers": "Workers",
           "limit": "Limit", "ended": "Ended/min"}
CONNECTION_COLUMNS = {"address": "Address", "server": "Server", "id": "Id", "abilities": "Functions"}
# A click on these sorts from the first on, and on the others, which are numbers, from the largest on.
TEXTS = ("function", *CONNECTION_COLUMNS)
# A function at one server, or at all that have it. Its parts are each server's watch, history and counts.
Line = collections.namedtuple("Line", "state function waiting running workers limit parts ended", defaults=[None])
# What the address asks for: a filter, a column to sort by, which a minus reverses, one server, and whether servers are summed up, and idle
# functions shown.
Query = collections.namedtuple("Query", "text order is_reversed server is_summed shows_idle")


def query_of(text):
    """What the address asks for."""
    given = dict(urllib.parse.parse_qsl(text, keep_blank_values=True, max_num_fields=10))
    order = given.get("sort", "")
    column = order.removeprefix("-")
    is_known = column in COLUMNS or column in CONNECTION_COLUMNS
    return Query(given.get("filter", "")[:512], column if is_known else "", order.startswith("-"), given.get("server", "")[:300],
                 given.get("sum") == "1", given.get("idle") == "1")


def parameters_of(query):
    """The address's parameters that ask for this."""
    order = f"{'-' * query.is_reversed}{query.order}"
    given = (("filter", query.text), ("sort", order), ("server", query.server), ("sum", "1" * query.is_summed),
             ("idle", "1" * query.shows_idle))
    return {name: value for name, value in given if value}


def link_of(query, **changes):
    """The address of the page for this query with these changes, relative to the page, because a proxy may have it below another path."""
    return html.escape("?" + urllib.parse.urlencode(parameters_of(query._replace(**changes))))


def label_of(target):
    host = f"[{target.host}]" if ":" in target.host else target.host
    return f"{host}:{target.port}"


def number(value):
    return "–" if value is None else f"{value:,}"


def plural(count, word):
    return f"{count:,} {word}{'' if count == 1 else 's'}"


def duration(seconds):
    seconds = max(int(seconds), 0)
    for size, name, smaller, other in ((86_400, "d", 3600, "h"), (3600, "h", 60, "min"), (60, "min", 1, "s")):
        if seconds >= size:
            rest = seconds % size // smaller
            return f"{seconds // size} {name}" + (f" {rest} {other}" if rest else "")
    return f"{seconds} s"


### Functions and their states

def state_of(function, history, limit, now):
    """What is wrong with a function."""
    waiting, running = function.waiting or 0, function.running or 0
    if waiting and function.workers == 0:
        return NO_WORKERS
    if waiting and function.workers and history and history.is_taken_by_none(now):
        return TAKE_NONE
    if function.workers is not None and running > function.workers:
        return MORE_RUN
    if history and history.has_only_grown(now):
        return ONLY_GROWN
    return FULL if limit and waiting + running >= limit else FINE


def all_lines(watches, limits, now):
    """A line for each function of each server."""
    for watch in watches:
        its_limits = {**watch.limits, **limits}
        for name, function in (watch.answer.functions if watch.answer else {}).items():
            history, limit = watch.histories.get(name), its_limits.get(name)
            yield Line(state_of(function, history, limit, now), name, *function, limit, ((watch, history, function),))


def added_up(lines):
    """A line for each function, of all servers. Its state is that of the server where it is worst."""
    found = {}
    for line in lines:
        found.setdefault(line.function, []).append(line)
    for name, those in found.items():
        sums = [None if None in column else sum(column) for column in zip(*(line[2:5] for line in those))]
        limits = [line.limit for line in those if line.limit]
        yield Line(min(line.state for line in those), name, *sums, sum(limits) if limits else None,
                   tuple(part for line in those for part in line.parts))


def importance(line):
    """What the lines are sorted by: the worst first, and then those with most jobs."""
    return (line.state, -(line.waiting or 0), -(line.running or 0), -(line.workers or 0), line.function)


def is_idle(line):
    """Whether no job of the function was seen for fifteen minutes."""
    return line.state == FINE and not line.waiting and not line.running and not any(history for _, history, _ in line.parts)


def ended_of(line, now):
    """How many of the line's jobs ended in the last minute, as far as is known."""
    found = [watch.ended_of(history, function, now) for watch, history, function in line.parts]
    for ended in found:
        if ended.count is None:
            return ended
    return Ended(sum(ended.count for ended in found), all(ended.is_exact for ended in found), "")


def label_of_line(line):
    """The server of a line, or of how many servers it is."""
    return label_of(line.parts[0][0].target) if len(line.parts) == 1 else plural(len(line.parts), "server")


def chosen_lines(lines, query, now):
    """The lines that are shown, in the order that is asked for. How many jobs ended is summed up for these only."""
    chosen = [line._replace(ended=ended_of(line, now)) for line in lines[:MAX_SHOWN]]
    if query.order not in COLUMNS:
        return chosen
    by = {"server": label_of_line, "function": lambda line: line.function.casefold(), "ended": lambda line: line.ended.count or 0}.get(
        query.order, lambda line: getattr(line, query.order) or 0)
    return sorted(chosen, key=by, reverse=query.is_reversed != (query.order not in TEXTS))


class Scene:
    """All functions as they are at one moment, the most important first. Each filter and order of this moment takes its lines from here, so
    that many filters of many functions don't each sort them."""

    def __init__(self, watches, limits, tables=()):
        self.watches, self.limits, self.tables, self.now = watches, limits, tables, time.monotonic()
        self.sorted = {}
        troubled = sum(bool(table.trouble()) for table in tables)
        self.problems = problems_of(self.lines(False), watches, troubled)
        self.is_bad = troubled > 0 or any(watch.answer and watch.answer.failure for watch in watches) or any(
            STATES[line.state][0] == "bad" for _, line in self.lines(False)[:1])

    def lines(self, is_summed):
        """The lines, each with what a filter compares."""
        if is_summed not in self.sorted:
            lines = all_lines(self.watches, self.limits, self.now)
            lines = sorted(added_up(lines) if is_summed else lines, key=importance)
            self.sorted[is_summed] = [(line.function.casefold(), line) for line in lines]
        return self.sorted[is_summed]

    def found(self, query):
        """The lines that match the query's filter and server, and how many idle ones of these are hidden."""
        wanted = query.text.casefold()
        lines = [line for name, line in self.lines(query.is_summed and not query.server) if wanted in name]
        if query.server:
            lines = [line for line in lines if query.server in (label_of(watch.target) for watch, _, _ in line.parts)]
        if query.text or query.shows_idle or len(lines) <= MAX_UNFOLDED:
            return lines, 0
        busy = [line for line in lines if not is_idle(line)]
        return busy, len(lines) - len(busy)


### Charts

def path_of(values, top):
    """The outline below these values, from gap to gap. A level part is one step of it."""
    parts, height_before = [], None
    for index, value in enumerate([*values, None]):
        height = None if value is None else 40 - (round(36 * value / top) if top else 0)
        if height == height_before:
            continue
        if height_before is None:
            parts.append(f"M{index} 40V{height}")
        elif height is None:
            parts.append(f"H{index - 1}V40Z")
        else:
            parts.append(f"H{index - 1}L{index} {height}")
        height_before = height
    return "".join(parts)


def chart_of(values, name, what):
    top = max((value for value in values if value is not None), default=0)
    title = f"{what} in the last fifteen minutes: {top:,} at most"
    return (f'<svg class="{name}" viewBox="0 -1 {STEPS - 1} 42" preserveAspectRatio="none" role="img" aria-label="{title}">'
            f'<title>{title}</title><path d="{path_of(values, top)}"/></svg>')


def series_of(parts, now, value):
    """A value for each step of fifteen minutes, added up over servers, or None where none of them answered."""
    step = int(now // STEP)
    found = [None] * STEPS
    for watch, history, _ in parts:
        for place, index in watch.steps_with_answers(step):
            found[place] = (found[place] or 0) + (value(history, min(index, history.step)) if history else 0)
    return found


def waiting_chart(parts, now):
    """The chart of what waited, with gaps where the server didn't answer."""
    return chart_of(series_of(parts, now, lambda history, index: history.waiting_at(index)), "waiting", "Waiting jobs")


def ended_cell(ended, parts, now):
    """How many jobs ended in a minute, with its chart, or a dash that says why nobody knows."""
    if ended.count is None:
        return f'<span class="unknown" title="{html.escape(ended.why)}">–</span>'
    chart = chart_of(series_of(parts, now, lambda history, index: history.ended_in_minute(index)), "ended", "Jobs that ended in a minute")
    return f'<span>{"" if ended.is_exact else """<small title="at least">≥</small>"""}{number(ended.count)}</span>{chart}'


### Servers

def pair(name, value, title=""):
    title = f' title="{title}"' if title else ""
    return f"<div{title}><dt>{name}</dt><dd>{value}</dd></div>"


def slots_of(values):
    """The slots in use, of how many."""
    used, slots = values.get("gearman_connections"), values.get("gearman_slots")
    if not slots or used is None:
        return pair("Connections", number(used))
    level = "bad" if used >= slots else "warn" if used > 0.8 * slots else "good"
    return pair("Slots used", f'{used:,} <small>of {slots:,}</small><svg class="bar {level}" viewBox="0 0 100 4" '
                f'preserveAspectRatio="none" aria-hidden="true"><rect width="{min(100 * used / slots, 100):.1f}" height="4"/></svg>')


def counts_of(watch):
    """What only systemd knows of a server."""
    values, found = watch.values, []
    why = "" if watch.target.unit else "Only systemd knows this. Name the service: HOST:PORT=UNIT"
    why = html.escape(watch.unit_failure or why)
    for name, key in (("Refused", "gearman_connections_refused_total"), ("Cut", "gearman_connections_cut_total"),
                      ("Packets not served", "gearman_packets_not_served_total")):
        found.append(pair(name, number(values.get(key)), why))
    if "gearman_memory_bytes" in values:
        found.append(pair("Memory", f"{values['gearman_memory_bytes'] / (1 << 20):,.0f} <small>MiB</small>"))
    if values.get("gearman_restarts_total"):
        found.append(pair("Restarts", number(values["gearman_restarts_total"])))
    return "".join(found)


def since_of(watch, now):
    """For how long it has been up or down, and when it was asked last if that is long ago."""
    if watch.answer is None:
        return "not polled yet"
    since, is_known = watch.up_since()
    at = time.strftime("%Y-%m-%d %H:%M:%S", time.localtime(since))
    how = "since" if is_known else "since this page began, or longer:"
    age = now - watch.polled_at
    title = f"{how} {at}. Polled {duration(age)} ago"
    return (f'for {"" if is_known else "at least "}<time title="{title}">{duration(time.time() - since)}</time>'
            + (f", polled {duration(age)} ago" if age > 3 * PAUSE else ""))


def server_head(watch, query, watches, now):
    """The name of a server, which chooses it where there are several, its state, and since when."""
    label, answer = html.escape(label_of(watch.target)), watch.answer
    state = "unknown" if answer is None else "down" if answer.failure else "up"
    name = f"<bdi>{label}</bdi>"
    if len(watches) > 1:
        is_chosen = query.server == label_of(watch.target)
        link = link_of(query, server="" if is_chosen else label_of(watch.target))
        name = (f'<a href="{link}" title="{"Show all servers" if is_chosen else "Show only this server"}"'
                f'{""" aria-current="true" """ if is_chosen else ""}>{name}</a>')
    return (f'<article class="card {state}" data-key="{label}"><h3>{name}</h3>'
            f'<p class="state"><b>{state}</b> {since_of(watch, now)}</p>')


def failure_of(text):
    """What is wrong, as a paragraph, or nothing."""
    return f'<p class="failure">{html.escape(printable(text))}</p>' if text else ""


def server_card(watch, query, watches, now):
    """All that is shown of a server."""
    values, answer, head = watch.values, watch.answer, server_head(watch, query, watches, now)
    if answer is None or answer.failure:
        return head + failure_of(answer and answer.failure) + "</article>"
    parts = ((watch, watch.total, NONE),)
    remark = f'<p class="left">{html.escape(answer.remark)}</p>' if answer.remark else ""
    return "".join([
        head, "<dl>", pair("Version", html.escape(values["gearman_info"])), slots_of(values), counts_of(watch), '</dl><dl class="jobs">',
        pair("Waiting", f"<span>{number(sum(of.waiting or 0 for of in answer.functions.values()))}</span>{waiting_chart(parts, now)}"),
        pair("Running", number(sum(of.running or 0 for of in answer.functions.values()))),
        pair("Ended/min", ended_cell(watch.ended_of(watch.total, NONE, now), parts, now)), "</dl>", remark, "</article>"])


### Functions

def column_head(column, label, query):
    """A column's head sorts by it, and by the second click reverses that."""
    orders = ["ascending", "descending"] if column in TEXTS else ["descending", "ascending"]
    is_sorted = query.order == column
    aria = f' aria-sort="{orders[query.is_reversed]}"' if is_sorted else ""
    link = link_of(query, order=column, is_reversed=is_sorted and not query.is_reversed)
    return f'<th scope="col" class="{column}"{aria}><a href="{link}">{label}</a></th>'


def age_of(line, now):
    """For how long jobs have waited without a break, as far as polls tell: the oldest has waited no longer."""
    histories = [history for _, history, function in line.parts if history and function.waiting]
    age = max((now - history.empty_at for history in histories), default=0)
    if age < SHOWN_AGE:
        return ""
    if all(history.saw_empty for history in histories):
        return f' <small class="age" title="No job here has waited longer">for {duration(age)} at most</small>'
    return f' <small class="age" title="Since this page first saw the queue">for {duration(age)} or longer</small>'


def function_line(line, columns, now):
    """A line of the table."""
    kind, word, meaning = STATES[line.state]
    label, name = html.escape(label_of_line(line)), html.escape(line.function)
    badge = f' <span class="badge {kind}" title="{meaning}">{word}</span>' if word else ""
    cells = {"server": f"<bdi>{label}</bdi>", "waiting": f"<span>{number(line.waiting)}</span>{waiting_chart(line.parts, now)}",
             "running": number(line.running), "workers": number(line.workers), "limit": number(line.limit),
             "ended": ended_cell(line.ended, line.parts, now)}
    others = "".join(f'<td class="{column}" data-label="{COLUMNS[column]}">{cells[column]}</td>' for column in columns[1:])
    return (f'<tr class="{kind}" data-key="{label} {name}"><th scope="row" class="function"><bdi class="name" title="{name}">{name}</bdi>'
            f"{badge}{age_of(line, now)}</th>{others}</tr>")


def functions_notes(lines, chosen, idle, query, watches):
    """What the table doesn't show, each as HTML."""
    left = sum(watch.answer.functions_left for watch in watches if watch.answer)
    notes = []
    if len(lines) > len(chosen):
        notes.append(f"The {len(chosen)} that matter most are shown, and {len(lines) - len(chosen):,} more aren't.")
    if idle:
        notes.append(f'{plural(idle, "function")} without a job in the last fifteen minutes: '
                     f'<a class="option" href="{link_of(query, shows_idle=True)}">show them</a>')
    if query.shows_idle:
        notes.append(f'<a class="option" href="{link_of(query, shows_idle=False)}">Hide idle functions</a>')
    if left:
        notes.append(f"{left:,} more weren't read.")
    if not lines and not idle:
        notes.append("No function matches the filter." if query.text or query.server else "No function is known.")
    return "".join(f'<p class="left">{note}</p>' for note in notes)


def functions_section(scene, query):
    """The functions that the query asks for."""
    lines, idle = scene.found(query)
    chosen = chosen_lines(lines, query, scene.now)
    are_several = len(scene.watches) > 1
    has_limits = scene.limits or any(watch.limits for watch in scene.watches)
    columns = [column for column in COLUMNS if (column != "server" or are_several) and (column != "limit" or has_limits)]
    table = ""
    if lines:
        heads = "".join(column_head(column, COLUMNS[column], query) for column in columns)
        table = (f'<table class="functions"><thead><tr>{heads}</tr></thead>'
                 f'<tbody>{"".join(function_line(line, columns, scene.now) for line in chosen)}</tbody></table>')
    choice = ""
    if are_several:
        word = "show each server" if query.is_summed else "sum up over servers"
        choice = f' <a class="option" href="{link_of(query, is_summed=not query.is_summed)}">{word}</a>'
    trouble = ' class="trouble"' if lines and lines[0].state != FINE else ""
    notes = functions_notes(lines, chosen, idle, query, scene.watches)
    return (f'<section id="functions"{trouble}><h2>Functions <small>{len(lines) + idle:,}</small></h2>{choice}{table}{notes}</section>')


### Tables

def within(buckets, part):
    """Within what time this part of the rows was done, as far as buckets tell."""
    seconds = done_within(buckets, part)
    if seconds is None:
        return number(None)
    if seconds == math.inf:
        return f"&gt; {duration(max((bound for bound in buckets if bound != seconds), default=0))}"
    return f"≤ {duration(seconds) if seconds >= 60 else f'{seconds:g} s'}"


def table_values(answer):
    """The numbers of a gmd-table, which are of all its functions."""
    value, servers, oldest = answer.values.get, answer.servers, answer.values.get("oldest_due_seconds")
    now = [("Oldest due", number(None) if oldest is None else duration(oldest), "For how long the oldest row has been due that waits"),
           ("On the way", number(value("on_the_way")), "Rows that this gmd-table took"),
           ("Servers up", f"{sum(servers.values())} <small>of {len(servers)}</small>", "Servers that answer this gmd-table")]
    since = [("Attempts", number(value("claims_total")), "Rows that were taken and handed to a server"),
             ("Attempts failed", number(value("attempts_failed_total")), ""),
             ("Returned", number(value("returned_total")), "Rows that came back because a server went or refused them for now"),
             ("Done", number(value("done_total")), ""), ("Failed", number(value("failed_total")), "Rows that failed for good"),
             ("Due to done, median", within(answer.buckets, 0.5), "Half of the rows were done within this time of when they were due"),
             ("Due to done, p95", within(answer.buckets, 0.95), "19 of 20 rows were done within this time of when they were due")]
    first, second = ("".join(pair(*each) for each in pairs) for pairs in (now, since))
    return f'<dl>{first}</dl><p class="left">Since this gmd-table began:</p><dl class="since">{second}</dl>'


def rows_line(function, counts):
    """The rows of a function, by their states."""
    name = html.escape(function)
    cells = "".join(f'<td data-label="{state.capitalize()}">{number(counts[state])}</td>' for state in ROW_STATES)
    return f'<tr data-key="{name}"><th scope="row"><bdi class="name" title="{name}">{name}</bdi></th>{cells}</tr>'


def rows_of(answer, query):
    """The functions of a table that match the filter, those with most rows that wait first, and what isn't shown."""
    wanted = query.text.casefold()
    found = [item for item in answer.functions.items() if wanted in item[0].casefold()]
    chosen = heapq.nsmallest(MAX_SHOWN, found, key=lambda item: (*(-item[1][state] for state in ("waiting", "running", "failed")), item[0]))
    hidden = len(found) - len(chosen)
    notes = [f"{hidden:,} more aren't shown."] if hidden else []
    notes += [f"{plural(answer.left, 'more line')} of its answer can't be used."] if answer.left else []
    if "oldest_due_seconds" not in answer.values:
        notes.append("It doesn't say how many rows there are.")
    elif not found:
        notes.append("No function matches the filter." if query.text else "The table has no rows.")
    heads = "".join(f'<th scope="col">{head}</th>' for head in ("Function", *(state.capitalize() for state in ROW_STATES)))
    table = (f'<table class="rows"><thead><tr>{heads}</tr></thead>'
             f'<tbody>{"".join(rows_line(*item) for item in chosen)}</tbody></table>') if chosen else ""
    return table + "".join(f'<p class="left">{note}</p>' for note in notes)


def table_card(table, query, now):
    """All that is shown of a gmd-table."""
    head, answer = server_head(table, query, (table,), now) + failure_of(table.trouble()), table.answer
    if answer is None or answer.failure:
        return f"{head}</article>"
    down = [f"<bdi>{html.escape(name)}</bdi>" for name, is_up in answer.servers.items() if not is_up]
    away = f'<p class="left">These servers don\'t answer it: {", ".join(down)}</p>' if down else ""
    return f"{head}{table_values(answer)}{away}{rows_of(answer, query)}</article>"


def tables_section(scene, query):
    """What the gmd-tables say that are asked, if there are any."""
    if not scene.tables:
        return ""
    trouble = ' class="trouble"' if any(table.trouble() for table in scene.tables) else ""
    cards = "".join(table_card(table, query, scene.now) for table in scene.tables)
    return f'<section id="tables"{trouble}><h2>Tables <small>{len(scene.tables)}</small></h2>{cards}</section>'


### Connections

def connection_functions(functions, left):
    words = functions.split(" ") if functions else []
    more = len(words[MAX_LISTED:]) + left
    items = [f"<li><bdi>{html.escape(word)}</bdi></li>" for word in words[:MAX_LISTED]]
    items += [f'<li class="more">and {more:,} more</li>'] if more else []
    return f'<ul>{"".join(items)}</ul>' if items else '<span class="none">none</span>'


def connection_line(watches, index, address, name, functions, left, count):
    """Connections with the same address, id and functions."""
    label = label_of(watches[index].target) if len(watches) > 1 else ""
    times = f' <span class="times">× {count:,}</span>' if count > 1 else ""
    server = f'<td class="server" data-label="Server"><bdi>{html.escape(label)}</bdi></td>' if label else ""
    return (f'<tr><th scope="row"><bdi>{html.escape(address)}</bdi>{times}</th>{server}<td class="id" data-label="Id">'
            f'<bdi>{html.escape(name)}</bdi></td><td data-label="Functions">{connection_functions(functions, left)}</td></tr>')


def found_connections(watches, query):
    wanted = query.text.casefold()
    for index, watch in enumerate(watches):
        if query.server not in ("", label_of(watch.target)):
            continue
        for key, count in (watch.answer.connections if watch.answer else {}).items():
            if wanted in " ".join(key[:3]).casefold():
                yield (index, *key, count)


def chosen_connections(found, query, watches):
    """The first of them in the order that is asked for."""
    by = {"server": lambda line: (label_of(watches[line[0]].target), *line), "address": lambda line: (line[1], *line),
          "id": lambda line: (line[2].casefold(), *line), "abilities": lambda line: (line[3].casefold(), *line)}.get(query.order)
    choose = heapq.nlargest if by and query.is_reversed else heapq.nsmallest
    return choose(MAX_SHOWN, found, key=by)


def connections_section(query, watches):
    found = list(found_connections(watches, query))
    chosen = chosen_connections(found, query, watches)
    count, left = sum(line[-1] for line in found), sum(watch.answer.connections_left for watch in watches if watch.answer)
    hidden = count - sum(line[-1] for line in chosen)
    notes = [f"{hidden:,} more aren't shown."] if hidden else []
    notes += [f"{left:,} more weren't read."] if left else []
    notes += [] if found else ["No connection matches the filter." if query.text or query.server else "There are no connections."]
    heads = "".join(column_head(column, label, query) for column, label in CONNECTION_COLUMNS.items()
                    if column != "server" or len(watches) > 1)
    table = (f'<table class="connections"><thead><tr>{heads}</tr></thead>'
             f'<tbody>{"".join(connection_line(watches, *line) for line in chosen)}</tbody></table>') if found else ""
    return (f'<details id="connections" open><summary><h2>Connections <small>{count:,}</small></h2></summary>{table}'
            f'{"".join(f"""<p class="left">{note}</p>""" for note in notes)}</details>')


### The whole

def problems_of(lines, watches, troubled):
    """How many servers don't answer, and how many functions and tables need a look: what is said, and the section that shows it."""
    down = sum(bool(watch.answer and watch.answer.failure) for watch in watches)
    coloured = next((index for index, (_, line) in enumerate(lines) if line.state == FINE), len(lines))
    found = [(f"{down} of {len(watches)} servers down" if len(watches) > 1 else "the server is down", "servers")] if down else []
    found += [(f"{plural(coloured, 'function')} to look at", "functions")] if coloured else []
    return found + ([(f"{plural(troubled, 'table')} to look at", "tables")] if troubled else [])


def state_for_programs(kind, poller):
    """Whether a server or a gmd-table is up, and since when."""
    since, is_known = poller.up_since()
    return {kind: label_of(poller.target), "up": None if poller.answer is None else not poller.answer.failure, "since": since,
            "since_is_known": is_known}


def numbers_of_table(table, now):
    """What is known of a gmd-table, for programs. Its totals are those since it began."""
    answer, found = table.answer, state_for_programs("table", table)
    if answer is None or answer.failure:
        return {**found, "failure": answer and answer.failure, "functions": []}
    named = {"oldest_due_seconds": "oldest_due_seconds", "on_the_way": "on_the_way", "attempts": "claims_total",
             "attempts_failed": "attempts_failed_total", "returned": "returned_total", "done": "done_total", "failed": "failed_total"}
    bounds = {name: done_within(answer.buckets, part) for name, part in (("median_at_most", 0.5), ("percentile_95_at_most", 0.95))}
    is_up = answer.values.get("database_up")
    return {**found, "trouble": table.trouble() or None, "polled_seconds_ago": round(now - table.polled_at, 1),
            **{name: answer.values.get(key) for name, key in named.items()},
            # JSON has no infinity.
            **{name: None if bound == math.inf else bound for name, bound in bounds.items()},
            "database_up": None if is_up is None else is_up != 0, "servers": answer.servers,
            "functions": [{"function": function, **counts} for function, counts in answer.functions.items()]}


def numbers_of(watch, limits, now):
    """What is known of a server, for programs."""
    answer, values, found = watch.answer, watch.values, state_for_programs("server", watch)
    if answer is None or answer.failure:
        return {**found, "failure": answer and answer.failure, "functions": []}
    named = {"version": "gearman_info", "connections": "gearman_connections", "slots": "gearman_slots", "memory": "gearman_memory_bytes",
             "refused": "gearman_connections_refused_total", "cut": "gearman_connections_cut_total",
             "not_served": "gearman_packets_not_served_total"}
    found |= {name: values.get(key) for name, key in named.items()}
    ended = watch.ended_of(watch.total, NONE, now)
    found |= {"ended_in_minute": ended.count, "ended_is_exact": ended.is_exact, "polled_seconds_ago": round(now - watch.polled_at, 1)}
    functions = []
    for line in sorted(all_lines([watch], limits, now), key=importance):
        ended = ended_of(line, now)
        functions.append({"function": line.function, "state": STATES[line.state][1] or "fine", "waiting": line.waiting,
                          "running": line.running, "workers": line.workers, "limit": line.limit, "ended_in_minute": ended.count, "ended_is_exact": ended.is_exact})
    return {**found, "functions": functions}


class Page:
    """The page: its file, in which the servers' state is filled in, and what programs ask for in its place."""

    def __init__(self, options, watches, tables=()):
        self.limits, self.watches, self.tables = options.limits, watches, tables
        with open(os.path.join(os.path.dirname(__file__), "page.html"), encoding="utf-8") as file:
            self.text = file.read()
        # The browser applies only the page's own style and script, even if a name could bring another one in.
        style, script = (base64.b64encode(hashlib.sha256(re.search(f"<{tag}>(.*?)</{tag}>", self.text, re.S)[1].encode()).digest())
                         .decode() for tag in ("style", "script"))
        self.policy = (f"default-src 'none'; style-src 'sha256-{style}'; script-src 'sha256-{script}'; connect-src 'self'; img-src data:; "
                       "form-action 'self'; base-uri 'none'; frame-ancestors 'none'")
        self.lock, self.cached, self.scene, self.kept_until = threading.Lock(), {}, None, 0

    def body(self, path, query):
        """The body at this path, or None. Each is made once a second at most, and one at a time, however many clients there are."""
        make = {"/": self.html, "/metrics": self.metrics, "/json": self.json}.get(path)
        key = (path, query_of(query) if path == "/" else None)
        with self.lock:
            now = time.monotonic()
            if now >= self.kept_until:
                self.cached, self.scene, self.kept_until = {}, None, now + 1
            if make and key not in self.cached:
                if len(self.cached) >= MAX_CACHED:
                    del self.cached[next(iter(self.cached))]
                self.cached[key] = make(key[1]).encode(errors="backslashreplace")
            return self.cached.get(key)

    def failure(self):
        """Why this program isn't well, or nothing. It is well also beside servers that aren't."""
        now = time.monotonic()
        stuck = [label_of(poller.target) for poller in (*self.watches, *self.tables) if poller.is_stuck(now)]
        return f"not asked for a long time: {', '.join(stuck)}" if stuck else ""

    def metrics(self, _):
        return prometheus([(watch.target, watch.samples(), watch.answer) for watch in self.watches if watch.answer])

    def json(self, _):
        now = time.monotonic()
        return json.dumps({"servers": [numbers_of(watch, self.limits, now) for watch in self.watches],
                           "tables": [numbers_of_table(table, now) for table in self.tables]}) + "\n"

    def present_scene(self):
        """All functions as they are now, or were a moment ago."""
        if not self.scene:
            self.scene = Scene(self.watches, self.limits, self.tables)
            made = time.monotonic()
            self.kept_until = made + max(1, KEPT_BY_COST * (made - self.scene.now))
        return self.scene

    def html(self, query):
        scene = self.present_scene()
        kept = {name: value for name, value in parameters_of(query).items() if name != "filter"}
        fields = {
            "TITLE": " · ".join([*(text for text, _ in scene.problems), "Gearman"]), "FILTER": html.escape(query.text),
            "KEPT": "".join(f'<input type="hidden" name="{name}" value="{html.escape(value)}">' for name, value in kept.items()),
            "COLOUR": "b3232b" if scene.is_bad else "2f6fdb", "CLOCK": time.strftime("%H:%M:%S"),
            "SUMMARY": "".join(f'<b><a href="#{section}">{text}</a></b> ' for text, section in scene.problems) or "all is well",
            "SERVERS": "".join(server_card(watch, query, self.watches, scene.now) for watch in self.watches),
            "FUNCTIONS": functions_section(scene, query), "TABLES": tables_section(scene, query), "CONNECTIONS": connections_section(query, self.watches)}
        # In one pass, because a name may look like a field.
        return re.sub("@([A-Z]+)@", lambda field: fields[field[1]], self.text)
