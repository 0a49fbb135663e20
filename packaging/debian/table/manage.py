"""What the commands beside `run` do: they print and change rows."""
import json
import secrets

# Rows that `purge` deletes at once, so that no lock is held for long.
PURGED = 10_000


def printable(value):
    """A value as text, without signs that a terminal may obey."""
    if value is None:
        return ""
    return "".join(sign if sign.isprintable() else sign.encode("unicode_escape").decode() for sign in str(value))


def print_table(heads, rows):
    """Prints rows below heads, in columns. Numbers are to the right."""
    cells = [[printable(value) for value in row] for row in rows]
    widths = [max(map(len, column)) for column in zip(heads, *cells)]
    for line, row in zip([heads, *cells], [heads, *rows]):
        print("  ".join(f"{cell:>{width}}" if isinstance(value, int) else f"{cell:<{width}}"
                        for cell, width, value in zip(line, widths, row)).rstrip())


def status(store, options):
    """Prints how many rows there are of each function, by their states, and for how long the oldest has waited that is due."""
    states = ("waiting", "running", "done", "failed")
    functions = {}
    for function, state, count in store.counts():
        functions.setdefault(function, dict.fromkeys(states, 0))[state] = count
    oldest = store.oldest()
    if options.json:
        print(json.dumps({"functions": functions, "oldest_due_seconds": round(oldest, 3)}))
        return 0
    print_table(("function", *states), [(function, *counts.values()) for function, counts in functions.items()])
    print(f"the oldest row that is due has waited for {oldest:.1f} s; a running row is at a server, and perhaps not yet at a worker")
    return 0


def list_rows(store, options):
    """Prints the last rows."""
    found = store.rows(options.state, options.function, options.limit)
    if options.json:
        print(json.dumps(found, indent=1))
        return 0
    names = ("id", "function", "state", "priority", "run_at", "attempts", "server", "handle", "error")
    print_table(names, [tuple(row[name] for name in names) for row in found])
    return 0


def retry(store, options):
    """Has rows be tried again. 1 if one of them is left as it is."""
    changed = store.retry(options.ids, options.now)
    return print_changed(options, changed, store.early(sorted(set(options.ids) - changed)))


def cancel(store, options):
    """Cancels rows. 1 if one of them is left as it is."""
    changed = store.cancel(options.ids)
    status = print_changed(options, changed, set())
    if changed and not options.json:
        print("the work of a row that was running, which means at a server, may still be done; its result is dropped")
    return status


def print_changed(options, changed, early):
    """Prints which rows were changed, and which are left as they are, because they are not due yet or in another state."""
    left = sorted(set(options.ids) - changed - early)
    if options.json:
        print(json.dumps({"changed": sorted(changed), "left": left, "not_due": sorted(early)}))
    else:
        listed = lambda ids: " ".join(map(str, ids))
        print(f"{len(changed)} rows changed" + (f"; these are left as they are: {listed(left)}" if left else "")
              + (f"; these are not due yet, and --now makes them due: {listed(sorted(early))}" if early else ""))
    return 1 if left or early else 0


def identify(store, options):
    """Has the table an identity of its own where it is now, or keep the one that it has."""
    identity = store.identify(None if options.moved else secrets.token_hex(6))
    print(json.dumps({"identity": identity}) if options.json else f"a row's unique id is table-{identity}-ID, unless the row has one")
    return 0


def purge(store, options):
    """Deletes rows that ended long ago."""
    states = ["done", "failed"] if options.failed else ["done"]
    count, before = 0, -1 << 63
    while (last := store.last_of_next(before, PURGED)) is not None:
        count += store.purge(before, last, options.days, states)
        before = last
    print(json.dumps({"deleted": count}) if options.json else f"{count} rows deleted")
    return 0
