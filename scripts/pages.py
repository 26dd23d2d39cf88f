"""pages.py ABD [COUNT]

Reads pages of `abd draw` as XML, and compares what they show with the history, read here by other means. The histories are those of COUNT
random scripts (100 if not given), drawn by their tags, by their orders and by their values, the same where some reads answer something
else, by their values, one with values that look like markup, and some of many clients, which share columns. Of orders that are refused,
those the other way round and those with two calls swapped, the bars have the places, and an arrow joins the two calls whose precedence is
broken. Words of style sheets that a browser may not know stand in rules of their own.

Of each key it compares the calls, their clients and columns, the rows where they begin and end, and the points of a `yes`; so it does of
all keys together (`--whole`), whose one order it makes of the keys' orders, and on the page of a script, whose messages it compares with
the trace. By values it compares the points of an atomic key with the order that `abd justify --by values` writes, which has to be one, and
the red calls of any other with those that `abd decide` names. A text stays a text, no element is a script, each link has its place on the
page, and a page has one title and leaves out no level of headings. On paper each row of a picture that is cut stands in one strip. Boxes
that scroll have a role, a name and the focus, and tables a caption and headings of columns and of rows. The first heading says how many
keys are refused.
"""

import json
import os
import random
import re
import subprocess
import sys
import tempfile

from page_elements import Wrong, elements, expect, frame_of, number, points_of
from page_strips import read_page

HERE = os.path.dirname(os.path.abspath(__file__))
UNRULY = ["</title><script>alert(1)</script>", "]]>", "<!--", "&amp;", "\"'", "\u0000\n\u2028\u202e", "</style><svg onload='x'>", "{{x}}"]
EDGE = 8  # between a row's middle, and a bar that begins or ends there


def run(abd, *words):
    ran = subprocess.run([abd, *words], capture_output=True)
    expect(ran.returncode in (0, 1, 3, 5), "status", ran.returncode, "of", *words)
    return ran.returncode, ran.stdout.decode()


def calls_of(path):
    """The calls of a history of version 1, by number: each with its key, client, kind, value and lines."""
    calls = {}
    with open(path, encoding="utf-8") as file:
        for line, text in enumerate(file.read().split("\n"), 1):
            row = json.loads(text) if text else {}
            if row.get("row") == "invoke":
                call = {"key": row["key"], "client": row["client"], "kind": row["do"], "begins": line, "last": line, "ends": None}
                calls[row["call"]] = {**call, "value": row.get("value")}
            elif row.get("row") == "note":
                calls[row["call"]]["last"] = line
            elif row.get("row") == "respond":
                calls[row["call"]].update(ends=line, value=row.get("value", calls[row["call"]]["value"]))
    return calls


def is_open(bar):
    """Whether a bar has no side below."""
    return bar.find("rect") is None


def corners(bar):
    """The left, right, top and bottom of a bar."""
    return frame_of(bar.find("polyline") if is_open(bar) else bar.find("rect"))


def named(bar):
    """The call and the client in a bar's title."""
    return [int(it) for it in re.match(r"call (\d+), client (\d+), ", bar.find("title").text).groups()]


def last_marks(picture, bars, own, row_of):
    """The line up to which each call needs its column: that of its answer, or the last of its begin, its note and its point."""
    last = {op: own[op]["ends"] or own[op]["last"] for op in bars}
    for dot in elements(picture, "circle", "dot"):
        x, y = number(dot, "cx"), number(dot, "cy")
        for op, bar in bars.items():
            left, right, top, bottom = corners(bar)
            if own[op]["ends"] is None and left < x < right and top < y < bottom:
                last[op] = max([last[op]] + [line for line, row in row_of.items() if row < y])
    return last


def columns_of(own, ops, last):
    """The column of each client of the calls: its own, or, of more than 16, the first that is free where it begins its first call. A call
    needs its column up to that line."""
    clients = sorted({own[op]["client"] for op in ops})
    if len(clients) <= 16:
        return {client: place for place, client in enumerate(clients)}
    columns, until = {}, []
    for op in sorted(ops):
        client, begins = own[op]["client"], own[op]["begins"]
        if client not in columns:
            free = [place for place, end in enumerate(until) if end < begins]
            columns[client] = free[0] if free else len(until)
            until[columns[client]:columns[client] + 1] = [max(last[it] for it in ops if own[it]["client"] == client)]
    return columns


def check_head(text, clients):
    """The head of a column names its clients, or says how many they are."""
    numbers = ", ".join(map(str, clients))
    fits = [f"client{'s' * (len(clients) > 1)} {numbers}", numbers] + [f"{len(clients)} clients"] * (len(clients) > 1)
    expect(text in fits, "head", text, "of clients", clients)


def check_apart(bars):
    """No two bars of a column stand at one place."""
    columns = {}
    for bar in bars.values():
        left, _, top, bottom = corners(bar)
        columns.setdefault(left, []).append((top, bottom))
    for column in columns.values():
        column.sort()
        expect(all(one[1] < other[0] for one, other in zip(column, column[1:])), "bars of a column", column)


def check_columns(picture, bars, own, row_of):
    """Each client has the column that it should have, with its name in the head and, in a shared one, in its bars. Where each is."""
    column_of = columns_of(own, bars, last_marks(picture, bars, own, row_of))
    check_apart(bars)
    clients = [sorted(it for it in column_of if column_of[it] == place) for place in range(len(set(column_of.values())))]
    heads = {}
    for it in elements(picture, "text", "client"):
        heads.setdefault(number(it, "x"), set()).add(it.text)
    expect(len(heads) == len(clients) and all(len(texts) == 1 for texts in heads.values()), "heads", heads, "of", clients)
    places = sorted(heads)
    for x, column in zip(places, clients):
        check_head(*heads[x], column)
    for op, bar in bars.items():
        client = own[op]["client"]
        says = f" c{client} " in bar.find("text").text.rstrip("\u2026") + " "
        expect(says == (len(clients[column_of[client]]) > 1), "client said in the bar of", op, bar.find("text").text)
    return {client: places[column] for client, column in column_of.items()}


def check_bar(bar, call, client_at, row_of):
    left, right, top, bottom = corners(bar)
    expect(named(bar)[1] == call["client"], "client of", call)
    expect(left < client_at[call["client"]] < right, "column of", call)
    expect(top + EDGE == row_of.get(call["begins"]), "begin of", call)
    expect(is_open(bar) == (call["ends"] is None), "end of", call)
    expect(is_open(bar) or bottom - EDGE == row_of.get(call["ends"]), "end of", call)
    expect(bottom > row_of.get(call["last"]), "end of", call)


def check_points(picture, bars, order):
    dots = [(number(it, "cx"), number(it, "cy")) for it in elements(picture, "circle", "dot")]
    names = [int(it.text) for it in elements(picture, "text", "number")]
    shown = [(place, call) for place, call in enumerate(order) if call in bars]
    expect(names == [place for place, _ in shown] and len(dots) == len(shown), "points", names, "of", shown)
    expect(all(one[1] < other[1] for one, other in zip(dots, dots[1:])), "points fall")
    for (_, call), (x, y) in zip(shown, dots):
        left, right, top, bottom = corners(bars[call])
        expect(left < x < right and top < y < bottom, "point of", call)


def check_order(own, order):
    """The order has each completed call once, each read answers the last write, and none stands before one that ended earlier."""
    expect(len(set(order)) == len(order) and set(order) <= set(own), "calls of the order", order)
    expect(all(op in order for op, call in own.items() if call["ends"]), "completed calls of the order", order)
    last, latest = None, 0
    for op in order:
        expect(own[op]["kind"] == "write" or own[op]["value"] == last, "answer of", op)
        last = own[op]["value"]
        latest = max(latest, own[op]["begins"])
        expect(own[op]["ends"] is None or latest < own[op]["ends"], "place of", op)


def ranges_of(bars, own):
    """The calls that have bars, in ranges within which none of all is left out."""
    runs = []
    for place, op in enumerate(sorted(own)):
        if op in bars and runs and runs[-1][2] == place - 1:
            runs[-1][1:] = [op, place]
        elif op in bars:
            runs.append([op, op, place])
    return " and ".join(str(first) if first == last else f"{first} to {last}" for first, last, _ in runs) or "none"


def check_calls(section, own, most, of):
    """The picture of a section shows these calls, or as many as it may. The picture, and its bars by call."""
    picture = elements(section, "div", "picture")[0]
    said = elements(section, "p", "shown")[0].text
    ranges, shown, total = re.match(r"Calls shown: (.*?) \((\d+) of (\d+)\)", said).groups()
    shown, total = int(shown), int(total)
    bars = {named(it)[0]: it for it in picture.iter("g")}
    expect(ranges == ranges_of(bars, own), "ranges of calls of", of, ranges)
    expect(total == len(own) and shown == len(bars) and shown == len(elements(picture, "g")), "calls of", of)
    expect(set(bars) <= set(own) and (shown == most or set(bars) == set(own)), "calls shown of", of)
    row_of = {int(it.text[5:]): number(it, "y") - 4 for it in elements(picture, "text", "line")}
    client_at = check_columns(picture, bars, own, row_of)
    for op, bar in bars.items():
        expect(own[op]["kind"] in bar.get("class"), "kind of", op)
        check_bar(bar, own[op], client_at, row_of)
    expect(len(elements(section, "tr")) == shown + 1, "table of", of)
    check_gaps(picture, bars, own, row_of)
    check_links(section, bars)
    return picture, bars


def check_gaps(picture, bars, own, row_of):
    """Where calls are left out, a mark says how many, in a row of its own between those of the calls beside them."""
    runs = []
    for place, op in enumerate(sorted(own)):
        if op not in bars:
            if runs and runs[-1][1] == place - 1:
                runs[-1][1:] = [place, runs[-1][2] + 1]
            else:
                runs.append([op, place, 1])
    marks = sorted(((number(it, "y") - 4, it.text) for it in elements(picture, "text", "omitted")))
    expect([text for _, text in marks] == [f"\u22ee {many} call{'s' * (many > 1)}" for _, _, many in runs], "calls left out", marks, "of", runs)
    for (y, _), (first, _, _) in zip(marks, runs):
        rows = {line: row for line, row in row_of.items() if row == y}
        above = [row for line, row in row_of.items() if line < own[first]["begins"]]
        below = [row for line, row in row_of.items() if line > own[first]["begins"]]
        expect(not rows and max(above, default=0) < y < min(below, default=y + 1), "row of the calls left out from", first)


def check_links(section, bars):
    """Each call that a sentence links leads to its own bar."""
    places = {it.get("id"): op for op, it in bars.items()}
    expect(len(places) == len(bars), "places of bars", places)
    for line in elements(section, "p", "why"):
        for link in line.iter("a"):
            expect(places.get(link.get("href")[1:]) == int(link.text), "link of", link.text, link.get("href"))


def check_table(root):
    """In the table at the top a refused key's line leads to the first bar that shows why, if there is one, and each other to its section."""
    for row in next(root.iter("tbody")):
        for link in row.iter("a"):
            kind, number, *call = re.fullmatch(r"#(call|key)-(\d+)(?:-(\d+))?", link.get("href")).groups()
            section = next(it for it in root.iter("section") if it.get("id") == f"key-{number}")
            named_calls = [it.get("href") for line in elements(section, "p", "why") for it in line.iter("a")]
            expect(next(section.iter("h2")).text.startswith(link.text), "key of", link.text)
            expect((kind == "call") == bool(named_calls) and (kind == "key" or link.get("href") in named_calls), "link of", link.text, link.get("href"))


def check_key(section, calls, orders):
    key, verdict = next(section.iter("h2")).text.split(": ", 1)
    own = {op: call for op, call in calls.items() if call["key"] == key}
    picture, bars = check_calls(section, own, 200, key)
    if verdict in ("yes", "atomic"):
        check_order(own, orders[key])
        check_points(picture, bars, orders[key])
    else:
        expect(not elements(picture, "circle"), "points of", key)
    return key


def store_order(calls, orders):
    """One order of all calls: by the line at which each and all before it on its key have begun, place on its key, number."""
    timed = []
    for order in orders.values():
        latest = 0
        for place, call in enumerate(order):
            latest = max(latest, calls[call]["begins"])
            timed.append((latest, place, call))
    return [call for _, _, call in sorted(timed)]


def check_whole(text, history, orders):
    """The picture of all keys has all calls, each with its key, and the points of one order."""
    calls = calls_of(history)
    sections = list(read_page(text).iter("section"))
    expect(len(sections) == 1 and sections[0].find("h2").text == "all keys: one order of all calls", "sections", len(sections))
    picture, bars = check_calls(sections[0], calls, 10000, "all keys")
    for op, bar in bars.items():
        expect(f" {calls[op]['key']} " in bar.find("title").text, "key of", op)
        said, name = bar.find("text").text.rstrip("\u2026"), f"#{op} {calls[op]['key']}: "
        expect(said[:len(name)] == name[:len(said)], "name of the key of", op)
    check_points(picture, bars, store_order(calls, orders))


def check_title(root, history):
    """The title and the first heading are the file's name, and how many of its keys are refused, if one is."""
    refused, count = re.match(r"Keys refused: (\d+) of (\d+)", elements(root, "p", "sum")[0].text).groups()
    words = history + (f": {refused} of {count} keys refused" if int(refused) else "")
    expect(next(root.iter("title")).text == words == next(root.iter("h1")).text, "title", next(root.iter("h1")).text, "and not", words)


def check_page(text, history, orders):
    root = read_page(text)
    check_table(root)
    calls = calls_of(history)
    keys = {call["key"] for call in calls.values()}
    drawn = {check_key(it, calls, orders) for it in root.iter("section")}
    expect(len(drawn) == min(len(keys), 20) and drawn <= keys, "keys", drawn)
    return root


def red_calls(section):
    """The calls in the refusal's colour."""
    return {named(bar)[0] for bar in elements(section, "g", "faulty")}


def check_values(abd, history):
    """The page by values has the points of the orders that are found by values, and the calls of each line of `decide` in red."""
    orders = orders_in(run(abd, "justify", "--by", "values", "--unchecked", history)[1])
    status, lines = run(abd, "decide", "--json", history)
    decided = {it["key"]: it for it in map(json.loads, lines.splitlines())}
    expect({key for key, it in decided.items() if it["verdict"] == "atomic"} == set(orders), "keys with orders", orders)
    drawn_status, page = run(abd, "draw", "--by", "values", history)
    expect(drawn_status == status, "status", drawn_status)
    check_title(check_page(page, history, orders), history)
    for section in read_page(page).iter("section"):
        key = next(section.iter("h2")).text.partition(": ")[0]
        is_refused = decided[key]["verdict"] == "not atomic"
        expect(red_calls(section) == (set(decided[key]["calls"]) if is_refused else set()), "red calls of", key)


def check_whole_values(abd, history):
    """The picture of all keys by values has the points of one order; or the red calls of the first key that isn't atomic."""
    orders = orders_in(run(abd, "justify", "--by", "values", "--unchecked", history)[1])
    status, lines = run(abd, "decide", "--json", history)
    decided = list(map(json.loads, lines.splitlines()))
    drawn_status, page = run(abd, "draw", "--whole", "--by", "values", "--calls", "10000", history)
    expect(drawn_status == status, "status", drawn_status)
    if all(it["verdict"] == "atomic" for it in decided):
        check_whole(page, history, orders)
        return
    section = next(read_page(page).iter("section"))
    refused = [it for it in decided if it["verdict"] == "not atomic"]
    expect(section.find("h2").text == "all keys: a key is " + ("refused" if refused else "undecided"), "heading", section.find("h2").text)
    expect(red_calls(section) == (set(refused[0]["calls"]) if refused else set()), "red calls of all keys")
    counts = [it.text for it in elements(section, "p", "sum")]
    expect([re.match(r"Keys refused: (\d+)\.", it).group(1) for it in counts] == [str(len(refused))] * bool(refused), "refused keys", counts)
    expect(not elements(section, "circle"), "points of all keys")


def spoil(history, seed):
    """Some reads answer what another one answers, or nothing."""
    chance = random.Random(seed)
    with open(history, encoding="utf-8") as file:
        rows = [json.loads(line) for line in file]
    answers = [row["value"] for row in rows if row.get("row") == "respond" and "value" in row] + [None]
    with open(history, "w", encoding="utf-8") as file:
        for row in rows:
            if row.get("row") == "respond" and "value" in row and chance.random() < 0.1:
                row["value"] = chance.choice(answers)
            file.write(json.dumps(row, sort_keys=True, separators=(",", ":"), ensure_ascii=False) + "\n")


def orders_of(path):
    """The calls of each key in the order of the file."""
    with open(path, encoding="utf-8") as file:
        return orders_in(file.read())


def orders_in(text):
    """The same of the file's text."""
    orders = {}
    for line in text.split("\n")[1:-1]:
        piece = json.loads(line)
        orders.setdefault(piece["key"], []).extend(piece["order"])
    return orders


def check_history(abd, place, history):
    order_file = os.path.join(place, "orders")
    with open(order_file, "w", encoding="utf-8") as file:
        file.write(run(abd, "justify", history)[1])
    orders = orders_of(order_file)
    for words in ([], [order_file]):
        check_title(check_page(run(abd, "draw", history, *words)[1], history, orders), history)
        check_whole(run(abd, "draw", "--whole", "--calls", "10000", history, *words)[1], history, orders)
    check_refused(abd, place, history, orders)
    return orders


def swapped(order, calls):
    """The order with two reads beside each other swapped, of which one ended before the other began; else the order."""
    for place, (one, other) in enumerate(zip(order, order[1:])):
        ended = calls[one]["ends"]
        if calls[one]["kind"] == calls[other]["kind"] == "read" and ended and ended < calls[other]["begins"]:
            return order[:place] + [other, one] + order[place + 2:]
    return order


def check_arrow(section, order, verdict):
    """Of an order that lists a call before one that had ended when it began, an arrow leads from that one to it, where both have bars."""
    bars = {named(bar)[0]: bar for bar in section.iter("g")}
    broken = re.fullmatch(r"no 6 order broken at (\d+) and (\d+)", verdict)
    pair = [order[int(place)] for place in broken.groups()[::-1]] if broken else []
    arrows, words = elements(section, "polyline", "arrow"), elements(section, "text", "before")
    expect(len(arrows) == len(words) == (len(pair) == 2 and set(pair) <= set(bars)), "arrows of", verdict)
    for arrow, word in zip(arrows, words):
        (x, y), (over, _), (tip, foot) = points_of(arrow)[:3]
        left, right, top, bottom = corners(bars[pair[0]])
        expect(left <= x <= right and top < y < bottom, "begin of the arrow from", pair[0])
        left, right, top, bottom = corners(bars[pair[1]])
        expect(left < over == tip < right and foot == top, "end of the arrow to", pair[1])
        expect(word.text == "before" and y < number(word, "y") < y + 20, "word of the arrow from", pair[0])


def check_refused(abd, place, history, orders):
    """Of an order that is refused each bar has its call's place, if it lists the call, and what it breaks has an arrow."""
    calls = calls_of(history)
    check_places(abd, place, history, {key: order[::-1] for key, order in orders.items()})
    check_places(abd, place, history, {key: swapped(order, calls) for key, order in orders.items()})


def check_places(abd, place, history, turned):
    """The same of these orders."""
    order_file = os.path.join(place, "turned")
    with open(order_file, "w", encoding="utf-8") as file:
        file.write('{"abd":"orders","version":1}\n')
        file.write("".join(json.dumps({"key": key, "order": order}) + "\n" for key, order in sorted(turned.items())))
    for section in read_page(run(abd, "draw", history, order_file)[1]).iter("section"):
        key, verdict = next(section.iter("h2")).text.split(": ", 1)
        check_arrow(section, turned[key], verdict.partition(", hall ")[0])
        for bar in section.iter("g"):
            op, said = named(bar)[0], re.search(r"#\d+ \[(\d+)\]", bar.find("text").text)
            own = turned[key].index(op) if verdict.startswith("no") and op in turned[key] else None
            expect((int(said.group(1)) if said else None) == own, "place in the order of", op, bar.find("text").text)


def check_unruly(abd, place):
    """Values that look like markup stay texts, whole in the titles."""
    path = os.path.join(place, "unruly")
    with open(path, "w", encoding="utf-8") as file:
        file.write('{"abd":"history","version":1}\n')
        for call, value in enumerate(UNRULY):
            file.write(json.dumps({"call": call, "client": call + 1, "do": "write", "key": "x", "row": "invoke", "value": value}) + "\n")
    root = read_page(run(abd, "draw", path)[1])
    titles = [it.find("title").text for it in root.iter("g")]
    expect(len(titles) == len(UNRULY), "titles", titles)
    for value, title in zip(UNRULY[:5], titles):
        expect(json.dumps(value) in title, value, "in", title)


def check_many(abd, place, seed):
    """A history of many clients, each with one call or some, of which few are under way at once."""
    path, chosen = os.path.join(place, "many"), random.Random(seed)
    rows, busy, gone, call, client = [], [], set(), 0, 1
    while call < 150 or busy:
        if call < 150 and len(busy) < chosen.randint(1, 12):
            again = [it for it in range(1, client) if it not in gone and chosen.random() < 0.02]
            caller = again[0] if again else client
            client = max(client, caller + 1)
            if chosen.random() < 0.2:  # a write that fails: it is never answered
                rows.append({"call": call, "client": caller, "do": "write", "key": "x", "row": "invoke", "value": str(call)})
            else:
                rows.append({"call": call, "client": caller, "do": "read", "key": "x", "row": "invoke"})
                busy.append((call, caller))
            gone.add(caller)
            call += 1
        else:
            op, caller = busy.pop(chosen.randrange(len(busy)))
            if chosen.random() < 0.95:
                rows.append({"call": op, "row": "respond", "value": None})
                gone.discard(caller)
    with open(path, "w", encoding="utf-8") as file:
        file.write('{"abd":"history","version":1}\n' + "".join(json.dumps(it) + "\n" for it in rows))
    own = calls_of(path)
    section = next(read_page(run(abd, "draw", "--by", "values", path)[1]).iter("section"))
    check_calls(section, own, 200, "many clients")


def count(trace, pattern):
    return len(re.findall(pattern, trace, re.M))


def items(diagram, *kinds):
    """The calls or the messages that the diagram lists; each can have the focus."""
    found = [it for it in diagram if it.get("role") == "listitem" and it.get("class") in kinds]
    expect(all(it.get("tabindex") == "0" and it.find("title").text for it in found), "items that have the focus", kinds)
    return found


def texts(diagram, kind):
    return ["".join(it.itertext()).strip() for it in elements(diagram, "text", kind)]


def check_said(diagram, trace):
    """Numbers of messages, votes, and reasons of what was refused are those of the trace, in its order."""
    numbers = [int(one or other) for one, other in re.findall(r": message (\d+)$|message (\d+) gets one more copy$", trace, re.M)]
    arrows = items(diagram, "request", "reply")
    expect([int(re.match(r"message (\d+): ", it.find("title").text).group(1)) for it in arrows] == numbers, "numbers of messages")
    expect([int("".join(it.find("text").itertext()).split(" ")[0]) for it in arrows] == numbers, "numbers at arrows")
    reasons = re.findall(r" (is refused: .*)$", trace, re.M)
    expect(texts(diagram, "reason") == reasons and len(elements(diagram, "text", "refused")) == len(reasons), "refused rows", reasons)
    votes = [one or "enough votes" for one in re.findall(r": (\d+ of \d+ votes)$|: a put quorum; its call is ready$", trace, re.M)]
    expect(texts(diagram, "counted") == votes, "votes", texts(diagram, "counted"), "of", votes)
    expect(texts(diagram, "ignored") == ["stale: counts nothing"] * count(trace, r"; the reply is stale"), "stale replies")
    expect(len(elements(diagram, "text", "keeps")) == count(trace, r", which it keeps, and answers: "), "pairs that are kept")


def check_curtains(diagram, trace):
    """The curtain of each row hides the rows after its own, links to those before and after it, and says what the trace tells of it."""
    rows = [number(it, "y1") for it in elements(diagram, "line", "step")]
    curtains = elements(diagram, "g", "curtain")
    expect(len(curtains) == (len(rows) if len(rows) <= 1000 else 0), "curtains of", len(rows), "rows")
    for place, curtain in enumerate(curtains):
        box = curtain.find("rect")
        top, foot = number(box, "y"), number(box, "y") + number(box, "height")
        hidden = [row for row in rows if top < row < foot]
        expect(hidden == rows[place + 1:] and curtain.get("id") == f"step-{place}", "curtain", place)
        near = [f"#step-{it}" for it in (place - 1, place + 1) if 0 <= it < len(rows)]
        expect([it.get("href") for it in curtain.iter("a")] == near + ["#messages"], "links of curtain", place)
    lines = re.findall(r"^(?:  |line \d+: )(?!(?:finish \d+|random \d+ \d+):$|took \d+ )(.*)$", trace, re.M)
    said = texts(diagram, "sentence")
    expect(len(said) == (len(lines) if curtains else 0), "sentences", said, "of", lines)
    for one, line in zip(said, lines):
        expect(one == line or one.endswith("…") and line.startswith(one[:-1]), "sentence", one, "of", line)


def message_of(arrow):
    """The number of an arrow's message, as its label has it."""
    return int("".join(arrow.find("text").itertext()).split(" ")[0])


def calls_and_answers(trace):
    """Of each message the call that it belongs to, and the message that it answers, if it does."""
    calls, asked, under_way = {}, {}, {}
    for line in trace.split("\n"):
        begun = re.search(r"client (\d+) begins .*: call (\d+); it asks$", line)
        sent = re.search(r"client (\d+) (?:asks|puts) .*: message (\d+)$", line)
        answered = re.search(r"message (\d+) arrives: replica .* and answers: message (\d+)$", line)
        if begun:
            under_way[begun.group(1)] = int(begun.group(2))
        elif sent:
            calls[int(sent.group(2))] = under_way[sent.group(1)]
        elif answered:
            request, reply = int(answered.group(1)), int(answered.group(2))
            calls[reply], asked[reply] = calls[request], request
    return calls, asked


def shown_bar(bar):
    return [(it.tag, it.get("class"), it.get("x"), it.get("y"), it.get("points")) for it in bar if it.tag in ("rect", "polyline")]


def check_lit(diagram, trace):
    """What is seen alone of a call are its messages; of a message its call, and its answer or what it answers."""
    calls, asked = calls_and_answers(trace)
    arrows, bars = items(diagram, "request", "reply"), items(diagram, "reading", "writing")
    groups = [next((it for it in one if it.get("class") == "lit"), None) for one in arrows + bars]
    if len(elements(diagram, "line", "step")) > 1000:
        expect(all(it is None for it in groups), "what is seen alone of a large diagram")
        return
    bar_of = {int(re.match(r"#(\d+) ", it.find("title").text).group(1)): it for it in bars}
    pairs = set()
    for one, lit in zip(arrows, groups):
        message = message_of(one)
        expect(lit.get("aria-hidden") == "true", "what is seen alone is told twice")
        own = [shown_bar(it) for it in lit if it.get("class") in ("reading", "writing")]
        expect(own == [shown_bar(bar_of[calls[message]])], "call of message", message)
        pairs |= {(message, message_of(it)) for it in lit if it.get("class") in ("request", "reply")}
    both = {pair for reply, request in asked.items() for pair in ((reply, request), (request, reply))}
    expect(pairs == both, "answers", pairs ^ both)
    for call, bar in bar_of.items():
        lit = next(it for it in bar if it.get("class") == "lit")
        own = [message_of(it) for it in lit if it.get("class") in ("request", "reply")]
        expect(own == [message_of(it) for it in arrows if calls[message_of(it)] == call], "messages of call", call)


def rows_across(arrow):
    line = arrow.find("line")
    return number(line, "y1"), number(line, "y2")


def check_strips(root, diagram):
    """On paper each row is in one strip, with the names above it; and a strip has the arrows that cross it."""
    rows = [number(it, "y1") for it in elements(diagram, "line", "step")]
    names = [it.text for it in elements(diagram, "text", "who") if number(it, "y") < 20]
    strips = [it for it in root.iter("div") if (it.get("class") or "").startswith("strip ")]
    expect(len(strips) == (-(-len(rows) // 32) if len(names) <= 10 else 0), "strips of", len(rows), "rows")
    shown = []
    for strip in strips:
        above, below = strip.findall("svg")
        left, top, width, height = [float(it) for it in below.get("viewBox").split()]
        expect([it.text for it in elements(above, "text", "who") if number(it, "y") < number(above, "height")] == names, "names of a strip")
        own = [number(it, "y1") for it in elements(below, "line", "step")]
        expect(all(top < row < top + height for row in own) and height == 28 * len(own), "rows of a strip", own)
        expect(not any(it.get("tabindex") or it.get("id") for it in strip.iter()), "places of a strip")
        shown += own
        crossing = [rows_across(it) for it in items(diagram, "request", "reply")]
        crossing = [it for it in crossing if it[0] < top + height and it[1] > top]
        expect([rows_across(it) for it in below if it.get("class") in ("request", "reply")] == crossing, "arrows of a strip")
    expect(not strips or shown == rows, "rows of the strips", shown)


def check_script_lines(root, words, script):
    """The page has the script, with escapes for control characters, and each row links to its line of it."""
    with open(script, encoding="utf-8", newline="") as file:
        text = re.sub("\r?\n", "\n", file.read())
    text = re.sub("[\0-\x09\x0b-\x1f\x7f-\x9f]", lambda it: f"\\u{ord(it[0]):04x}", text)
    lines = text.removesuffix("\n").split("\n")
    expect(words.removesuffix("\n").split("\n") == lines, "script", script)
    places = {it.get("id"): it.text or "" for it in root.iter("span") if (it.get("id") or "").startswith("script-")}
    expect(places == {f"script-{place}": line for place, line in enumerate(lines, 1)}, "lines of", script)
    diagram = next(it for it in root.iter("svg") if it.get("role") == "list")
    links = [it for it in diagram.findall("a") if it.find("text").get("class") == "source"]
    for link in links:
        expect(link.find("text").text == "script line " + link.get("href").removeprefix("#script-"), "link of a row", link.get("href"))
    expect(len(links) == len(elements(diagram, "line", "step")), "links of rows", len(links))


def check_trace(abd, script, history, orders):
    """The messages of a trace's page are those of the trace in words, and the pictures those of the history."""
    page = run(abd, "trace", script, "--draw", "--most", "10000")[1]
    check_page(page, history, orders)
    root = read_page(page)
    expect(len(next(root.iter("main")).findall("h2")) == 1, "heading of the history of", script)
    trace = run(abd, "trace", script)[1]
    words, told = [("".join(it.itertext())) for it in root.iter("pre")]
    expect(told == trace, "trace of", script)
    check_script_lines(root, words, script)
    if "lines left out" in trace:
        return
    diagram = next(it for it in root.iter("svg") if it.get("role") == "list")
    arrows = items(diagram, "request", "reply")
    ends = [it.find("line").get("class") for it in arrows]
    expect(len(arrows) == count(trace, r": message \d+$") + count(trace, r"gets one more copy$"), "messages")
    arrived = ends.count("arriving") + ends.count("stale")
    expect(arrived == count(trace, r"^( |line \d+: )*message \d+ arrives: "), "messages that arrive")
    expect(ends.count("stale") == count(trace, r"; the reply is stale and changes nothing$"), "stale replies")
    expect(ends.count("lost") == count(trace, r"a copy of message \d+ is lost$"), "messages that are lost")
    bars = items(diagram, "reading", "writing")
    expect(len(bars) == count(trace, r": call \d+; it asks$"), "calls of a trace")
    check_said(diagram, trace)
    check_curtains(diagram, trace)
    check_lit(diagram, trace)
    check_strips(root, diagram)


def check_script(abd, place, seed):
    script, history = os.path.join(place, "script"), os.path.join(place, "history")
    with open(script, "wb") as file:
        words = [sys.executable, os.path.join(HERE, "..", "benchmarks", "random_script.py"), "--seed", str(seed), "--lines", "300"]
        file.write(subprocess.run(words, capture_output=True, check=True).stdout)
    status, text = run(abd, "simulate", script)
    if status == 0:
        with open(history, "w", encoding="utf-8") as file:
            file.write(text)
        check_trace(abd, script, history, check_history(abd, place, history))
        check_values(abd, history)
        check_whole_values(abd, history)
        spoil(history, seed)
        check_values(abd, history)
        check_whole_values(abd, history)
    return status == 0


def main():
    abd = os.path.abspath(sys.argv[1])
    count = int(sys.argv[2]) if len(sys.argv) > 2 else 100
    with tempfile.TemporaryDirectory() as place:
        check_unruly(abd, place)
        for seed in range(5):
            check_many(abd, place, seed)
        checked = sum(check_script(abd, place, seed) for seed in range(count))
    print(f"the pages of {checked} histories show what they hold")


if __name__ == "__main__":
    if len(sys.argv) not in (2, 3):
        sys.exit(__doc__)
    try:
        main()
    except Wrong as wrong:
        sys.exit(f"a page is wrong: {wrong}")
