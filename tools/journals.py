#!/usr/bin/env python3
"""Writes the worked journals of crates/flow_vectors/proofs with a reference program.

    journals.py REFERENCE OUT

REFERENCE is the folder of a reference program in Python (`machine.py`, `schedule.py`, `events.py`, `report.py`,
`shorthand.py`); OUT is the folder of the modules. Each document is run on one thread; the module states what holds
of its journal, and that the journal with one field of one event changed isn't legal, once for each kind of event
and field. The modules that aren't named here are written by hand.
"""
import os
import sys

sys.path.insert(0, os.path.dirname(os.path.abspath(__file__)))
import vectors

# name, what it shows, nodes, edges, scripts, version, limits (items or events)
CHOSEN = [
    ("TwoQueues", "an item goes on from one queue to the next, and a wait comes before the next put",
     "a queue; b queue", "a>b", ["put a 0 5; wait; put b 7 -1", "put a 3 [\"x\",[]]"], 1, {}),
    ("ItemsLimit", "a run is refused the event past its limit on items",
     "a queue; b queue", "a>b", ["put a 0 5"], 1, {"items": 1}),
    ("EventsLimit", "a run is refused its first event, as no event is allowed",
     "q queue", "", ["put q 0 5"], 1, {"events": 0}),
    ("PriorityGives", "whole numbers go by value, then texts and lists, ties oldest first",
     "p priority; s queue", "p>s", ["put p 0 3; put p 1 \"z\"; put p 2 3; put p 3 -9; put p 4 7; put p 5 [1]"], 1, {}),
    ("StoresGive", "a buffer, a write-once node and a sequencer give; a value that is set and a tag that is past are refused to a caller",
     "b buffer; w write_once; q sequencer; s queue", "b>s; w>s; q>s",
     ["put b 0 1; put b 0 2; put w 0 3; put w 0 4; put q 1 5; put q 0 6; wait; put q 1 7; put q 3 8"], 1, {}),
    ("Joins", "a key join takes the least tag that is at each port; a tuple that doesn't fit becomes the empty list",
     "k join key, ports 2; j join queueing, ports 1; s queue", "k>s; j>s",
     ["put k 9 1; put k 2 2; put k.1 2 3; put k.1 9 4; put k 2 5; put j 4 %s" % ("[" * 32 + "]" * 32)], 1, {}),
    ("HandFails", "a hand that nobody takes fails and frees what it held, a kept value too, and the count stays",
     "q queue; o overwrite; l limiter, threshold 1; w write_once", "q>l; o>l; l>w", ["put w 0 9; put o 0 7; put q 0 1"], 1, {}),
    ("CastsHeld", "what a function, an input and a queueing join offer is held, taken and freed",
     "f function, body add, arg 1; i input, body count_to, arg 1; l limiter, threshold 3; s queue; m limiter, threshold 1; w write_once",
     "f>l; i>l; l>s; f>m; m>w", ["put w 0 9; put f 0 1; act i"], 1, {}),
    ("EarlyDecrements", "a count falls by values, below none is kept as early, and texts count as one",
     "d queue; l limiter, threshold 2, decrement value; q queue", "q>l; l>d; d>l.1",
     ["put l.1 0 -2; put l.1 1 1; put l.1 2 \"a\"; put q 0 3; put q 1 0; put q 2 -5"], 1, {}),
    ("ReservingJoin", "a reserving join holds, gives up and frees, and then takes with a kept value",
     "q queue; o overwrite; j join reserving, ports 2; s queue", "q>j; o>j.1; j>s", ["put q 0 1; wait; put o 0 10; put q 1 2"], 1, {}),
    ("InputAndRejecting", "an input keeps the item that a rejecting function refused until it is asked for",
     "i input, body count_to, arg 2; f function rejecting, limit 1, body add, arg 0; g function rejecting, body neg; s queue",
     "i>f; f>s; f>g", ["put f 9 100; act i; put f 8 1"], 1, {}),
    ("CancelsDrop", "a cancel drops what waits or is ready at each kind of body node, and no body starts there",
     "f function, limit 1, body add, arg 1; m multifunction, limit 1, body split_even, outs 2; a async, limit 1; c continue, body echo; i input, body count_to, arg 9; s queue",
     "f>s; m>s; a>s; c>s; i>s", ["put f 0 1; put f 1 2; put m 0 4; put m 1 5; put a 0 6; put a 1 7; put c 0 1; cancel; put f 2 3; put c 1 1; act i"], 4, {}),
    ("Splits", "a list is split over ports, a text and a number go to the first; a broadcast reaches a continue node that needs two",
     "p split, outs 2; b broadcast; c continue, body add, arg 5; s queue; t queue", "p>s; p.1>t; p>b; b>c; s>c; c>t",
     ["put p 0 [1,\"u\",3]; put p 1 \"v\"; put p 2 4"], 4, {}),
    ("Capacities", "a full queue refuses over an edge and to a caller, and asks when there is room again",
     "a queue; b queue, capacity 1; f function rejecting, limit 1, body echo; s queue, capacity 2", "a>b; b>f; f>s",
     ["put a 0 1; put a 1 2; put b 2 3; put b 3 4; wait; put s 4 5"], 2, {}),
    ("Multifunctions", "messages go by their ports, and one to a port without an edge is lost; an async node brings its ticket back",
     "m multifunction, body split_even, outs 2; a async; s queue", "m>a; a>s", ["put m 0 4; put m 1 7; put m 2 \"t\""], 1, {}),
]


# runs of several workers, by their events
BY_HAND = [
    ("ValueReplaced", "a value is replaced while it is held, and then freed",
     "o overwrite; l limiter, threshold 1; w write_once", "o>l; l>w", ["put w 0 9; put o 0 7; put o 1 8"], 1, 1, """
put 0 2 0 0 accepted 0 kept 9
put 0 0 0 0 accepted 0 kept 7
hold 0 0 1 0 0 0 0 7
put 0 0 0 1 accepted 1 over 8
refuse 1 1 2 0 0
shut 1 0 failed
free 0 0 1 0 0
"""),
    ("InputCancelled", "an input that is cancelled while its body runs still takes the message, and starts no more",
     "i input, body count_to, arg 9; s queue", "i>s", ["act i; cancel"], 3, 2, """
act 0 0
start 1 0 0
cancel 0 0 0
end 1 0 0 0 [[0,0,0]]
give 0 0 1 0 0 0 kept 0 0
shut 0 0 out
idle 0
idle 1
leave 0
"""),
]


def by_hand(shows, doc_json, workers, lines):
    doc = document.read_doc(shorthand.text(doc_json))
    m = machine.Machine(doc.shape, len(doc.scripts), workers)
    for line in lines:
        e = E.read_event(line.encode())
        if not m.enabled(e):
            sys.exit("not enabled: " + line)
        m.make(e)
    out = vectors.HEAD % shows
    out += vectors.term("shape", "Shape", vectors.shape(doc_json))
    out += vectors.term("scripts", "List (List Step)", vectors.scripts(doc_json))
    out += vectors.term("journal", "List Event", vectors.journal(lines))
    say = vectors.theorem
    out += say("legal", "is_run shape %d %d journal ≡ true" % (len(doc.scripts), workers))
    out += say("few_workers", "is_run shape %d %d journal ≡ false" % (len(doc.scripts), workers - 1)) if workers > 1 else ""
    out += say("opening", "open_after shape journal ≡ %d" % m.open)
    for label, statement in [
            ("agreeing", "modes_agree shape journal ≡ true"), ("matching", "holds_match shape journal ≡ true"),
            ("adding", "tallies_add_up shape journal ≡ true"), ("limited", "limits_kept shape journal ≡ true"),
            ("scripted", "scripts_kept shape scripts journal ≡ true"), ("answered", "bodies_kept builtin shape journal ≡ true")]:
        out += say(label, statement)
    return out


def main():
    reference, out = sys.argv[1:3]
    sys.path.insert(0, reference)
    global E, shorthand, document, machine, schedule, report
    import events as E
    import shorthand
    import document
    import machine
    import schedule
    import report
    seen = set()
    for name, shows, nodes, edges, scripts, version, limits in CHOSEN:
        doc_json = shorthand.document(nodes, edges, *scripts, version=version)
        text = module(name, shows, doc_json, limits, seen)
        with open(os.path.join(out, name + ".antt"), "w") as f:
            f.write(text)
    for name, shows, nodes, edges, scripts, version, workers, lines in BY_HAND:
        doc_json = shorthand.document(nodes, edges, *scripts, version=version)
        with open(os.path.join(out, name + ".antt"), "w") as f:
            f.write(by_hand(shows, doc_json, workers, lines.strip().split("\n")))
    missing = (WANTED | RESTLESS) - seen
    if missing:
        print("no changed journal for: " + ", ".join(sorted("%s.%s" % m for m in missing)))


def changed_events(e):
    """The event with each of its parts changed once, with the part's name."""
    for part in e._fields:
        value = getattr(e, part)
        if type(value) is int:
            yield part, e._replace(**{part: value + 1})
        elif type(value) is bool:
            yield part, e._replace(**{part: not value})
        elif part == "link":
            for end in value._fields:
                yield "link." + end, e._replace(link=value._replace(**{end: getattr(value, end) + 1}))
        elif part == "item" and type(value) is E.Item:
            yield "item.no", e._replace(item=value._replace(no=value.no + 1))
            yield "item.tag", e._replace(item=value._replace(tag=value.tag + 1))
            yield "item.val", e._replace(item=value._replace(val=-77))
        elif part == "land":
            yield part, e._replace(land="lost" if value != "lost" else "kept")
        elif part == "ended":
            other = {"out": "lost", "lost": "out", "won": "failed", "failed": "won"}[value]
            yield part, e._replace(ended=other)
        elif part == "answer":
            if type(value) is E.Accepted:
                yield "answer.no", e._replace(answer=value._replace(no=value.no + 1))
                yield "answer.land", e._replace(answer=value._replace(land="lost" if value.land != "lost" else "kept"))
            else:
                yield "answer.cause", e._replace(answer=E.Accepted(0, "kept"))
        elif part == "parts":
            yield part, e._replace(parts=tuple(p._replace(no=p.no + 1) for p in value))
        elif part == "outs" and type(e) is E.Split:
            yield part, e._replace(outs=value[:-1] if value else value)


KIND = {"Put": "put", "Act": "act", "Cancel": "cancel", "Leave": "leave", "Give": "give", "Refuse": "refuse", "NoItem": "none",
        "Hold": "hold", "Take": "take", "Free": "free", "Start": "start", "End": "end", "Back": "back", "Form": "form",
        "Split": "split", "Shut": "shut", "Idle": "idle"}

RESTLESS = set(("idle", k) for k in ("give", "refuse", "none", "hold", "take", "free", "form", "split", "shut"))

LINKS = ["link.edge", "link.frm", "link.to", "link.port"]
WANTED = set((k, p) for k, ps in {
    "put": ["answer.no", "answer.land", "answer.cause"],
    "give": LINKS + ["item.no", "item.tag", "item.val", "no", "land"],
    "refuse": LINKS + ["item"], "none": LINKS,
    "hold": LINKS + ["item.no", "item.tag", "item.val", "no"],
    "take": LINKS + ["item"], "free": LINKS + ["item"],
    "start": ["item"], "end": ["item", "first"], "back": ["item", "first"],
    "form": ["no", "parts"], "split": ["item", "first", "outs"], "shut": ["item", "ended"], "cancel": ["dropped"],
}.items() for p in ps)


def module(name, shows, doc_json, limits, seen):
    doc = document.read_doc(shorthand.text(doc_json))
    run = schedule.PlainRun(doc, **limits)
    run.run()
    lines = [E.event_line(e) for e in run.journal]
    out = vectors.HEAD % shows
    out += vectors.term("shape", "Shape", vectors.shape(doc_json))
    out += vectors.term("scripts", "List (List Step)", vectors.scripts(doc_json))
    out += vectors.term("journal", "List Event", vectors.journal(lines))
    say = vectors.theorem
    out += say("legal", "is_run shape %d 1 journal ≡ true" % len(doc.scripts))
    out += say("bearing", "births journal ≡ %d" % sum(E.births(e) for e in run.journal))
    if run.refused is None:
        out += say("closed", "open_after shape journal ≡ 0")
    else:
        out += vectors.term("refused", "Event", vectors.event(E.event_line(run.refused)))
        out += say("passing", "passes_limit shape %d 1 %d %d journal refused ≡ true" % (len(doc.scripts), limits.get("items", 1000000), limits.get("events", 32000000)))
        out += say("refused_next", "is_scheduled shape scripts (journal ++ refused ∷ []) ≡ true")
    for label, statement in [
            ("agreeing", "modes_agree shape journal ≡ true"), ("matching", "holds_match shape journal ≡ true"),
            ("adding", "tallies_add_up shape journal ≡ true"), ("limited", "limits_kept shape journal ≡ true"),
            ("scripted", "scripts_kept shape scripts journal ≡ true"), ("scheduled", "is_scheduled shape scripts journal ≡ true"),
            ("answered", "bodies_kept builtin shape journal ≡ true")]:
        out += say(label, statement)
    ledgers = report.Ledgers(doc.shape)
    for e in run.journal:
        ledgers.add(e)
    for n, ledger in enumerate(ledgers.of):
        fields = "; ".join("%s = %d" % p for p in zip(["came", "out", "eaten", "lost", "over"], ledger.counts()))
        out += say("tally_%d" % n, "tally_of %d (%s) journal ≡ record { %s }" % (n, vectors.kind(doc_json["nodes"][n]), fields))
        out += say("kept_%d" % n, "kept_of (tally_of %d (%s) journal) ≡ %d" % (n, vectors.kind(doc_json["nodes"][n]), ledger.kept()))
    out += wrong(doc, run, seen)
    return out


def wrong(doc, run, seen):
    """Events that may not follow the first events of the journal."""
    out = ""
    m = machine.Machine(doc.shape, len(doc.scripts), 1)
    count = 0
    for k, e in enumerate(run.journal):
        for part, bad in changed_events(e):
            key = (KIND[type(e).__name__], part)
            if key in WANTED and key not in seen and not m.enabled(bad):
                seen.add(key)
                out += "\n-- %s with another %s" % (key[0], part.replace("frm", "from").replace(".", " "))
                out += vectors.theorem("wrong_%d" % count, "may_follow shape (first_of %d journal) (%s) ≡ false" % (k, vectors.event(E.event_line(bad))))
                count += 1
        m.make(e)
        for n, node in enumerate(m.nodes):
            reason = ("idle", next_kind(run, k, n))
            if reason in RESTLESS and reason not in seen and node.due and not m.enabled(E.Idle(n)):
                seen.add(reason)
                out += "\n-- the node isn't at rest: it has a %s to make" % reason[1]
                out += vectors.theorem("early_%d" % count, "may_follow shape (first_of %d journal) (idle %d) ≡ false" % (k + 1, n))
                count += 1
    return out


def next_kind(run, k, n):
    """The kind of the node's own next event."""
    for e in run.journal[k + 1:]:
        if n in E.nodes_of(e):
            return KIND[type(e).__name__]
    return None


if __name__ == "__main__":
    main()
