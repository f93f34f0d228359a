#!/usr/bin/env python3
"""Makes site.bin, sheet.bin and sheet.txt (both in words) of a small station, here in this folder.
With --check it writes nothing: it names each of the three that is not what it would write, and then ends with status 1.

Crossing 0: four full booms, two plain tracks. Crossing 1: half booms, track 0 plain, track 1 behind a main signal.
The sheet is a day of trains; the quiet hours between them are left out. A tick is a third of a second.
"""
import itertools
import os
import sys

F0, G0, M0 = 24, 12, 90                         # 8 s, 4 s and 30 s at crossing 0
F1 = 30                                         # 10 s at crossing 1, which leaves motorists no time
SITE = ((4, 2, 0, F0, G0, M0), (2, 2, 2, F1, 0, 0))  # kind, tracks, mask, F, G, M of each crossing
TRAVEL = 6                                      # ticks from a boom's order to its end position
ROAD_RED = 1                                    # the lamp reported dead in the afternoon
UP, MOVING, DOWN, LOST = range(4)               # boom reports
day = []                                        # its parts, each a heading and events
opened = {}                                     # by crossing: the ticks before its booms were last up again

# Entering events ----------------------------------------------------------------------------------------------------------------


def part(heading):
    day.append((heading, []))


def event(code, crossing=0, place=0, value=0, refused=0):
    day[-1][1].append((code, crossing, place, value, refused))


def ticks(n):
    for _ in range(n):
        event(0)


def sheet():
    return [e for _, events in day for e in events]


def now():
    """The ticks so far."""
    return sum(e[0] == 0 for e in sheet())


def left(c):
    """The ticks that motorists have left: M from when the booms were up again (T-06)."""
    return max(0, opened[c] + SITE[c][5] - now()) if c in opened else 0


def strike(c, t, refused=0): event(1, c, t, 0, refused)
def passage(c, t, refused=0): event(2, c, t, 0, refused)
def kiosk(c, v): event(3, c, 0, v)
def operator(c, v, refused=0): event(4, c, 0, v, refused)
def route(c, t, v, refused=0): event(5, c, t, v, refused)
def approach(c, t, v): event(6, c, t, v)
def release(c, refused=0): event(7, c, 0, 0, refused)
def lamp(c, l, v): event(9, c, l, v)


def booms(c, which, end):
    """The booms leave their position, travel, and arrive."""
    for b in which:
        event(8, c, b, MOVING)
    ticks(TRAVEL)
    for b in which:
        event(8, c, b, end)


def close(c):
    """From the call to the last boom down, as the crossing orders it, once motorists have had their time."""
    ticks(left(c))
    if c == 0:
        ticks(F0)
        booms(0, (0, 1), DOWN)
        ticks(G0 - TRAVEL)
        booms(0, (2, 3), DOWN)
    else:
        ticks(F1)
        booms(1, (0, 1), DOWN)


def rise(c):
    booms(c, (0, 1, 2, 3) if c == 0 else (0, 1), UP)
    opened[c] = now()


def plain_train(c, t):
    strike(c, t)
    close(c)
    ticks(10)
    passage(c, t)
    rise(c)


def stopping_train():
    """Waits at the platform before the main signal of track 1 until its route is set."""
    approach(1, 1, 1)
    strike(1, 1)
    ticks(20)
    route(1, 1, 1)
    close(1)
    ticks(10)
    passage(1, 1)
    approach(1, 1, 0)
    route(1, 1, 0)
    rise(1)


# The day ------------------------------------------------------------------------------------------------------------------------
part("Morning: trains both ways.")
for k in range(6):
    plain_train(0, k % 2)
    plain_train(1, 0)
    stopping_train()

part("Two trains meet at crossing 0: it opens after the second.")
strike(0, 0)
close(0)
strike(0, 1)
ticks(8)
passage(0, 0)
ticks(8)
passage(0, 1)
rise(0)

part("Noon: a herd crosses under the operator's hold. No time release under a hold; the hold stays while a train calls.")
operator(1, 1)
release(1, refused=12)
close(1)
strike(1, 0)
operator(1, 0, refused=11)
ticks(10)
passage(1, 0)
operator(1, 0)
rise(1)

part("Afternoon: the road's red lamp fails before a train and is repaired before the train passes.")
strike(0, 0)
close(0)
lamp(0, ROAD_RED, 0)
ticks(12)
lamp(0, ROAD_RED, 1)
ticks(10)
passage(0, 0)
rise(0)

part("Two trains turn back, one that waited at crossing 1 and one that called at crossing 0: the 270th tick writes off both.")
strike(1, 1)
strike(0, 1)
close(0)
release(1)
release(0)
ticks(270)
rise(0)

part("Entries made in error: no train, a plain track, no third boom, no third crossing, no such code.")
passage(0, 1, refused=10)
route(1, 0, 1, refused=13)
event(8, 1, 2, 0, refused=7)
strike(2, 0, refused=6)
event(10, refused=5)

part("Evening: more trains. At crossing 0 each calls while motorists have time left, and waits for the warning.")
for k in range(6):
    plain_train(0, k % 2)
    stopping_train()

part("A kiosk hold, which waits for motorists too, given up during the warning. The last train has its route and has not passed when the sheet ends.")
kiosk(0, 1)
ticks(left(0) + 5)
kiosk(0, 0)
strike(1, 1)
route(1, 1, 1)
close(1)
ticks(-now() % 4)                               # the panel is drawn at beat 0

# In words -----------------------------------------------------------------------------------------------------------------------
KINDS = {1: "lights only", 2: "half booms", 3: "two full booms", 4: "four full booms"}
LAMPS = ("road white", "road red", "train signal red", "train signal white", "flasher")
EVENTS = (                                      # by code, then by value
    ("tick",),
    ("strike-in on track {0}",),
    ("passage on track {0}",),
    ("kiosk hold off", "kiosk hold on"),
    ("operator hold off", "operator hold on"),
    ("route of track {0} cancelled", "route of track {0} set"),
    ("approach of track {0} free", "approach of track {0} occupied"),
    ("time release begins",),
    ("boom {0} reported up", "boom {0} reported moving", "boom {0} reported down", "position of boom {0} lost"),
    ("lamp {0} reported dead", "lamp {0} reported whole"),
)


def hexes(data):
    return " ".join(f"{b:02x}" for b in data)


def length(n):
    return f"{n} ticks ({n / 3:.3g} s)"


def entry_words(kind, tracks, mask, f, g, m):
    named = [f"track {t} " + ("depends on a route" if mask >> t & 1 else "plain") for t in range(tracks)]
    return f"{KINDS[kind]}; {', '.join(named)}; F {length(f)}" + (f", G {length(g)}" if g else "") + (f", M {length(m)}" if m else "")


def event_words(code, crossing, place, value):
    if code >= len(EVENTS):
        return f"unknown code {code}"
    said = EVENTS[code][value].format(LAMPS[place] if code == 9 else place)
    return said if code == 0 else f"crossing {crossing}: {said}"


def line(first, run):
    """A run of equal events, the first of this number."""
    *event, refused = run[0]
    span = f"{first}-{first + len(run) - 1}" if len(run) > 1 else f"{first}"
    times = f" x {len(run)} ({len(run) / 3:.3g} s)" if event[0] == 0 else ""
    return f"{span:>9}  {hexes(event)}  {event_words(*event)}{times}" + (f": refused {refused}" if refused else "")


def text():
    yield "site.bin and sheet.bin in words, written by make.py. A tick is a third of a second."
    yield f"\nsite.bin: {hexes(site_bytes())}"
    for i, entry in enumerate(SITE):
        yield f"crossing {i}: {entry_words(*entry)}"
    yield f"\nsheet.bin: {len(sheet())} events, numbered from 0, each with its code, crossing, place and value"
    first = 0
    for heading, events in day:
        yield f"\n{heading}"
        for _, run in itertools.groupby(events):
            run = list(run)
            yield line(first, run)
            first += len(run)


# Files --------------------------------------------------------------------------------------------------------------------------


def site_bytes():
    firsts = b"".join(bytes(e[:3]) for e in SITE)
    return bytes([len(SITE)]) + firsts + b"".join(v.to_bytes(2, "little") for e in SITE for v in e[3:])


def sheet_bytes():
    events = sheet()
    return len(events).to_bytes(2, "little") + bytes(e[0] for e in events) + b"".join(bytes(e[1:4]) for e in events)


def held(name):
    """What the folder has under this name."""
    if not os.path.isfile(name):
        return None
    with open(name, "rb") as f:
        return f.read()


def main(words):
    if words not in ([], ["--check"]):
        sys.exit("usage: make.py [--check]")
    assert len(sheet()) <= 4096
    os.chdir(os.path.dirname(os.path.abspath(__file__)))
    files = {"site.bin": site_bytes(), "sheet.bin": sheet_bytes(), "sheet.txt": "\n".join([*text(), ""]).encode()}
    other = [name for name, data in files.items() if held(name) != data]
    if words:
        sys.exit(f"not what make.py writes: {', '.join(other)}" if other else 0)
    for name in other:
        with open(name, "wb") as f:
            f.write(files[name])
    print(f"{len(sheet())} events; written: {', '.join(other) or 'nothing, all three are as they should be'}")


main(sys.argv[1:])
