#!/usr/bin/env python3
"""Respells the names of this repository's definitions, lemmas, fields and bound variables, once, at the top of a checkout:
words in snake case, types in camel case. It goes by whole names, in specs/ and proofs/, in the clauses of src/, and between
backticks in the pages; functions of src/, comments, strings, inputs and outputs keep theirs.

usage: python3 tools/respell.py [TOP]        (TOP is the checkout; without it, the folder it is run in)
"""

import os
import re
import sys

# words, whose dashes become underscores
WORDS = """
a-limit a-resource a-timing accepted-is-written active-step activities-lead activities-read activities-right
activity-accepted activity-again activity-at activity-back activity-bytes activity-fitting activity-in activity-low
activity-of activity-right activity-said activity-step admits-is admitted-for-ever after-activity after-application
after-edge after-header after-point after-resource after-some after-timing agree-first agree-second all-active
all-active-from all-at all-ranked all-resources all-zero an-activity an-edge and-failed and-known and-refused and-true
apart-is-one-after-the-other application-again application-at application-back application-bytes application-fields
application-in application-leads application-of application-past application-read applications-active
applications-are-active applications-lead applications-right at-higher at-lower b-limit barred-for-ever begun-right
below-is body-length body-small both-cut bus-lawful bus-laws bus-parts bus-right bytes-are cell-bytes cell-count
cell-ids cells-here cells-more cells-push chosen-2 clash-moves clash-numbers clash-symmetric combines-inverse
combines-step contents-insert contents-tail core-laws core-parts count-more count-of-some current-of current-points
current-right cycle-high cycle-low cycle-positive demand-1250-has-span-105 demand-1251-has-span-106
demand-33-is-not-taken demand-limits demand-taken demands-taken divided-up divides-both divides-both-true
divides-first divides-second divisor-is-determined each-active each-leads each-push edge-again edge-back edge-bytes
edge-right edge-said edge-step edges-end edges-lead edges-right empty-cell empty-cells event-keys factor-bound
fault-refusal few-activities few-applications few-cells few-edges few-points few-resources field-bytes field-read
field-size field-taken field-written fields-lead fields-long fields-more fields-of finite-test-decides first-bound
first-limit first-steps-bound four-again four-at four-back four-fits four-items four-last four-of four-piece from-heap
from-whole gcd-greatest gcd-of gcd-positive gcd-swap greatest-step greatest-zero grid-repeats grow-activity grow-edge
grow-point grow-resource grow-timing grown-by has-activity header-again header-back header-bytes header-fault
header-in header-right header-taken identity-step identity-zero idle-activity idle-timing if-fewer if-more-activities
if-more-applications in-cycle in-part insert-same insert-sorted inverse-solves is-edge is-ranked joined-push
judge-field kind-by kind-is kind-laws kind-of kinds-fit label-fits largest-divisor last-from last-latency late-in
later-lead later-place later-slot leads-read least-bound least-limit length-is length-low length-there less-differs
less-end less-longer less-same less-told letter-written link-laws link-parts link-right link-time long-front long-s
long-v long-ys may-follow meet-first meet-second more-activities more-applications more-or-end most-activities
most-applications most-cells most-edges most-points most-resources moving-on-alters-nothing multiples-rest
never-itself next-cycle next-kind no-activities no-activity no-application no-applications no-resource no-some
none-early not-apart not-here now-there of-application ok-else ok-then omega-len on-grid one-more-written one-read
one-repeat opening-is-exact opening-line order-is-determined other-steps other-steps-bound other-version others-after
out-beyond out-same outlasts-says overlapping-itself overlaps-come-early p-limit p-positive pair-number plan-of
point-again point-back point-bytes point-in point-low point-right point-said point-step points-of points-right
points-rise popped-cut pushed-some put-put q-limit q-positive quotient-bound quotient-positive ranked-first
ranked-same ranked-shuffled ranked-sorted ranking-by rate-positive reach-limit read-settled reading-is reading-of
reads-written ready-keys ready-whole refused-whole repeat-5000-admits-3800 repeat-5000-does-not-admit-4000
repeat-7500-admits-none repeat-limits resource-again resource-at resource-back resource-bytes resource-in
resource-right resource-said resource-step resources-right rest-multiples rests-meet-by-the-divisor right-from
right-here right-is-known right-is-known-edge round-at rounded-up said-is same-cycle same-empty same-front same-ids
same-repeat same-slot second-bound second-limit senders-fit settled-application shuffled-same size-some size-written
slot-after slot-from slot-limits slot-test slots-low smallest-chosen some-a some-activities some-applications some-r some-resources some-t
sound-is-known span-limits step-accepted step-judged step-next step-settled step-some steps-bound table-is-right
table-points table-right tables-right tag-there test-is test-says time-limits timing-low timing-right timing-said
timings-right to-heap told-equal told-less true-of-both turn-ids two-again two-last two-of two-piece unless-none
unsound-bars-nothing unsound-takes-nothing untaken-is-not-admitted whole-joined whole-none whole-right
windows-repeat-after-the-divisor with-activities with-activity with-applications with-current with-edge with-edges
with-point with-points with-resource with-resources written-form-tells written-is-accepted written-more x-bound
y-bound
""".split()

# types and facts, in camel case, and lemmas that join the names of two definitions by a dash
OTHERS = dict(pair.split(":") for pair in """
Activities-right:ActivitiesRight  Activity-part:ActivityPart  Apart-is-one-after-the-other:ApartIsOneAfterTheOther
Application-part:ApplicationPart  Applications-right:ApplicationsRight  Current-right:CurrentRight
Divisor-is-determined:DivisorIsDetermined  Edge-part:EdgePart  Edges-right:EdgesRight  Entry-refused:EntryRefused
Finite-test-decides:FiniteTestDecides  First-slot:FirstSlot  Goes_on:GoesOn  Header-field:HeaderField
In-order:InOrder  Known-activity:KnownActivity  Known-edge:KnownEdge  Moving-on-alters-nothing:MovingOnAltersNothing
Never-itself:NeverItself  Opening-is-exact:OpeningIsExact  Order-is-determined:OrderIsDetermined
Overlapping-itself:OverlappingItself  Overlaps-come-early:OverlapsComeEarly  Point-part:PointPart
Resource-figures:ResourceFigures  Resource-part:ResourcePart  Resources-right:ResourcesRight  Rests-meet:RestsMeet
Rests-meet-by-the-divisor:RestsMeetByTheDivisor  Rounded-up:RoundedUp  Said-never:SaidNever  Said-overlap:SaidOverlap
Windows-repeat-after-the-divisor:WindowsRepeatAfterTheDivisor  Written-form-tells:WrittenFormTells
activity-fits:ActivityFits  application-fits:ApplicationFits  cell-count-push:cell_count-push  cell-fits:CellFits
cell-ids-push:cell_ids-push  edge-fits:EdgeFits  header-fits:HeaderFits  last-from-push:last_from-push
point-fits:PointFits  points-right-push:points_right-push  resource-fits:ResourceFits  right-from-push:right_from-push
""".split())

TABLE = {word: word.replace("-", "_") for word in WORDS} | OTHERS
NAME = re.compile(r"[A-Za-z_\u2115\u2264\u2294\u22ce\u2194][\w'?\u2115\u2264\u2294\u22ce\u2194-]*")
STRING = re.compile(r'"(?:[^"\\\n]|\\.)*"')


def respell(text):
    return NAME.sub(lambda m: TABLE.get(m[0], m[0]), text)


def code(line, comment):
    """A line of code: its comment and its strings stay."""
    at = line.find(comment)
    while at > 0 and line[:at].count('"') % 2:
        at = line.find(comment, at + 1)
    rest = "" if at < 0 else line[at:]
    head = line if at < 0 else line[:at]
    out, end = [], 0
    for m in STRING.finditer(head):
        out += [respell(head[end : m.start()]), m[0]]
        end = m.end()
    return "".join(out) + respell(head[end:]) + rest


def page(line):
    return re.sub(r"`[^`]*`", lambda m: respell(m[0]), line)


def turn(path, line_turned):
    with open(path, encoding="utf-8") as f:
        old = f.read()
    new = "\n".join(line_turned(line) for line in old.split("\n"))
    if new != old:
        with open(path, "w", encoding="utf-8") as f:
            f.write(new)
    return new != old


def main(top):
    turned = 0
    for folder, dirs, files in os.walk(top):
        dirs[:] = [d for d in dirs if d not in ("out", ".git", "target")]
        for name in files:
            path = os.path.join(folder, name)
            if name.endswith(".antt"):
                turned += turn(path, lambda line: code(line, "--"))
            elif name.endswith(".rt"):
                turned += turn(path, lambda line: code(line, "//"))
            elif name.endswith(".md") and (folder == top or os.path.basename(folder) == "docs"):
                turned += turn(path, page)
    print(f"respell: {turned} files turned")


if __name__ == "__main__":
    main(sys.argv[1] if len(sys.argv) > 1 else ".")
