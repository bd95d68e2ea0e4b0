#!/usr/bin/env python3
"""Reads pages of audits as a browser would, and says what is wrong with them: tags that don't balance, an id that is there twice, a link
that leads nowhere, what a page must not have, a policy whose digests are not those of what stands in it, figures that are not those
of the same audit as objects, lost frames that are not as many where they are told by numbers or one by one, more or fewer cards, lanes and
single frames than a page has, another first packet than the captures have, digests of captures that are not told, and LANs of a ring.

pages.py [--program PATH]     the pages of the audits below, and of networks of page_networks.py, of the program at PATH, ./seamless where none
                              is given. A line for each; the last one is 'N passed, M failed', and it exits with 1 where one failed."""
import argparse
import base64
import hashlib
import json
import re
import struct
import subprocess
import sys
import tempfile
from collections import Counter
from datetime import datetime, timezone
from html.parser import HTMLParser
from pathlib import Path

import page_networks

ROOT = Path(__file__).resolve().parent.parent
# The elements of HTML that have no end tag, as far as a page has them.
VOID = {"meta", "br"}
# Elements of pictures that a page ends within their tags.
SHAPES = {"path", "circle", "rect", "line"}
# What a verdict of the objects is called in a page.
WORDS = {"sound": "PASS", "faulty": "FAIL", "unjudged": "NO VERDICT"}
PRP = ["--a", "examples/linux-prp-lan-a.pcap", "--b", "examples/linux-prp-lan-b.pcap"]
RING = "examples/cases/an_audit_of_a_ring_tells_where_it_is_cut"
MENDED = "examples/cases/an_audit_of_a_ring_tells_since_when_until_when_it_was_cut"
SOUND = "examples/cases/a_check_of_a_sound_network_ends_with_status_0"
HOSTILE = "examples/cases/a_page_shows_hostile_words_as_text/names"
TITLE = "</title><script>alert(1)</script>\u202e\" onload='x' &amp;"
AUDITS = {
    "a network with faults": PRP,
    "a network without a fault": ["--a", f"{SOUND}/a.pcap", "--b", f"{SOUND}/b.pcap"],
    "a cut ring": ["--network", "hsr", "--a", f"{RING}/a.pcap", "--b", f"{RING}/b.pcap"],
    "a ring that was cut for a while": ["--network", "hsr", "--a", f"{MENDED}/a.pcap", "--b", f"{MENDED}/b.pcap"],
    "one capture": ["--a", "examples/linux-prp-lan-a.pcap"],
    "a mirror port": ["--mirror", "examples/linux-prp-lan-a.pcap"],
    "hostile words": [*PRP, "--title", TITLE, "--note", TITLE, "--names", HOSTILE],
}
ACCESS = "examples/cases/a_check_at_access_ports_passes_frames_that_went_past_no_recorder"
AUDITS["access ports"] = ["--a", f"{ACCESS}/a.pcap", "--b", f"{ACCESS}/b.pcap"]
AHEAD = "examples/cases/a_merge_of_captures_5_s_apart_has_each_frame_once"
AUDITS["a clock that is put right"] = ["--a", f"{AHEAD}/a.pcap", "--b", f"{AHEAD}/b.pcap"]
# The networks that are made here, those whose captures are not large, and what their pages tell.
MADE = {
    "a dozen faults": [],
    "a ring with losses": [],
    # Three rows are left out, a row goes on where its numbers come round, and four losses that lie apart are four.
    "more losses than a page has": ["9 more in further rows.", "numbers 65533 to 2;", "number 5;", "number 12;", "number 19;"],
}
# How many cards, lanes and single frames a page has at most.
MOST_CARDS, MOST_LANES, MOST_SINGLES = 24, 64, 1000
# What the same audit takes no part of where it writes lines.
WORDS_OF_A_PAGE = {"--title", "--note", "--names", TITLE, HOSTILE}


class Page(HTMLParser):
    """What stands in a page, and what is wrong with it."""

    def __init__(self, text):
        super().__init__(convert_charrefs=True)
        self.text = text
        self.open, self.flaws, self.ids, self.links, self.rows = [], [], [], [], []
        self.policy, self.kept, self.words = "", {"style": "", "script": ""}, ""
        self.feed(text)
        self.close()
        self.flaws += [f"<{name}> has no end" for name in self.open]
        self.flaws += [f"the id {name} is there twice" for name in sorted({it for it in self.ids if self.ids.count(it) > 1})]
        self.flaws += [f"#{name} leads nowhere" for name in self.links if name not in self.ids]
        for name in ("style", "script"):
            digest = base64.b64encode(hashlib.sha256(self.kept[name].encode()).digest()).decode()
            if f"{name}-src 'sha256-{digest}'" not in self.policy:
                self.flaws.append(f"the policy has another digest than that of the {name}, which is {digest}")

    def attribute(self, tag, name, value):
        if name == "id":
            self.ids.append(value)
        elif name == "href" and value.startswith("#"):
            self.links.append(value[1:])
        elif name in ("href", "src", "style") or name.startswith("on"):
            self.flaws.append(f'<{tag}> has {name}="{value}"')
        if "http:" in (value or "") or "https:" in (value or ""):
            self.flaws.append(f"<{tag}> names {value}")

    def handle_starttag(self, tag, attributes):
        for name, value in attributes:
            self.attribute(tag, name, value)
        own = dict(attributes)
        if own.get("http-equiv") == "Content-Security-Policy":
            self.policy = own["content"]
        if tag == "tr":
            self.rows.append([])
        elif tag in ("td", "th") and self.rows:
            self.rows[-1].append(own.get("data-v"))
        if tag not in VOID:
            self.open.append(tag)

    def handle_startendtag(self, tag, attributes):
        for name, value in attributes:
            self.attribute(tag, name, value)
        if tag not in SHAPES:
            self.flaws.append(f"<{tag}/> ends itself")

    def handle_endtag(self, tag):
        if not self.open or self.open.pop() != tag:
            self.flaws.append(f"</{tag}> ends nothing")

    def handle_data(self, data):
        if self.open and self.open[-1] in self.kept:
            self.kept[self.open[-1]] += data
        else:
            self.words += data


def place_of(words):
    """Where a frame was lost, of which a page says so: A, B or both."""
    return "both" if words.startswith("both") else words[-1]


def number_in(words):
    """A number whose digits stand in groups."""
    return int(re.sub(r"\D", "", words))


def losses_in(text):
    """Of each source that has a card how many frames are told to be lost by their numbers, by place."""
    found = {}
    for mac, card in re.findall(r'<article class="card" id="s-([0-9a-f:]{17})">(.*?)</article>', text, re.S):
        found[mac] = Counter()
        for words, items in re.findall(r"<h4>Lost on ([^<]*)</h4><ul[^>]*>(.*?)</ul>", card, re.S):
            found[mac][place_of(words)] += sum(map(number_in, re.findall(r"<li>([\d\u202f]+)\s(?:frames?|more)\b", items)))
    return found


def singles_in(text):
    """How many frames are told one by one to be lost, by source and place."""
    rows = re.findall(r'^<tr><td class="num" data-v="\d+">[^<]*</td><td data-v="([0-9a-f:]{17})">.*?</td><td class="num">\d+</td><td>([^<]*)</td>', text, re.M)
    return Counter((mac, place_of(words)) for mac, words in rows)


def loss_differences(page, lines):
    """Where a page tells of other losses than the objects, or of more or fewer sources and frames than it has room for."""
    sources = [it for it in lines if it["line"] == "source"]
    lost = {it["source"]: Counter({"A": it["only_b"], "B": it["only_a"], "both": it["neither"]}) for it in sources}
    told = losses_in(page.text)
    for mac, frames in told.items():
        if +frames != +lost[mac]:
            yield f"by numbers {mac} lost {dict(frames)}, and not {dict(lost[mac])}"
    if len(told) != min(len(sources), MOST_CARDS):
        yield f"there are {len(told)} cards"
    figure = re.search(r'<figure class="chart lanes">.*?</figure>', page.text, re.S)
    lanes, losers = figure[0].count('<svg class="plot lane"') if figure else 0, sum(it.total() > 0 for it in lost.values())
    if lanes != min(losers, MOST_LANES):
        yield f"there are {lanes} lanes of sources that lost frames"
    singles, all_lost = singles_in(page.text), Counter({(mac, place): count for mac, frames in lost.items() for place, count in frames.items()})
    if all_lost.total() <= MOST_SINGLES and singles != +all_lost or singles.total() != min(all_lost.total(), MOST_SINGLES) or singles - all_lost:
        yield f"one by one {singles.total()} lost frames are told, and not those of {all_lost.total()}"


def order_differences(page, lines):
    """Where the sources do not stand with the most serious faults first."""
    over = {it["source"]: it["over"] for it in lines if it["line"] == "skew"}
    weights = {it["source"]: (it["neither"], it["only_a"] + it["only_b"], it["repeat_a"] + it["repeat_b"], over.get(it["source"], 0))
               for it in lines if it["line"] == "source"}
    told = [weights[row[0]] for row in page.rows if row and row[0] in weights]
    if told != sorted(told, reverse=True):
        yield "the most serious faults do not stand first"


def first_in(path):
    """When the first packet of a pcap file came, in nanoseconds. None: it is no such file, of the lowest octet first."""
    front = Path(ROOT, path).read_bytes()[:32]
    unit = {b"\xd4\xc3\xb2\xa1": 1000, b"\x4d\x3c\xb2\xa1": 1}.get(front[:4])
    return unit and sum(map(int.__mul__, struct.unpack("<II", front[24:]), (10**9, unit)))


def fact_differences(page, lines, audit):
    """Where the first packet or the clocks are told otherwise than the captures or the objects have them."""
    clocks = next((it for it in lines if it["line"] == "clocks"), None)
    ahead = round(clocks["b_ahead_us"] * 1000) if clocks else 0
    words = "ahead, by {pairs} frames of both, and is put right".format(**clocks) if clocks else "as the captures have them"
    if words not in page.words or clocks and "B was" not in page.words:
        yield f"the clocks are not told: {words}"
    firsts = [first_in(path) for option, path in zip(audit, audit[1:]) if option in ("--a", "--mirror")]
    firsts += [first_in(path) - ahead for option, path in zip(audit, audit[1:]) if option == "--b"]
    wanted = datetime.fromtimestamp(min(firsts) // 1000 / 10**6, timezone.utc).strftime("%Y-%m-%dT%H:%M:%S.%f")
    told = re.search(r"<dt>First packet</dt><dd>([^<]*)Z</dd>", page.text)
    if not told or told[1][:26] != wanted:
        yield f"the first packet came at {told and told[1]}, and not at {wanted}"


def said(program, words, audit):
    """What the program writes of an audit."""
    run = subprocess.run([program, "audit", *audit, *words], cwd=ROOT, stdin=subprocess.DEVNULL, capture_output=True)
    return run.stdout.decode()


def differences(page, lines):
    """Figures of a page that are not those of the objects."""
    verdict = next(it["verdict"] for it in lines if it["line"] == "verdict")
    if f"\n{WORDS[verdict]}\n" not in page.words and WORDS[verdict] not in page.words.split("\n")[0:40]:
        yield f"the verdict is not {WORDS[verdict]}"
    rows = {row[0]: row for row in page.rows if row and row[0] and ":" in row[0]}
    for line in (it for it in lines if it["line"] == "source"):
        row = rows.get(line["source"])
        if row is None:
            yield f"{line['source']} has no row"
            continue
        # The frames by both LANs, and those that each lost, which came by the other one alone.
        wanted = [str(line["pairs"]), str(line["only_b"]), str(line["only_a"]), str(line["neither"])]
        if row[2:6] != wanted:
            yield f"{line['source']} has {row[2:6]}, and not {wanted}"
    if len(rows) != sum(it["line"] == "source" for it in lines):
        yield f"there are {len(rows)} rows of sources"


def missing(page, audit):
    """Words of LANs in the page of a ring, and digests of captures that a page does not have."""
    if "hsr" in audit and re.search(r"\bLANs?\b", page.words):
        yield "the page of a ring tells of LANs"
    for option, path in zip(audit, audit[1:]):
        if option in ("--a", "--b", "--mirror") and hashlib.sha256(Path(ROOT, path).read_bytes()).hexdigest() not in page.words:
            yield f"the digest of {path} is not told"


def audits(work, made):
    """What is audited: the captures above, and these networks, which are made in a folder."""
    yield from AUDITS.items()
    for name in made:
        make = page_networks.NETWORKS[name]
        folder = work / make.__name__
        folder.mkdir()
        yield name, [*make(folder), "--complete"]


def flaws_of(program, audit, wanted):
    """What is wrong with the page of an audit, which is to have these texts."""
    text = said(program, ["--format", "html"], audit)
    lines = [json.loads(it) for it in said(program, ["--format", "json"], [it for it in audit if it not in WORDS_OF_A_PAGE]).split("\n") if it]
    page = Page(text)
    flaws = page.flaws + list(differences(page, lines)) + list(loss_differences(page, lines)) + list(order_differences(page, lines))
    flaws += list(fact_differences(page, lines, audit)) + list(missing(page, audit)) + [f"{it!r} is not told" for it in wanted if it not in text]
    return flaws if re.search(r"</html>\n\Z", text) else [*flaws, "the page does not end"]


def main():
    parser = argparse.ArgumentParser(description=__doc__.split("\n", maxsplit=1)[0])
    parser.add_argument("--program", default=str(ROOT / "seamless"))
    given = parser.parse_args()
    failed = seen = 0
    with tempfile.TemporaryDirectory() as work:
        for name, audit in audits(Path(work), MADE):
            flaws, seen = flaws_of(given.program, audit, MADE.get(name, [])), seen + 1
            failed += bool(flaws)
            print(f"page of {name} ... {'FAILED' if flaws else 'ok'}", flush=True)
            for flaw in flaws:
                print(f"    {flaw}")
    print(f"{seen - failed} passed, {failed} failed")
    return failed > 0


if __name__ == "__main__":
    sys.exit(main())
