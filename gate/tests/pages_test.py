#!/usr/bin/env python3
"""What is wrong with a page is found."""
import base64
import hashlib
import sys
import unittest
from pathlib import Path

sys.path.insert(0, str(Path(__file__).resolve().parent.parent))
from pages import Page, differences, fact_differences, first_in, loss_differences, order_differences  # noqa: E402

STYLE, SCRIPT = "b{color:red}\n", "run();\n"


def digest(text):
    return base64.b64encode(hashlib.sha256(text.encode()).digest()).decode()


def page(body, style=STYLE):
    """What is wrong with a page of this body."""
    policy = f"default-src 'none'; style-src 'sha256-{digest(STYLE)}'; script-src 'sha256-{digest(SCRIPT)}'"
    return Page(
        f'<!DOCTYPE html>\n<html lang="en">\n<head>\n<meta http-equiv="Content-Security-Policy" content="{policy}">\n'
        f"<style>{style}</style>\n</head>\n<body>\n{body}\n<script>{SCRIPT}</script>\n</body>\n</html>\n"
    )


class Pages(unittest.TestCase):
    def test_a_page_without_a_flaw_has_none(self):
        self.assertEqual(page('<p id="a">1 &lt; 2</p><a href="#a">a</a>').flaws, [])

    def test_each_flaw_is_found(self):
        for body, flaw in [
            ("<p>a<b>b</p>", "</p> ends nothing"),
            ('<p id="a">a</p><p id="a">b</p>', "the id a is there twice"),
            ('<a href="#b">a</a>', "#b leads nowhere"),
            ('<p style="color:red">a</p>', '<p> has style="color:red"'),
            ('<p onclick="run()">a</p>', '<p> has onclick="run()"'),
            ('<svg><image src="a"></image></svg>', '<image> has src="a"'),
            ('<a href="https://example.org">a</a>', '<a> has href="https://example.org"'),
            ("<p/>", "<p/> ends itself"),
        ]:
            with self.subTest(body):
                self.assertIn(flaw, page(body).flaws)

    def test_a_policy_of_another_style_is_found(self):
        self.assertEqual([it[:37] for it in page("", style="b{}").flaws], ["the policy has another digest than th"])

    def test_other_figures_are_found(self):
        source = {"line": "source", "source": "02:00:00:00:00:01", "pairs": 4, "only_a": 1, "only_b": 2, "neither": 0}
        lines = [{"line": "verdict", "verdict": "faulty"}, source]
        cells = "".join(f'<td data-v="{it}">x</td>' for it in (7, 4, 2, 1, 0))
        own = page(f'<h2>FAIL</h2>\n<table><tr><th data-v="02:00:00:00:00:01">a</th>{cells}</tr></table>')
        self.assertEqual(list(differences(own, lines)), [])
        source["only_a"] = 3
        self.assertEqual(list(differences(own, lines)), ["02:00:00:00:00:01 has ['4', '2', '1', '0'], and not ['4', '2', '3', '0']"])
        self.assertEqual(list(differences(page(""), lines[:1]))[0], "the verdict is not FAIL")

    def test_lost_frames_that_are_not_those_of_the_objects_are_found(self):
        mac = "02:00:00:00:00:01"
        lines = [{"line": "source", "source": mac, "only_a": 0, "only_b": 3, "neither": 1}]
        rows = "".join(
            f'<tr><td class="num" data-v="{at}">0.1</td><td data-v="{mac}">a</td><td class="num">{at}</td><td>{place}</td></tr>\n'
            for at, place in enumerate(["both", "LAN A", "LAN A", "LAN A"])
        )
        body = (
            f'<figure class="chart lanes"><svg class="plot lane"></svg></figure><article class="card" id="s-{mac}">'
            '<h4>Lost on both LANs</h4><ul class="stretches">\n<li>1\u00a0frame at 1 s</li>\n</ul>'
            '<h4>Lost on LAN A</h4><ul class="stretches">\n<li>2\u00a0frames at 1 s</li>\n<li>1 more in further rows.</li>\n</ul>'
            f"</article><table>\n{rows}</table>"
        )
        self.assertEqual(list(loss_differences(page(body), lines)), [])
        for wrong, flaw in [
            (body.replace("1 more", "2 more"), f"by numbers {mac} lost"),
            (body.replace("<h4>Lost on LAN A", "<h4>Lost on LAN B"), f"by numbers {mac} lost"),
            (body.replace('class="card"', 'class="none"'), "there are 0 cards"),
            (body.replace('class="plot lane"', 'class="plot"'), "there are 0 lanes"),
            (body.replace("<td>LAN A</td></tr>\n</table>", "</tr>\n</table>"), "one by one 3 lost frames"),
            (body.replace("<td>both</td>", "<td>LAN A</td>"), "one by one 4 lost frames"),
        ]:
            with self.subTest(flaw):
                self.assertIn(flaw, "".join(loss_differences(page(wrong), lines)))

    def test_sources_that_stand_in_another_order_are_found(self):
        lines = [{"line": "source", "source": f"a{at}", "neither": at, "only_a": 0, "only_b": 0, "repeat_a": 0, "repeat_b": 0} for at in range(2)]
        first, second = (f'<tr><th data-v="a{at}">a</th></tr>' for at in range(2))
        self.assertEqual(list(order_differences(page(f"<table>{second}{first}</table>"), lines)), [])
        self.assertEqual(len(list(order_differences(page(f"<table>{first}{second}</table>"), lines))), 1)

    def test_another_first_packet_or_clock_is_found(self):
        path = "examples/linux-prp-lan-a.pcap"
        self.assertEqual(first_in(path), 1_700_000_000 * 10**9)
        body = "<dl><dt>First packet</dt><dd>2023-11-14T22:13:20.000000Z</dd></dl>as the captures have them"
        self.assertEqual(list(fact_differences(page(body), [], ["--a", path])), [])
        self.assertEqual(len(list(fact_differences(page(body.replace(":20.", ":21.")), [], ["--a", path]))), 1)
        self.assertEqual(len(list(fact_differences(page(body), [{"line": "clocks", "b_ahead_us": 5.0, "pairs": 7}], ["--a", path]))), 1)


if __name__ == "__main__":
    unittest.main()
