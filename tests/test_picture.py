"""The pictures in README.md against crates.txt and the crates' sources."""

import re
import unittest
from pathlib import Path

ROOT = Path(__file__).resolve().parent.parent
OUTSIDERS = {"program", "host"}
NAME = r"[a-z_]+"


def crates_of(text):
    """Each crate of crates.txt, whatever its kind, with the crates that it lists; the kit's libraries are none of ours."""
    listed = {}
    for line in text.splitlines():
        name, colon, below = line.split("#")[0].partition(":")
        if colon:
            listed[name.split()[0]] = set(below.split())
    return {name: below & listed.keys() for name, below in listed.items()}


def pictures(text, kind):
    """The lines of each mermaid picture of a kind."""
    blocks = re.findall(r"^```mermaid\n(.*?)^```$", text, re.DOTALL | re.MULTILINE)
    lines = [[line.strip() for line in block.splitlines()] for block in blocks]
    return [block[1:] for block in lines if block[0].split()[0] == kind]


def all_below(crates):
    """Each crate with all that are below it, by way of others too."""

    def below(name):
        return set().union(*({other} | below(other) for other in crates[name]))

    return {name: below(name) for name in crates}


class Refused(Exception):
    """A picture that says something else than the repository."""


def drawn_crates(lines):
    """Each crate of a flowchart with those that its arrows lead to."""
    drawn = {}
    for line in lines:
        arrow = re.fullmatch(rf"({NAME}) --> ({NAME}(?: & {NAME})*)", line)
        if arrow:
            drawn.setdefault(arrow[1], set()).update(arrow[2].split(" & "))
            for other in arrow[2].split(" & "):
                drawn.setdefault(other, set())
        elif re.fullmatch(NAME, line) and line != "end":
            drawn.setdefault(line, set())
        elif line != "end" and not line.startswith("subgraph "):
            raise Refused(f"not understood: {line}")
    return drawn


def check_crates(lines, crates):
    drawn = drawn_crates(lines)
    if drawn.keys() != crates.keys():
        raise Refused(f"drawn, or listed, but not both: {sorted(drawn.keys() ^ crates.keys())}")
    for name, below in drawn.items():
        if below - crates[name]:
            raise Refused(f"crates.txt does not list {sorted(below - crates[name])} for {name}")
    if all_below(drawn) != all_below(crates):
        raise Refused("a dependency of crates.txt is not drawn")


def check_call(caller, callee, functions, crates, sources):
    """A call goes down to a listed crate, which has the functions; the caller names each, by its path or in a group (`a::b::{c, d}`)."""
    outside = caller in OUTSIDERS
    if not outside and callee not in crates[caller]:
        raise Refused(f"crates.txt does not list {callee} for {caller}")
    for function in functions:
        if not re.search(rf'^pub (extern "C" )?fn {function}[<(]', sources[callee], re.MULTILINE):
            raise Refused(f"{callee} has no public function {function}")
        if not outside and not re.search(rf"\b{callee}::(\w+::)*(\{{[^;]*\b)?{function}\b", sources[caller]):
            raise Refused(f"{caller} does not use {callee}'s {function}")


def check_way(lines, crates, sources):
    """A sequence's participants are crates or outside, and its calls are those of the sources. Gives how many."""
    known = set()
    calls = 0
    for line in lines:
        participant = re.fullmatch(rf"participant ({NAME})", line)
        call = re.fullmatch(rf"({NAME})->>({NAME}): ({NAME}(?:, {NAME})*)", line)
        answer = re.fullmatch(rf"({NAME})-->>({NAME}): .+", line)
        if participant:
            known.add(participant[1])
        elif call or answer:
            ends = {(call or answer)[1], (call or answer)[2]}
            if not ends <= known:
                raise Refused(f"no participant: {sorted(ends - known)}")
        else:
            raise Refused(f"not understood: {line}")
        if call:
            check_call(call[1], call[2], call[3].split(", "), crates, sources)
            calls += 1
    if not known - OUTSIDERS <= crates.keys():
        raise Refused(f"no crates: {sorted(known - OUTSIDERS - crates.keys())}")
    return calls


class Repository(unittest.TestCase):
    def setUp(self):
        self.readme = (ROOT / "README.md").read_text()
        self.crates = crates_of((ROOT / "crates.txt").read_text())
        self.sources = {
            name: "\n".join(file.read_text() for file in sorted((ROOT / "crates" / name / "src").glob("*.rt")))
            for name in self.crates
        }

    def test_the_crates_and_their_dependencies_are_those_of_crates_txt(self):
        (picture,) = pictures(self.readme, "flowchart")
        check_crates(picture, self.crates)

    def test_every_call_on_a_requests_way_is_one_of_the_sources(self):
        ways = pictures(self.readme, "sequenceDiagram")
        self.assertEqual(len(ways), 3)
        for way in ways:
            self.assertGreater(check_way(way, self.crates, self.sources), 4)

    def test_every_picture_is_looked_at(self):
        looked_at = pictures(self.readme, "flowchart") + pictures(self.readme, "sequenceDiagram")
        self.assertEqual(len(looked_at), self.readme.count("```mermaid"))


class Flowcharts(unittest.TestCase):
    CRATES = crates_of("wire:  # the bottom\nstream: wire\nservice: wire stream\nbill: io service\n")
    GOOD = ["bill --> service", "service --> stream", "stream --> wire"]

    def test_an_arrow_may_be_left_out_where_others_lead_there(self):
        check_crates(self.GOOD, self.CRATES)
        check_crates(self.GOOD + ["service --> wire & stream"], self.CRATES)

    def refused(self, lines, why):
        with self.assertRaisesRegex(Refused, why):
            check_crates(lines, self.CRATES)

    def test_an_arrow_the_other_way(self):
        self.refused(["bill --> service", "service --> stream", "wire --> stream"], "does not list .'stream'. for wire")

    def test_a_crate_that_is_missing_or_not_there(self):
        self.refused(self.GOOD[1:], "bill")
        self.refused(self.GOOD + ["bill --> io"], "io")

    def test_a_dependency_that_is_not_drawn(self):
        self.refused(["bill --> service", "service", "stream --> wire"], "not drawn")

    def test_a_line_that_is_not_understood(self):
        self.refused(self.GOOD + ["wire -.-> stream"], "not understood")


class Ways(unittest.TestCase):
    CRATES = {"abi": {"service"}, "service": set()}
    SOURCES = {
        "abi": 'use service::call::call;\npub extern "C" fn razidkot_call(\n',
        "service": "pub fn call(\nfn handle(\npub fn call_by_value(\n",
    }
    GOOD = ["participant host", "participant abi", "participant service", "host->>abi: razidkot_call", "abi->>service: call"]

    def refused(self, line, why):
        with self.assertRaisesRegex(Refused, why):
            check_way(self.GOOD + [line], self.CRATES, self.SOURCES)

    def test_calls_and_an_answer(self):
        self.assertEqual(check_way(self.GOOD + ["abi-->>host: a response"], self.CRATES, self.SOURCES), 2)

    def test_a_call_upwards(self):
        self.refused("service->>abi: razidkot_call", "does not list abi for service")

    def test_a_function_that_is_not_public_or_not_used(self):
        self.refused("abi->>service: handle", "no public function handle")
        self.refused("abi->>service: call, call_by_value", "does not use service's call_by_value")

    def test_a_participant_that_is_no_crate(self):
        self.refused("participant desk", "no crates: .'desk'")
        self.refused("desk->>abi: razidkot_call", "no participant: .'desk'")


if __name__ == "__main__":
    unittest.main()
