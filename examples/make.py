#!/usr/bin/env python3
"""Writes the example scripts of this folder, and copies of the protocol's cases for the gate."""
import os
import shutil

HERE = os.path.dirname(os.path.abspath(__file__))
CASES = os.path.join(HERE, "..", "crates", "rehearse_cases", "data")


class Script:
    def __init__(self, comment):
        self.lines = []
        self.comment = comment

    def say(self, *words):
        self.lines.append(" ".join(str(word) for word in words))

    def gap(self):
        self.lines.append("")

    def block(self, name, author, round_, parents=(), load="-"):
        self.say("block", name, author, round_, load, *parents)

    def certified(self, name, author, round_, parents, signers, makes=True):
        self.block(name, author, round_, parents)
        if makes:
            self.say("makes", author, name)
        for member in signers:
            self.say("signs", member, name)

    def taken(self, names, members):
        for member in members:
            for name in names:
                self.say("takes", member, name)

    def write(self, name):
        with open(os.path.join(HERE, name), "w") as out:
            out.write("\n".join(self.lines) + "\n")


def names(round_, authors):
    return [f"{author}.{round_}" for author in authors]


def round_zero(script):
    for author in range(4):
        script.certified(f"{author}.0", author, 0, [], [0, 1, 2])
    script.gap()
    script.taken(names(0, range(4)), range(4))
    script.gap()


def voted_leader():
    s = Script("")
    round_zero(s)
    for author in range(3):
        s.certified(f"{author}.1", author, 1, names(0, range(4)), [0, 1, 2])
    s.gap()
    s.taken(names(1, range(3)), [3])
    s.say("order", 3)
    s.say("order", 0)
    s.write("voted-leader.script")


def first_two_rounds(s, three_one):
    round_zero(s)
    for author in range(3):
        parents = names(0, range(4)) if author == 2 else names(0, [1, 2, 3])
        s.certified(f"{author}.1", author, 1, parents, [0, 1, 2])
    s.certified("3.1", 3, 1, names(0, [1, 2, 3]), [0, 1, 2] if three_one else [])
    s.gap()
    s.taken(names(1, range(4 if three_one else 3)), range(4))


def one_vote():
    s = Script("")
    first_two_rounds(s, False)
    s.say("order", 3)
    s.write("one-vote.script")


def later_anchor():
    s = Script("")
    first_two_rounds(s, False)
    s.say("order", 3)
    s.gap()
    for author in range(4):
        s.certified(f"{author}.2", author, 2, names(1, range(3)), [0, 1, 2])
    s.gap()
    s.taken(names(2, range(4)), range(4))
    s.gap()
    for author in range(4):
        s.certified(f"{author}.3", author, 3, names(2, range(4)), [0, 1, 2])
    s.gap()
    s.taken(names(3, range(4)), [3])
    s.say("order", 3)
    s.write("later-anchor.script")


def unreached_leader():
    s = Script("")
    first_two_rounds(s, True)
    s.say("order", 3)
    s.gap()
    for author in range(4):
        parents = names(1, [0, 1, 3]) if author == 1 else names(1, range(4))
        s.certified(f"{author}.2", author, 2, parents, [0, 1, 2])
    s.gap()
    s.taken(names(2, range(4)), range(4))
    s.gap()
    for author in range(4):
        s.certified(f"{author}.3", author, 3, names(2, range(4)), [0, 1, 2])
    s.gap()
    s.taken(names(3, range(4)), [3])
    s.say("order", 3)
    s.write("unreached-leader.script")


def signed_once():
    s = Script("")
    s.say("bad", 1)
    s.block("one", 1, 0)
    s.block("other", 1, 0, load="01")
    s.say("signs", 0, "one")
    s.say("signs", 0, "one")
    s.say("signs", 0, "other")
    s.write("signed-once.script")


def one_member():
    s = Script("")
    before = []
    for round_ in range(6):
        s.certified(str(round_), 0, round_, before, [0])
        s.say("takes", 0, round_)
        s.say("order", 0)
        before = [str(round_)]
    s.write("one-member.script")


def two_blocks():
    s = Script("")
    s.say("bad", 3)
    s.block("one", 3, 0, load="01")
    s.block("two", 3, 0, load="02")
    for name in ["one", "two"]:
        s.say("forges", 3, name)
    s.say("signs", 0, "one")
    s.say("signs", 1, "one")
    s.say("signs", 2, "two")
    s.gap()
    s.say("signs", 0, "two")
    s.say("signs", 2, "one")
    s.gap()
    s.say("takes", 0, "one")
    s.say("takes", 0, "two")
    s.say("takes", 1, "two")
    s.say("makes", 3, "one")
    s.say("order", 0)
    s.say("order", 3)
    s.write("two-blocks.script")


def cut_line():
    s = Script("")
    everyone, nine, four = range(13), range(9), range(9, 13)

    def round_of(round_, members, parents):
        for author in members:
            s.certified(f"{author}.{round_}", author, round_, parents, nine)
        s.taken(names(round_, members), members)
        s.gap()

    def orders():
        for member in everyone:
            s.say("order", member)
        s.gap()

    round_of(0, everyone, [])
    round_of(1, everyone, names(0, everyone))
    orders()
    round_of(2, nine, names(1, everyone))
    round_of(3, nine, names(2, nine))
    round_of(4, nine, names(3, nine))
    round_of(5, nine, names(4, nine))
    orders()
    for round_ in range(2, 6):
        s.taken(names(round_, nine), four)
    s.gap()
    orders()
    s.write("cut-line.script")


def main():
    for example in [voted_leader, one_vote, later_anchor, unreached_leader, signed_once, one_member, two_blocks, cut_line]:
        example()
    os.makedirs(CASES, exist_ok=True)
    for name in sorted(os.listdir(HERE)):
        if name.endswith(".script"):
            shutil.copy(os.path.join(HERE, name), CASES)


main()
