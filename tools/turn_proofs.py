#!/usr/bin/env python3
"""Names of today's Rattle in the proofs of a crate's functions (proofs/F/Proof.antt), in place of the older ones.

Run as: tools/turn_proofs.py CRATE NAMES.json

NAMES.json is what `rt check --generated FOLDER --old-names` writes in the crate's folder: for each function its goals and
places, old name and new name. A path from a place, as c.before.before.lookup.given.1, is followed in the old places, and
written as it reads from the new one: an arm of a match is one place, and fields of earlier places need no `before`.
"""

import json
import os
import re
import sys

WORD = r"[^\s(){},;.:\[\]]+"
PATH = re.compile(r"(?<![\w.'-])([a-z]\w*'?)((?:\.%s)+|(?![\w.'-]))" % WORD)


def dashed(word):
    return word.replace("_", "-")


class Function:
    def __init__(self, f):
        self.needs = {}
        self.need_place = {}
        self.order = []
        for (old, new), (at, _) in zip(f["needs"], f["asked_at"]):
            self.needs[dashed(old)] = new
            self.need_place[dashed(old)] = dashed(at)
            self.order.append(dashed(at))
        self.new, self.parent, self.node, self.fields = {}, {}, {}, {}
        first = {}
        for (place, parent, (old, new), callee, _), by_name, arm in zip(f["places"], f["places_by_name"], f["arms"]):
            place = dashed(place)
            self.new[place] = by_name
            self.parent[place] = dashed(parent) if parent else None
            if arm:
                group, level, entries = arm
                self.node[place] = ("arm", group)
                first.setdefault(("arm", group), place)
                for entry, field, path in entries:
                    self.fields.setdefault(dashed(field), [])
                    if (tuple(path), f"{group}.{entry}") not in self.fields[dashed(field)]:
                        self.fields[dashed(field)].append((tuple(path), f"{group}.{entry}"))
            else:
                self.node[place] = ("place", place)
                first.setdefault(("place", place), place)
                if old:
                    self.fields.setdefault(dashed(old), [])
                    if ((), new) not in self.fields[dashed(old)]:
                        self.fields[dashed(old)].append(((), new))
        self.above = {}
        for node, place in first.items():
            up = self.parent[place]
            self.above[node] = self.node[up] if up else None
        # an arm counts as its last place, which is the one that a goal is at
        for place, node in self.node.items():
            if node[0] == "arm":
                last = [q for q in self.node if self.node[q] == node][-1]
                self.new[place] = self.new[last]
        self.args = {}
        for old, new in f["args"]:
            m = re.match(r"\.args \.([\w-]+)$", old)
            if m:
                self.args[m.group(1)] = new.split(".")[-1]
        self.loops = [(old, new) for (old, new), _ in f["loops"]]

    def hops(self, start, goal):
        """How many steps `before` lead from a place to another."""
        node, n = self.node[start], 0
        while node is not None and node != self.node[goal]:
            node, n = self.above[node], n + 1
        return n if node is not None else None

    def follow(self, place, parts):
        """A path from a place as it reads today, and the place that it ends at, if it ends at one."""
        at, i = place, 0
        while i < len(parts) and parts[i] == "before" and self.parent.get(at):
            at, i = self.parent[at], i + 1
        rest = parts[i:]
        if not rest:
            n = self.hops(place, at)
            return ([".before"] * n if n is not None else ["?"]), at
        head = dashed(rest[0])
        if head not in self.fields and head.removesuffix("-lem") in self.fields:
            head = head.removesuffix("-lem")
        if head in self.fields:
            best = None
            for path, new in self.fields[head]:
                given = [dashed(p) for p in rest[1 : 1 + len(path)]]
                if given == [dashed(p) for p in path] and (best is None or len(path) > len(best[0])):
                    best = (path, new)
            if best:
                tail = rest[1 + len(best[0]) :]
                return ["." + p for p in best[1].split(".") + tail], None
        if rest[0] == "args" and len(rest) > 1:
            rest = [rest[0], self.args.get(rest[1], rest[1].replace("-", "_"))] + rest[2:]
        return ["." + p for p in rest], None

    def body(self, text, places):
        """A body, in which some variables are places."""
        places = dict(places)
        out, end = [], 0
        for m in PATH.finditer(text):
            name = m.group(1)
            if name not in places or m.start() < end:
                continue
            before = text[: m.start()]
            if re.search(r"(λ|let)\s+(\w+ )*$", before[-40:]):
                continue
            parts = m.group(2).split(".")[1:]
            new, at = self.follow(places[name], parts)
            bound = re.search(r"let\s+([a-z]\w*'?)\s*=\s*$", before)
            if bound and at and re.match(r"\s+in\b", text[m.end() :]):
                places[bound.group(1)] = at
            elif bound:
                places.pop(bound.group(1), None)
            out.append(text[end : m.start()] + name + "".join(new))
            end = m.end()
        return "".join(out) + text[end:]

    def spec(self, text):
        """The arguments of tie.spec stand in the order of the goals."""
        m = re.search(r"tie\.spec(?![\w'-])", text)
        if not m:
            return text
        out, i = [text[: m.end()]], m.end()
        index = -2 * len(self.loops)
        depth, start = 0, None
        while i < len(text):
            ch = text[i]
            if ch == ")" and depth == 0:
                break
            if ch in "([{" and depth == 0:
                start = i
            if ch in "([{":
                depth += 1
            elif ch in ")]}":
                depth -= 1
                if depth == 0:
                    arg = text[start : i + 1]
                    v = re.match(r"\(λ\s+([\w']+)", arg)
                    if v and 0 <= index < len(self.order):
                        head = re.match(r"\(λ[^.]*\.", arg).group(0)
                        arg = head + self.body(arg[len(head) :], {v.group(1): self.order[index]})
                    out.append(arg)
                    index += 1
                    i += 1
                    continue
            if depth == 0 and not ch.isspace() and ch not in "()":
                word = re.match(r"[^\s()]+", text[i:]).group(0)
                out.append(word)
                index += 1
                i += len(word)
                continue
            if depth == 0:
                out.append(ch)
            i += 1
        if index != len(self.order):
            print("   by hand: arguments", index, "goals", len(self.order))
        return "".join(out) + text[i:]

    def named(self, text):
        def need(m):
            word = dashed(m.group(1))
            for old in (word, re.sub(r"^(overflow|bounds|offset-bounds)-", "", word)):
                if old in self.needs:
                    return "tie.Need-" + self.needs[old]
            return m.group(0)

        text = re.sub(rf"tie\.Need-({WORD})", need, text)
        text = re.sub(rf"tie\.({WORD})", lambda m: "tie." + self.new.get(dashed(m.group(1)), m.group(1)), text)
        for old, new in self.loops:
            for kind in ("invariant", "decreases"):
                text = re.sub(rf"tie\.{kind}[-_]{re.escape(old)}(?![\w'-])", f"tie.{kind}-{new}", text)
        return text

    def turn(self, text):
        blocks = re.split(r"(?m)^(?=(?:pub |abbrev |unfoldable )*[^\s\-\]|}][^\n]*? : )", text)
        out = []
        for block in blocks:
            places = {}
            m = re.search(rf"(?m)^(?:pub |abbrev )*([^\s:]+) : tie\.Need-({WORD})", block)
            if m:
                word = dashed(m.group(2))
                for old in (word, re.sub(r"^(overflow|bounds|offset-bounds)-", "", word)):
                    if old in self.need_place:
                        v = re.search(rf"(?m)^{re.escape(m.group(1))} ([\w']+)", block[m.end() :])
                        if v:
                            places[v.group(1)] = self.need_place[old]
                        break
            for v in re.finditer(rf"\(([\w']+) : tie\.({WORD})", block):
                if dashed(v.group(2)) in self.new:
                    places[v.group(1)] = dashed(v.group(2))
            if "tie.spec" in block:
                block = self.spec(block)
            elif places:
                block = self.body(block, places)
            out.append(self.named(block))
        return "".join(out)


def main():
    crate, names = sys.argv[1:3]
    crate = os.path.abspath(crate)
    table = json.load(open(names, encoding="utf-8"))
    for key, f in table.items():
        m = re.match(r"Rattle-(\w+)-proofs\.(.*)\.Lts$", key)
        if not m:
            continue
        path = os.path.join(crate, "proofs", m.group(2).replace(".", "/"), "Proof.antt")
        if not os.path.exists(path):
            print("   no file", path)
            continue
        text = open(path, encoding="utf-8").read()
        new = Function(f).turn(text)
        if new != text:
            open(path, "w", encoding="utf-8").write(new)
            print("   turned", m.group(2))
        if "?" in new:
            print("   by hand, a place:", m.group(2))


main()
