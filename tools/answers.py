#!/usr/bin/env python3
"""Turns each proofs/F/Proof.antt of a crate that walks Tie's goals into Invariants.antt and Answers.antt.

usage: python3 tools/answers.py CRATE NAMES.json [FUNCTION..]   (NAMES.json: of rt check --generated DIR --old-names in the crate's folder)
"""
import json
import os
import re
import sys

NAME = r"[^\s(){}.;,@\"«»]+"


def norm(s):
    return re.sub(r"_lem(?=\d*$)", "", re.sub(r"^(overflow|nonzero|slice_bounds|bounds|offset_bounds)_", "", s.replace("-", "_")))


def places_of(info):
    by, order = {}, []
    for row, new, told, arm in zip(info["places"], info["places_by_name"], info["clauses"], info["arms"]):
        by[row[0]] = {"clauses": told, "arm": arm, "old": row[0], "new": new, "up": row[1], "step": row[2], "fields": dict(row[4])}
        order.append(row[0])
    return by


def find_place(by, word):
    for p in by.values():
        if word == p["new"] or word == p["old"] or norm(word) == norm(p["old"]):
            return p["old"]
    return None


class Text:
    def __init__(self, info, label=None):
        self.info, self.by, self.label = info, places_of(info), label
        self.used = set()
        self.hard = []

    def typed(self, place, step):
        names = [r[0] for r in self.info["places"]]
        for var, s in self.info["typed"][names.index(place)]:
            if norm(s) == norm(step):
                return var
        return None

    def chains(self, text, env, goal):
        # aliases first
        while True:
            hit = None
            for m in re.finditer(rf"\blet ({NAME}) = ({NAME})((?:\.before)*) in\s*", text):
                if m[2] in env:
                    hit = m
                    break
            if not hit:
                break
            cur = env[hit[2]][1]
            for _ in range(hit[3].count("before")):
                cur = cur and self.by[cur]["up"]
            env[hit[1]] = (env[hit[2]][0], cur)
            text = text[: hit.start()] + text[hit.end() :]

        def one(m):
            var, comps = m[1], [x for x in m[2].split(".") if x]
            if var not in env:
                return m[0]
            root, cur = env[var]
            climbed = False
            while comps and comps[0] == "before" and cur:
                cur, comps, climbed = self.by[cur]["up"], comps[1:], True
            if cur is None:
                self.hard.append(m[0])
                return m[0]
            if not comps:
                if goal and cur == env[root][1] and var == root:
                    return root
                if goal:
                    self.used.add(self.by[cur]["new"])
                    return f"(goal.at.{self.label} {root}).{self.by[cur]['new']}"
                return root if cur == env[root][1] else f"{root}.{self.by[cur]['new']}"
            p = self.by[cur]
            step, rest = comps[0], comps[1:]
            if step in ("args", "requires", "ranges", "fits"):
                return ".".join([root, "ranges" if step == "fits" else step] + rest)
            path = rest
            up = cur
            while up and rest:
                arm = self.by[up]["arm"]
                for field, from_step, from_path in arm[2] if arm else []:
                    if from_path and norm(from_step) == norm(step) and path[: len(from_path)] == from_path:
                        return ".".join([root, arm[0], field] + rest[len(from_path) :])
                up = self.by[up]["up"]
            if rest and rest[0] == "given":
                var2 = self.typed(env[root][1], step)
                if var2:
                    return ".".join([root, "type_inv", var2] + rest[1:])
            at = cur
            while at and norm(self.by[at]["step"][0]) != norm(step):
                at = self.by[at]["up"]
            if not at:
                self.hard.append(m[0])
                return ".".join([root] + comps)
            p = self.by[at]
            if rest:
                f = {"taken": "true", "left": "false", "inv": "invariant", "type-inv": "type_inv"}.get(rest[0], rest[0])
                rest = [p["fields"].get(f, f)] + rest[1:]
                told = p["clauses"]
                if rest[0] == "ensures" and told and told["fields"]:
                    if len(told["fields"]) == 1 and not told["text"]:
                        rest[1:1] = told["fields"]
                    elif len(rest) > 1 and rest[1].isdigit() and int(rest[1]) < len(told["fields"]):
                        rest[1] = told["fields"][int(rest[1])]
            return ".".join([root, p["step"][1]] + rest)

        return re.sub(rf"(?<![\w.'₀-₉-])([^\s(){{}}.;,@\"«»]+)((?:\.[^\s(){{}}.;,@\"«»]+)*)", one, text)


def chunks(text):
    out = []
    for part in re.split(r"\n\s*\n", text.strip("\n")):
        first = part.split("\n")[0]
        if out and first.startswith(" "):
            out[-1] += "\n\n" + part
        else:
            out.append(part)
    return out


def split_args(text):
    """The arguments at the head of a text that ends in a closing bracket."""
    out, depth, word = [], 0, ""
    for ch in text:
        if depth == 0 and ch == ")":
            break
        if depth == 0 and ch.isspace():
            if word:
                out.append(word)
            word = ""
            continue
        depth += (ch in "([{") - (ch in ")]}")
        word += ch
    return out + ([word] if word else [])


def convert(crate, folder, info, landed=None):
    path = f"crates/{crate}/proofs/{folder}"
    text = open(f"{path}/Proof.antt", encoding="utf-8").read()
    if "tie.close" not in text:
        return "no tie.close"
    dots = folder.replace("/", ".")
    parts = chunks(text)
    needs = info["needs"]
    head, body = parts[0], parts[1:]
    if ":" in head and " : " in head:
        return "odd head"
    comment = [l for l in head.split("\n") if l.startswith("--")]
    uses = [l for l in head.split("\n") if l.startswith("use ") and not re.search(r"\.(Statement|Tie)\b", l)]
    inv, ans, hard, places = [], [], [], set()
    loops = {norm(l[0][0]): l for l in info["loops"]}
    for part in body:
        if "tie.close" in part:
            opened = re.search(r"^unfolding[^\n]*\n", part, re.M)
            args = split_args(part[part.index("tie.spec") + len("tie.spec") :])[2 * len(info["loops"]) :]
            lambdas = [i for i, a in enumerate(args) if a.startswith("(λ")]
            if lambdas and len(args) != len(needs):
                hard.append(f"{len(args)} answers for {len(needs)} goals: {[n[0] for n in needs]}")
                ans.append("-- LEFT\n" + part)
                continue
            for i in lambdas:
                q = re.match(rf"^\(λ ((?:{NAME} ?)+)\.\s+(.*)\)$", args[i], re.S)
                if not q:
                    hard.append("answer " + args[i])
                    continue
                words = q[1].split()
                if q[2].strip() == "search rules" and not opened:
                    continue
                new, place = needs[i][1], info["asked_at"][i][0]
                t = Text(info, new)
                b = t.chains(" " + re.sub(r"\n {2,}", "\n    ", q[2]), {words[0]: (words[0], place)}, True)
                hard += [f"{new}: {h}" for h in t.hard]
                places |= t.used
                ans.append(f"pub {new} : goal.{new}\n{opened[0] if opened else ''}{new} {words[0]} ={b}")
            continue
        lines = part.split("\n")
        k = 0
        while lines[k].startswith("--"):
            k += 1
        sig = lines[k]
        note = "\n".join(lines[:k]) + ("\n" if k else "")
        m = re.match(rf"^(?:abbrev )?(?:pub )?({NAME}) : tie\.(Need-)?({NAME})(.*)$", sig)
        if m and not m[2]:
            kind = "invariant" if re.match(r"(invariant|InvT)-", m[3]) else "decreases" if re.match(r"(decreases|MeasureT)-", m[3]) else None
            loop = loops.get(norm(re.sub(r"^(invariant|InvT|decreases|MeasureT)-", "", m[3])))
            if not kind or not loop:
                hard.append(sig)
                inv.append(part)
                continue
            i = info["loops"].index(loop)
            old, new, names = loop[0][0], loop[0][1], loop[1]
            changed = info["changed"][i]
            full = [("l." if not c else "l.initial.") + n for n, c in zip(names, changed)] + ["l." + n for n, c in zip(names, changed) if c]
            rest = "\n".join(lines[k + 1 :])
            q = re.match(rf"^((?:unfolding[^\n]*\n)?){re.escape(m[1])}((?: (?!=){NAME})*?) =(.*)$", rest, re.S)
            if not q:
                hard.append("args of " + sig)
                inv.append(part)
                continue
            params = q[2].split()
            if len(params) != len(full):
                hard.append(f"{len(params)} of {len(full)} args: {sig}")
            env = dict(zip(params, full))
            b = re.sub(rf"(?<![\w.'₀-₉?-])({NAME})(?=((?:\.[^\s(){{}};,]+)*))", lambda z: env.get(z[1], z[1]), q[3])
            word = f"{kind}-{new}"
            inv.append(f"{note}abbrev pub {word} : goal.{word}\n{q[1]}{word} l ={b}")
            continue
        if m:
            want = norm(re.sub(r"^(overflow|nonzero|slice-bounds|bounds|offset-bounds)-", "", m[3]))
            hit = [i for i, (o, n) in enumerate(needs) if norm(o) == want or norm(o) == m[3].replace("-", "_")]
            if not hit and part.rstrip().endswith("= search rules") and "unfolding" not in part:
                continue
            if not hit:
                hard.append("no goal " + m[3])
                ans.append("-- LEFT\n" + part)
                continue
            i = hit[0]
            new, place = needs[i][1], info["asked_at"][i][0]
            rest = "\n".join(lines[k + 1 :])
            q = re.match(rf"^((?:unfolding[^\n]*\n)?)\s*{re.escape(m[1])}((?: (?!=)(?:{NAME}|\([^()]*\)))*?) =(.*)$", rest, re.S)
            if not q:
                hard.append("body of " + sig)
                ans.append("-- LEFT\n" + part)
                continue
            args = q[2].split()
            if q[3].strip() == "search rules" and not q[1]:
                continue
            t = Text(info, new)
            b = t.chains(q[3], {args[0]: (args[0], place)}, True)
            hard += [f"{new}: {h}" for h in t.hard]
            places |= t.used
            ans.append(f"{note}pub {new} : goal.{new}\n{q[1]}{new} {args[0]} ={b}")
            continue
        # a helper
        env = {}
        def typ(z):
            p = find_place(places_of(info), z[2])
            if p:
                env[z[1]] = (z[1], p)
                places.add(places_of(info)[p]["new"])
                return f"({z[1]} : {places_of(info)[p]['new']})"
            hard.append("helper " + z[0])
            return z[0]
        t = Text(info)
        b = re.sub(rf"\(({NAME}) : tie\.({NAME})\)", typ, part)
        for z in list(re.finditer(rf"^ +(?:abbrev )?({NAME}) : tie\.{NAME}\n +\1 = ({NAME})((?:\.before)*)\n+", b, re.M)):
            if z[2] in env:
                cur = env[z[2]][1]
                for _ in range(z[3].count("before")):
                    cur = cur and t.by[cur]["up"]
                if cur:
                    env[z[1]] = (z[2], cur)
                    b = b.replace(z[0], "")
        for z in re.finditer(rf"^(\s*)({NAME}) : tie\.({NAME})\n(\s*)\2 =", b, re.M):
            p = find_place(places_of(info), z[3])
            if p:
                places.add(places_of(info)[p]["new"])
                b = b.replace(f"{z[2]} : tie.{z[3]}", f"{z[2]} : {places_of(info)[p]['new']}")
                env.setdefault(z[2], (z[2], p))
        b2 = b
        if env:
            b2 = "\n".join(t.chains(line, dict(env), False) for line in b.split("\n"))
        if "tie." in b2:
            hard.append("tie in helper")
        hard += t.hard
        ans.append(b2)
    if not any(re.match(r"(--[^\n]*\n)*pub ", a) for a in ans) and not any("-- LEFT" in a for a in ans):
        ans = []
    base = f"Rattle.{crate}.proofs.{dots}"
    os.remove(f"{path}/Proof.antt")
    if inv:
        with open(f"{path}/Invariants.antt", "w", encoding="utf-8") as f:
            f.write("\n".join(comment + uses + [f"use {base}.Given as goal", ""]) + "\n" + "\n\n".join(inv) + "\n")
    if ans:
        extra = [f"use {base}.Goals.{{{', '.join(sorted(places))}}}"] if places else []
        with open(f"{path}/Answers.antt", "w", encoding="utf-8") as f:
            f.write("\n".join(([] if inv else comment) + uses + [f"use {base}.Goals as goal"] + extra + [""]) + "\n" + "\n\n".join(ans) + "\n")
    if not os.listdir(path):
        os.rmdir(path)
    return hard


def main():
    crate, names, only = sys.argv[1], json.load(open(sys.argv[2])), sys.argv[3:]
    for key, info in names.items():
        if not key.endswith(".Lts") or "needs" not in info:
            continue
        folder = key[len(f"Rattle-{crate}-proofs.") : -len(".Lts")].replace(".", "/")
        if only and folder not in only or not os.path.exists(f"crates/{crate}/proofs/{folder}/Proof.antt"):
            continue
        hard = convert(crate, folder, info)
        if hard:
            print(f"left: {folder}: {hard}")


main()
