#!/usr/bin/env python3
"""Turns each proofs/F/Proof.antt of the older form into Invariants.antt and Answers.antt, by the names that `rt names FOLDER`
lists: port-proofs.py FOLDER CRATE.., at the top of the repository. Proofs by hand stay as they are. It says what it left.
"""
import glob, json, os, re, sys, difflib

KINDS = ["shared-slice-read","slice-write","slice-copy-out","array-copy-out","array-write","element-copy-out","element-write",
         "add","sub","mul","shl","shr","cast","div","rem","neg"]

def norm(n):
    n = n.replace("_", "-")
    n = re.sub(r"^overflow-", "", n)
    if re.search(r"-requires(-\d+)?$", n): return "requires:" + re.sub(r"-requires(-\d+)?$", "", n)
    if re.match(r"returns", n): return "returns"
    for k in KINDS:
        if n.startswith(k + "-") or n == k: return k
    return n

def blocks_of(text):
    """Splits a file into top-level blocks: (kind, text)."""
    lines = text.split("\n")
    blocks, cur = [], []
    for l in lines:
        if l and not l[0].isspace() and not re.match(r"[)\]}]", l):
            # a new top-level line; continue block if it's unfolding / same definition
            blocks.append([l])
        else:
            if blocks: blocks[-1].append(l)
            else: blocks.append([l])
    return ["\n".join(b) for b in blocks]

def group(text):
    """Header (comments, uses) and declarations: list of (name, full text incl. comments above)."""
    tops = blocks_of(text)
    head, decls, pend = [], [], []
    for b in tops:
        first = b.split("\n")[0]
        if not decls and (first.startswith("use ") or (first.startswith("--") and not pend and not head) or (first.startswith("--") and all(h.startswith("--") for h in head))):
            head.append(b.rstrip()); continue
        if first.startswith("use "): head.append(b.rstrip()); continue
        if first.startswith("--"):
            pend.append(b.rstrip()); continue
        m = re.match(r"(?:abbrev |unfoldable )?(?:pub )?(?:data |record )?(\S+)((?:\s|\().*)?:(?!=)", first) if not re.match(r"unfolding", first) else None
        sig = re.match(r"(?:abbrev |unfoldable )?(?:pub )?(\S+) :", first)
        if sig:
            decls.append([sig.group(1), "\n".join(pend + [b.rstrip()])]); pend = []
        elif decls:
            decls[-1][1] += "\n" + "\n".join(pend + [b.rstrip()]); pend = []
        else:
            head.append("\n".join(pend + [b.rstrip()])); pend = []
    return head, decls

def tuple_parts(s):
    """If s ends in a parenthesised tuple (possibly after `let .. in`), returns (prefix, parts)."""
    s = s.rstrip()
    if not s.endswith(")"): return None
    depth = 0
    for i in range(len(s) - 1, -1, -1):
        if s[i] in ")]}": depth += 1
        elif s[i] in "([{": depth -= 1
        if depth == 0: break
    pre = s[:i]
    if pre.strip() and not re.search(r"\bin\s*$", pre) : return None
    inner = s[i + 1:-1]
    parts, depth, cur = [], 0, ""
    for ch in inner:
        if ch in "([{": depth += 1
        if ch in ")]}": depth -= 1
        if ch == "," and depth == 0: parts.append(cur); cur = ""
        else: cur += ch
    parts.append(cur)
    parts = [p.strip() for p in parts]
    if parts and not parts[-1]: parts.pop()
    return pre, parts

class Fn:
    def __init__(self, entry):
        self.e = entry
        self.place = {p[0]: p for p in entry["places"]}
        self.index = {p[0]: i for i, p in enumerate(entry["places"])}
    def chain(self, place):
        out = []
        while place is not None and place in self.place:
            out.append(place); place = self.place[place][1]
        return out
    def args(self, text):
        for old, new in self.e.get("args") or []:
            o, n = old.strip().replace(" ", ""), new.strip().replace(" ", "")
            if o.startswith("."): text = re.sub(re.escape(o) + r"(?![\w'-])", n, text)
        return text
    def clause(self, fields, at, names):
        """fields[at..] are digits of a tuple, nested to the right or flat: one name in their place."""
        i, k, n = 0, at, len(names)
        while k < len(fields) and fields[k].isdigit():
            d = int(fields[k]); k += 1
            if d >= 2:
                i = min(d, n - 1); break
            if d == 0: break
            i += 1
            if i == n - 1: break
        if k == at or i >= n: return fields
        return fields[:at] + [names[i]] + fields[k:]
    def path(self, place, fields):
        """fields: list of names after root with 'before's removed."""
        if not fields: return fields
        f = fields[0]
        if f in ("args", "ranges", "requires", "utf8"):
            if f == "requires" and self.e.get("pre") and len(fields) > 1 and fields[1].isdigit():
                pre = self.e["pre"]; names = pre.get("fields") if isinstance(pre, dict) else pre
                if names and len(names) > 1: fields = self.clause(fields, 1, names)
            return fields
        ch = self.chain(place)
        for p in ch:
            old, new = self.place[p][2]
            if old and old.replace("_", "-") == f.replace("_", "-"):
                fields[0] = new
                if len(fields) > 1:
                    for o, n in self.place[p][4]:
                        if fields[1] == o: fields[1] = n; break
                    if fields[1] == "type-inv": fields[1] = "type_inv"
                    cl = self.e["clauses"][self.index[p]] if self.index[p] < len(self.e["clauses"]) else None
                    if fields[1] == "ensures" and len(fields) > 2 and fields[2].isdigit() and cl and cl.get("fields"):
                        if len(cl["fields"]) > 1: fields = self.clause(fields, 2, cl["fields"])
                return fields
        return fields
    def body(self, place, text):
        roots = {"c"}
        # let aliases
        for m in re.finditer(r"\blet (\w+) = (\w+)((?:\.before)+) in", text):
            if m.group(2) in roots: roots.add(m.group(1))
        text = re.sub(r"\blet (\w+) = c((?:\.before)+) in", r"let \1 = c in", text)
        def put(m):
            root, rest = m.group(1), m.group(2)
            if root not in roots: return m.group(0)
            fs = [x for x in rest.split(".") if x and x != "before"]
            if not fs: return m.group(0)
            fs = [{"well-formed": "well_formed", "type-inv": "type_inv"}.get(x, x) for x in fs]
            fs = self.path(place, fs)
            return ".".join([root] + fs)
        text = re.sub(r"(?<![\w.'-])([A-Za-z]\w*)((?:\.[\w'₀-₉-]+)+)", put, text)
        return self.args(text)

def convert(path, key, entry, crate):
    text = open(path, encoding="utf-8").read()
    if "tie.spec" not in text: return "by hand"
    fn = Fn(entry)
    head, decls = group(text)
    goals, others, inv = [], [], []
    for name, t in decls:
        sigline = next(l for l in t.split("\n") if not l.startswith("--"))
        m = re.search(r": tie\.Need-(\S+)", sigline)
        mi = re.search(r": tie\.(invariant|decreases)-(\S+)", sigline)
        if m: goals.append((name, m.group(1), t))
        elif mi: inv.append((name, mi.group(1), mi.group(2), t))
        elif "tie.close" in t: pass
        else: others.append((name, t))
    needs = entry["needs"]
    a = [norm(g[1]) for g in goals]; b = [norm(n[0]) for n in needs]
    notes = []
    mapping = {}
    if a == b: mapping = {i: i for i in range(len(a))}
    else:
        sm = difflib.SequenceMatcher(None, a, b, autojunk=False)
        for i, j, n in sm.get_matching_blocks():
            for k in range(n): mapping[i + k] = j + k
        if len(a) == len(b):
            for i in range(len(a)):
                if i not in mapping and i not in mapping.values(): mapping[i] = i
        missing = [goals[i][0] for i in range(len(a)) if i not in mapping]
        if missing: notes.append("goals not matched: " + " ".join(missing))
    rename = {goals[i][0]: needs[j][1] for i, j in mapping.items()}
    loopnames = {}
    invs = []
    loops = entry.get("loops") or []
    for (pair, vars_), changed in zip(loops, entry.get("changed") or []):
        loopnames[pair[0]] = (pair[1], vars_, changed)
    for name, kind, loop, t in inv:
        key2 = loop.replace("-", "_")
        hit = next((v for k, v in loopnames.items() if k.replace("-", "_") == key2), None)
        if hit is None: notes.append("loop not matched: " + loop); continue
        new, vars_, changed = hit
        newname = f"{kind}-{new}"
        rename[name] = newname
        lines = t.split("\n")
        si = next(i for i, l in enumerate(lines) if not l.startswith("--"))
        comments = lines[:si]
        rest = "\n".join(lines[si + 1:])
        unf = ""
        mu = re.match(r"\s*unfolding[^\n]*\n", rest)
        if mu: unf = mu.group(0); rest = rest[mu.end():]
        m = re.match(re.escape(name) + r"((?:\s+\S+)*?)\s*=\s?", rest)
        if not m: notes.append("invariant not read: " + name); continue
        params = m.group(1).split()
        body = rest[m.end():]
        want = [("l.initial." if ch else "l.") + v for v, ch in zip(vars_, changed)] + ["l." + v for v, ch in zip(vars_, changed) if ch]
        if len(params) != len(want): notes.append(f"invariant {name}: {len(params)} parameters for {len(want)} variables {vars_} {changed}")
        sub = dict(zip(params, want))
        def put(m):
            return sub.get(m.group(0), m.group(0))
        body = re.sub(r"(?<![\w.'₀-₉-])[A-Za-z_][\w'₀-₉]*(?![\w'₀-₉-])", put, body)
        invs.append("\n".join(comments + [f"abbrev pub {newname} : goal.{newname}"]) + "\n" + unf + f"{newname} l = {body.rstrip()}")
    out = []
    def renamed(t):
        def put(m): return rename.get(m.group(0), m.group(0))
        return re.sub(r"(?<![\w.'-])[A-Za-z_][\w'-]*", put, t)
    for i, (name, old, t) in enumerate(goals):
        lines = t.split("\n")
        si = next(k for k, l in enumerate(lines) if not l.startswith("--"))
        comments = lines[:si]
        rest = "\n".join(lines[si + 1:])
        unf = ""
        mu = re.match(r"\s*unfolding[^\n]*\n", rest)
        if mu: unf = mu.group(0); rest = rest[mu.end():]
        m = re.match(re.escape(name) + r"((?:\s+[\w'κ₀-₉]+)*)\s*=[ ]?", rest)
        if not m:
            notes.append("not read: " + name)
            out.append("-- NOT READ\n" + t); continue
        body = rest[m.end():].rstrip()
        args = [x for x in m.group(1).split() if x != "κs"]
        if body.strip() == "search rules" and not unf: continue
        if i not in mapping:
            out.append("-- NOT MATCHED\n" + t); continue
        j = mapping[i]
        new = needs[j][1]; place = entry["asked_at"][j][0]
        fields = (entry.get("asked") or {}).get(needs[j][0])
        body = fn.body(place, body)
        if fields:
            tp = tuple_parts(body)
            while tp and len(tp[1]) < len(fields) and tp[1][-1].startswith("("):
                more = tuple_parts(tp[1][-1])
                if not more or more[0].strip(): break
                tp = (tp[0], tp[1][:-1] + more[1])
            if tp and len(tp[1]) == len(fields):
                pre, parts = tp
                keep = [(f, p) for f, p in zip(fields, parts)]
                if not pre.strip():
                    for f, p in keep:
                        if p == "search rules" and not unf: continue
                        out.append("\n".join(comments + [f"pub {new}-clause-{f} : goal.{new}-clause-{f}"]) + "\n" + unf + f"{new}-clause-{f} {' '.join(args)} = {p}")
                    continue
                body = pre + "record {\n" + "".join(f"      {f} = {p};\n" for f, p in keep) + "    }"
            else: notes.append(f"{new}: fields {fields} for {body[:60]!r}")
        body = renamed(body)
        out.append("\n".join(comments + [f"pub {new} : goal.{new}"]) + "\n" + unf + f"{new} {' '.join(args)} = {body}")
    for n, t in others:
        if re.search(r"\btie\.", t): notes.append("helper speaks of tie: " + n)
    # places' types in helpers
    pn = {p[0]: q for p, q in zip(entry["places"], entry["places_by_name"])}
    def helper(t):
        m = re.search(r"\(c : tie\.([\w'-]+)[^)]*\)", t)
        if m:
            place = next((k for k in pn if k.replace("_", "-") == m.group(1).replace("_", "-")), None)
            if place: t = fn.body(place, t)
        t = re.sub(r"(tie\.[\w'-]+) invariant-loop[\w'-]*(?: decreases-loop[\w'-]*)?", r"\1", t)
        return re.sub(r"\btie\.([\w'-]+)", lambda m: "goal." + next((v for k, v in pn.items() if k.replace("_","-") == m.group(1).replace("_","-")), m.group(1)), t)
    mod = key[len("Rattle-"):].replace("-proofs", ".proofs", 1)[:-len(".Lts")]
    uses = [h for h in head if h.startswith("use ") and not re.search(r"\.Statement\.\{statement\}|\.Tie as tie", h)]
    comm = [h for h in head if h.startswith("--")]
    folder = os.path.dirname(path)
    written = []
    if invs:
        itext = "\n\n".join(invs)
        hs = [helper(t) for n, t in others if re.search(r"(?<![\w.'-])" + re.escape(n) + r"(?![\w'-])", itext)]
        open(folder + "/Invariants.antt", "w", encoding="utf-8").write("\n".join(comm + uses + [f"use Rattle.{mod}.Given as goal"]) + "\n\n" + "\n\n".join(hs + [itext]) + "\n")
        written.append("Invariants")
    if out:
        # helpers in the order of the file, before the goals that use them: keep all helpers first
        body = "\n\n".join([helper(t) for n, t in others] + out)
        cm = comm if not invs else comm
        open(folder + "/Answers.antt", "w", encoding="utf-8").write("\n".join(cm + uses + [f"use Rattle.{mod}.Goals as goal"]) + "\n\n" + body + "\n")
        written.append("Answers")
    os.remove(path)
    if notes: print(path, "|", "; ".join(notes))
    return written

def main():
    names, crates = sys.argv[1], sys.argv[2:]
    for crate in crates:
        f = next(iter(glob.glob(f"{names}/**/{crate}/names.json", recursive=True)), None)
        if not f: print("no names for", crate); continue
        d = json.load(open(f))
        left = []
        n = 0
        for path in sorted(glob.glob(f"crates/{crate}/proofs/**/Proof.antt", recursive=True)):
            rel = os.path.relpath(os.path.dirname(path), f"crates/{crate}/proofs")
            key = f"Rattle-{crate}-proofs." + rel.replace("/", ".") + ".Lts"
            if key not in d or not isinstance(d[key], dict): left.append(path + " (no names)"); continue
            r = convert(path, key, d[key], crate)
            if isinstance(r, str): left.append(path + " (" + r + ")")
            else: n += 1
        print(crate, "converted", n, "left", left)

main()
