"""Functions, contracts and loops of the code. Run at the repository's root: python3 kinds.py WHAT [ARGUMENTS]."""
import glob, re, sys
from collections import defaultdict

def functions():
    for f in sorted(glob.glob("crates/*/src/*.rt")):
        text = open(f).read()
        lines = text.split("\n")
        starts = [i for i, l in enumerate(lines) if re.match(r'\s*(pub )?(extern "C" )?fn \w+', l)]
        for i in starts:
            name = re.search(r"fn (\w+)", lines[i]).group(1)
            indent = len(lines[i]) - len(lines[i].lstrip())
            j = i
            while not re.match(r"\s{%d}\}$" % indent, lines[j]): j += 1
            whole = lines[i:j + 1]
            k = next((n for n, l in enumerate(whole) if l.rstrip() == " " * indent + "{" or (l.rstrip().endswith("{") and not re.match(r"\s*(requires|ensures)", l))), 0)
            head = "\n".join(whole[:k + 1])
            body = [(i + 1 + n, l) for n, l in enumerate(whole) if n > k]
            signature = re.split(r"\n\s*(?:requires|ensures)\b", head)[0]
            m = re.search(r"fn \w+(?:<[^(]*>)?\((.*)\)", signature, re.S)
            names = re.findall(r"(?:^|[(,\n])\s*(?:mut )?(\w+)\s*:", m.group(1)) if m else []
            types = dict(re.findall(r"(\w+)\s*:\s*([^,\n]+)", m.group(1))) if m else {}
            clauses = re.split(r"\n\s*(?=(?:requires|ensures)\b)", head)[1:]
            yield dict(file=f, crate=f.split("/")[1], name=name, line=i + 1, params=names, types=types,
                       requires=" ".join(c for c in clauses if c.startswith("requires")),
                       ensures=" ".join(c for c in clauses if c.startswith("ensures")), body=body, head=head)

def place(d): return "%s:%d %s" % (d["file"], d["line"], d["name"])

def ghosts():
    """For each file, the names that its ghost lines bring in, but for Prelude's, with the crate of each."""
    names = defaultdict(dict)
    for f in glob.glob("crates/*/src/*.rt"):
        for crate, file, ns, alias in re.findall(r"ghost use Rattle\.(\w+)\.specs\.(\w+)(?:\.\{([^}]*)\})?(?: as (\w+))?;", open(f).read()):
            if crate == "std": continue
            for n in (ns.split(",") if ns else [alias]): names[f][n.strip()] = crate + "." + file
    return names

what = sys.argv[1]
fs = list(functions())
if what == "count":
    print(len(fs))
elif what == "loops":
    for d in fs:
        for n, l in d["body"]:
            m = re.match(r"\s*(?:'\w+: )?(while|loop|for)\b(.*)\{", l)
            if not m or m.group(1) == "for": continue
            test = m.group(2).strip()
            rest = [x for k, x in d["body"] if k > n]
            depth, block = 1, []
            for x in rest:
                depth += x.count("{") - x.count("}")
                if depth <= 0: break
                block.append(x)
            step = next((x.strip() for x in block if re.match(r"\s*(\w+) (\+|-)= 1;", x) and re.search(r"\b" + re.match(r"\s*(\w+)", x).group(1) + r"\b", test)), None)
            print("%s  %s:%d %s: %s %s%s" % ("counts" if step else "other ", d["file"], n, d["name"], m.group(1), test, "  [%s]" % step if step else ""))
elif what == "facts":
    least = int(sys.argv[2])
    g = ghosts()
    seen = defaultdict(lambda: dict(requires=[], ensures=[]))
    for d in fs:
        for part in ("requires", "ensures"):
            for w in set(re.findall(r"[A-Za-z_]\w*", d[part])):
                if w in g[d["file"]]: seen[w + " of " + g[d["file"]][w]][part].append(d["crate"] + "::" + d["name"])
    for w, s in sorted(seen.items(), key=lambda x: -len(set(x[1]["requires"] + x[1]["ensures"]))):
        both = set(s["requires"] + s["ensures"])
        if len(both) >= least:
            print("%-36s %3d functions (requires %d, ensures %d): %s" % (w, len(both), len(set(s["requires"])), len(set(s["ensures"])), ", ".join(sorted(both))))
elif what == "together":
    for group in sys.argv[2:]:
        names = group.split("+")
        hit = [d for d in fs if all(n in d["params"] for n in names)]
        print("%-28s %3d functions: %s" % (group, len(hit), ", ".join(d["crate"] + "::" + d["name"] for d in hit)))
elif what == "returns":
    for d in fs:
        m = re.search(r"\)\s*->\s*(\w[\w<>:, \[\];]*?)\s*(?:\n|\{|$)", d["head"])
        if m and re.fullmatch(sys.argv[2], m.group(1).strip()): print(place(d) + " -> " + m.group(1).strip())
elif what == "params":
    from collections import Counter
    c = Counter(len(d["params"]) for d in fs)
    for d in sorted(fs, key=lambda d: -len(d["params"])):
        if len(d["params"]) >= int(sys.argv[2]): print(len(d["params"]), place(d))
elif what == "union":  # NAME@CRATE ..: functions that ask for one of these
    g = ghosts()
    hit = [d["crate"] + "::" + d["name"] for d in fs if any(re.search(r"\b%s\b" % a.split("@")[0], d["requires"]) and g[d["file"]].get(a.split("@")[0], "").startswith(a.split("@")[1] + ".") for a in sys.argv[2:])]
    print(len(hit), "functions:", ", ".join(hit))
