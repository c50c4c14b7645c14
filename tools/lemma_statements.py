#!/usr/bin/env python3
"""lemma_statements.py OLD NEW: the lemmas and definitions of crates/*/proofs/*.antt whose statement differs between two checkouts, and those
that one of them lacks. Line breaks and comments do not count. The last line counts all of OLD and those that are the same."""
import glob
import os
import re
import sys

W = r"[^\s(){}.;,@\"«»\[\]\\`]+"
def decls(t):
    out={}
    t=re.sub(r"^\s*--[^\n]*\n","",t,flags=re.M)
    # join continuation lines
    lines=t.split('\n'); i=0
    cur=None
    stack=[]
    blocks=[]
    for l in lines:
        if not l.strip(): 
            if cur: blocks.append(cur); cur=None
            continue
        ind=len(l)-len(l.lstrip())
        m=re.match(r"\s*((?:pub |abbrev |unfoldable )*)(record |data )?("+W+r")((?: [^:\n]*)?) :(?= |$)",l)
        if m and not re.match(r"\s*use ",l) and (cur is None or ind<=cur[1]):
            if cur: blocks.append(cur)
            cur=[m[3],ind,l]
        elif cur is not None:
            first=re.match(r"\s*("+W+")",l)
            if ind<=cur[1] and first: blocks.append(cur); cur=None
            else: cur[2]+=' '+l.strip()
    if cur: blocks.append(cur)
    for n,ind,s in blocks:
        s=re.sub(r"\s+"," ",s.strip())
        out.setdefault(n,[]).append(s)
    return out


def main(old, new):
    total = same = 0
    for path in sorted(glob.glob(old + "/crates/*/proofs/*.antt")):
        relative = os.path.relpath(path, old)
        other = os.path.join(new, relative)
        if not os.path.exists(other):
            print("gone:", relative)
            continue
        a, b = decls(open(path, encoding="utf-8").read()), decls(open(other, encoding="utf-8").read())
        for name in a:
            total += 1
            if name not in b:
                print("gone:", relative, name)
            elif a[name] != b[name]:
                print("changed:", relative, name)
                print("   -", a[name][0])
                print("   +", b[name][0])
            else:
                same += 1
        for name in b:
            if name not in a:
                print("new:", relative, name)
    for path in sorted(glob.glob(new + "/crates/*/proofs/*.antt")):
        if not os.path.exists(os.path.join(old, os.path.relpath(path, new))):
            print("new:", os.path.relpath(path, new))
    print(total, same)


main(sys.argv[1], sys.argv[2])
