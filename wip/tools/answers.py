#!/usr/bin/env python3
"""answers.py ROOT [CRATE..]: gives the goals that must-fail edits break their written answers

Where a goal without an answer isn't proved, the prover goes over the function once more to say what could be written: 4 to 9 seconds of the 12 to 20 that
an edit takes. With an answer it says at once what the search lacks. ROOT is a clone whose crates have the libraries of a run of rt ci (crates/*/out/rlib).
Each edit is tried on the functions that it changes alone (--only); each goal that it leaves open gets `search rules` or else `grind (arith, common_steps)`
in the function's Answers.antt, where the function as it stands is proved so. Goals that the edit itself names anew are left. What came of each edit is
printed, and written to OUT/CRATE.json with OUT of the environment, /tmp/answers by default; a crate with such a file is passed over. LANES: 4."""
import importlib.machinery, importlib.util, json, os, re, shutil, subprocess, sys, tempfile, threading, time
argv, sys.argv = sys.argv, sys.argv[:1]
loader = importlib.machinery.SourceFileLoader("rt", "/opt/rattle/bin/rt")
spec = importlib.util.spec_from_loader("rt", loader)
rt = importlib.util.module_from_spec(spec)
sys.modules["rt"] = rt
loader.exec_module(rt)
root = os.path.realpath(argv[1])
os.chdir(root)
rt.Crate.cuts_libraries, rt.Crate.allowed = True, rt.handles_of(root)
every = rt.crates_of(root)
memo, OUT = {}, os.environ.get("OUT", "/tmp/answers")
os.makedirs(OUT, exist_ok=True)
TRIES = ["search rules", "grind (arith, common_steps)"]

def below(self):
    if self.name not in memo:
        found = []
        for dep in self.deps: found += [it for it in [*dep.below(), dep] if it not in found]
        memo[self.name] = found
    return memo[self.name]
rt.rtlib.Crate.below = below

def say(*words):
    print(time.strftime("%H:%M:%S"), *words, flush=True)

def edits_of(crate):
    at = f"{crate.folder}/must-fail"
    return sorted(f"{at}/{it}" for it in os.listdir(at) if it.endswith(".edit")) if os.path.isdir(at) else []

def check(crate, texts, functions):
    """What rattle says of these functions of the crate with these texts, and the seconds of its stages."""
    with tempfile.TemporaryDirectory(prefix="answers-") as room:
        for part in rt.rtlib.PARTS:
            if os.path.isdir(f"{crate.folder}/{part}"): shutil.copytree(f"{crate.folder}/{part}", f"{room}/{part}")
        for path, text in texts.items():
            os.makedirs(os.path.dirname(f"{room}/{path}"), exist_ok=True)
            with open(f"{room}/{path}", "w") as it: it.write(text)
        words = [*crate.words(["--jobs", "1"], keeps=False), "--stage-times", f"{room}/stages"]
        for it in functions: words += ["--only", it]
        ran = subprocess.run([rt.rtlib.RATTLE, "check", *words], cwd=room, stdin=subprocess.DEVNULL, stdout=subprocess.PIPE, stderr=subprocess.STDOUT, text=True, errors="replace")
        stages = {it.split()[1]: float(it.split()[2]) for it in open(f"{room}/stages") if it.startswith("stage")} if os.path.isfile(f"{room}/stages") else {}
        return ran.returncode, ran.stdout, {it: round(stages.get(it, 0), 1) for it in ("front-end", "session", "offers")}

def functions_of(crate, edit):
    """The functions that an edit changes, as --only names them."""
    file, found = None, set()
    for line in open(edit):
        if line.startswith("file: "): file = line[6:].strip()
        old = re.match(r"old: ?(.*)", line)
        if not old: continue
        if not file.startswith("src/") or not old.group(1).strip(): return []
        source = open(f"{crate.folder}/{file}").read().split("\n")
        at = next((at for at, it in enumerate(source) if old.group(1).strip() in it), None)
        while at is not None and at >= 0 and not re.match(r"\s*(pub(\([a-z]+\))? )?(const )?fn \w+", source[at]): at -= 1
        if at is None or at < 0: return []
        owner, top = "", at
        if source[at].startswith(" "):
            while top >= 0 and not re.match(r"impl\b", source[top]): top -= 1
            if top >= 0:
                head = re.match(r"(?:([\w:]+)(?:<.*?>)? for )?([\w:]+)", re.sub(r"^impl(?:<(?:[^<>]|<[^<>]*>)*>)?\s*", "", source[top]))
                owner = head.group(2).split("::")[-1] + (head.group(1) or "").split("::")[-1] + "::"
        module = file[4:-3].replace("/", "::")
        found.add(("" if module == "lib" else module + "::") + owner + re.search(r"fn (\w+)", source[at]).group(1))
    return sorted(found)

def goals_in(said):
    """The answers that the prover asks for: file -> goal -> what stands between its name and `=`."""
    found, path = {}, None
    for line in said.split("\n"):
        head = re.match(r"help: (?:write|add these lines to) \./(proofs/\S+?/Answers\.antt)", line)
        if head:
            path = head.group(1)
            found.setdefault(path, {})
        elif line.startswith(("help:", "fn ")): path = None
        elif path:
            hole = re.match(r"\s+(\S+)((?: \S+)*) = \?", line)
            if hole: found[path][hole.group(1)] = hole.group(2)
    return found

def imported(text, module, names):
    """The text with these names among its imports of the module."""
    if not names: return text
    line = re.search(rf"^use {re.escape(module)}\.\{{([^}}]*)\}}", text, re.M)
    if not line: return f"use {module}.{{{', '.join(names)}}}\n{text}"
    have = [it.strip() for it in line.group(1).split(",")]
    return text[:line.start(1)] + ", ".join(have + [it for it in names if it not in have]) + text[line.end(1):]

def text_of(crate, path, answers):
    """The file with these answers behind those that it has."""
    at = f"{crate.folder}/{path}"
    old = open(at).read() if os.path.isfile(at) else ""
    module = path[len("proofs/"):-len("/Answers.antt")].replace("/", ".")
    ways = {how for _, how in answers.values()}
    old = imported(old, "Rattle.std.proofs.Common", (["rules"] if TRIES[0] in ways else []) + (["arith"] if TRIES[1] in ways else []))
    old = imported(old, "Rattle.std.proofs.lemmas.Grind", ["common_steps"] if TRIES[1] in ways else [])
    body = "".join(f"\npub {goal} : goal.{goal}\n{goal}{between} = {how}\n" for goal, (between, how) in answers.items())
    own = f"use Rattle.{crate.name}.proofs.{module}.Goals as goal\n"
    if " as goal" not in old:
        last = [*re.finditer(r"^use .*\n", old, re.M)][-1]
        old = old[:last.end()] + own + old[last.end():]
    return old.rstrip("\n") + "\n" + body

def answered(crate, wanted):
    """Writes those answers of the wanted ones, file -> goal -> [between, number of the try], with which the functions are still proved."""
    left = []
    for _ in range(8):
        texts = {path: text_of(crate, path, {it: (between, TRIES[at]) for it, (between, at) in goals.items()}) for path, goals in wanted.items() if goals}
        if not texts: return left
        status, said, _ = check(crate, texts, ["::".join(it[len("proofs/"):-len("/Answers.antt")].split("/")) for it in texts])
        if status == 0:
            for path, text in texts.items():
                os.makedirs(os.path.dirname(f"{crate.folder}/{path}"), exist_ok=True)
                with open(f"{crate.folder}/{path}", "w") as it: it.write(text)
            return left
        bad = set()
        for path, text in texts.items():
            lines = text.split("\n")
            for error in re.finditer(rf"^(?:\./)?{re.escape(path)}:(\d+):\d+: error(.*)", said, re.M):
                at = number = int(error.group(1)) - 1
                while at >= 0 and not re.match(r"pub \S+ : goal\.", lines[at]): at -= 1
                goal = at >= 0 and re.match(r"pub (\S+) : goal\.", lines[at]).group(1)
                if goal in wanted[path]: bad.add((path, goal, bool(re.search("no `|has no|not in scope", error.group(2)))))
        if not bad:
            left += [(path, it, said[-400:]) for path in texts for it in wanted[path]]
            return left
        for path, goal, is_gone in bad:
            if goal not in wanted[path]: continue
            if is_gone or wanted[path][goal][1] + 1 == len(TRIES):
                left.append((path, goal, "no such goal" if is_gone else "not proved so"))
                del wanted[path][goal]
            else: wanted[path][goal][1] += 1
    return left + [(path, it, "too many turns") for path in wanted for it in wanted[path]]

def go(crate):
    told, wanted = [], {}
    for edit in edits_of(crate):
        functions = functions_of(crate, edit)
        texts, why = rt.read_edit(edit, crate.folder)
        if why or not functions:
            told.append((os.path.basename(edit), why or "changes no function"))
            continue
        status, said, stages = check(crate, texts, functions)
        goals = goals_in(said)
        told.append((os.path.basename(edit), status, stages, {path: [*it] for path, it in goals.items()}))
        say(crate.name, *told[-1])
        for path, found in goals.items():
            for goal, between in found.items(): wanted.setdefault(path, {})[goal] = [between, 0]
    left = answered(crate, wanted)
    kept = [(path, goal, TRIES[at]) for path, goals in wanted.items() for goal, (_, at) in goals.items()]
    with open(f"{OUT}/{crate.name}.json", "w") as it: json.dump(dict(edits=told, answers=dict(kept=kept, left=left)), it, indent=1)
    say(crate.name, "answers", len(kept), "left", left)

left = [it for it in every if edits_of(it) and (it.name in argv[2:] or not argv[2:]) and not os.path.isfile(f"{OUT}/{it.name}.json")]
lock = threading.Lock()
def lane():
    while True:
        with lock:
            if not left: return
            crate = left.pop(0)
        try: go(crate)
        except Exception as error: say(crate.name, "failed:", repr(error))
lanes = [threading.Thread(target=lane) for _ in range(int(os.environ.get("LANES", "4")))]
for it in lanes: it.start()
for it in lanes: it.join()
