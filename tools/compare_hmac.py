#!/usr/bin/env python3
"""Compares 1,000 random tokens of block_tokens with Python's hmac and struct.

Copies the crates that block_tokens stands on into a folder of its own, builds compare_hmac.main over them with `rt try`, which runs the code and proves
nothing, and gives it random keys, moments, serials, blocks, modes and users. Each token that it issues must be byte for byte
the one that Python makes, and so must the code of that token under another key of 0 to 130 bytes.

    python3 tools/compare_hmac.py [COUNT [SEED]]
"""
import hashlib
import hmac
import pathlib
import random
import shutil
import struct
import subprocess
import sys
import tempfile

HERE = pathlib.Path(__file__).resolve().parent
NAME_BYTES = [b for b in range(0x21, 0x7f) if b not in b":,/"]


def number(rng, top):
    """Mostly any number up to top, sometimes one at an end."""
    return rng.choice([0, 1, top, rng.randint(0, top), rng.randint(0, top), rng.randint(0, top)])


def case(rng):
    key = rng.randbytes(20)
    now, lifetime = number(rng, 2**62), number(rng, 2**32 - 1)
    serial, block = number(rng, 2**32 - 1), number(rng, 2**64 - 1)
    modes = rng.randint(1, 3)
    user = bytes(rng.choice(NAME_BYTES) for _ in range(rng.choice([1, 255, rng.randint(1, 255)])))
    other = rng.randbytes(rng.randint(1, 130))
    line = f"{key.hex()} {now} {lifetime} {serial} {block} {modes} {user.decode()} {other.hex()}"
    text = struct.pack(">BQIQBB", 1, now + lifetime, serial, block, modes, len(user)) + user
    token = text + hmac.new(key, text, hashlib.sha1).digest()
    return line, f"{token.hex()} {hmac.new(other, token, hashlib.sha1).hexdigest()}"


def libraries():
    """The crates that block_tokens stands on with it, each with its line of crates.txt, lowest first."""
    lines = {line.split(":")[0]: line for line in (HERE.parent / "crates.txt").read_text().splitlines() if ":" in line and not line.startswith("#")}
    wanted, found = ["block_tokens"], set()
    while wanted:
        name = wanted.pop()
        if name in lines and name not in found:
            found.add(name)
            wanted += lines[name].split(":")[1].split()
    return {name: line for name, line in lines.items() if name in found}


def run(lines):
    with tempfile.TemporaryDirectory() as place:
        root = pathlib.Path(place)
        below = libraries()
        for name in below:
            shutil.copytree(HERE.parent / "crates" / name, root / "crates" / name, ignore=shutil.ignore_patterns("out"))
        shutil.copy(HERE.parent / "HANDLES", root)
        crate = root / "crates" / "compare_hmac"
        (crate / "src").mkdir(parents=True)
        shutil.copy(HERE / "compare_hmac.main", crate / "src" / "main.rt")
        own = "compare_hmac: block_keys hdfs_values permission_bits hdfs_types block_tokens hex anyhow"
        (root / "crates.txt").write_text("\n".join([*below.values(), own, ""]))
        done = subprocess.run(["rt", "try"], cwd=crate, input="\n".join(lines) + "\n", capture_output=True, text=True)
        return done.stdout, done.stderr


def main():
    count = int(sys.argv[1]) if len(sys.argv) > 1 else 1000
    rng = random.Random(int(sys.argv[2]) if len(sys.argv) > 2 else 1)
    cases = [case(rng) for _ in range(count)]
    out, errors = run([line for line, _ in cases])
    answers = [line for line in out.splitlines() if len(line.split(" ")) == 2 and len(line.split(" ")[1]) == 40]
    if len(answers) != count:
        print(out[-2000:], errors[-2000:], sep="\n")
        sys.exit(f"{len(answers)} answers to {count} lines")
    for (line, wanted), got in zip(cases, answers):
        if got != wanted:
            sys.exit(f"differs on {line}\n  wanted {wanted}\n  got    {got}")
    print(f"{count} tokens are as Python makes them")


if __name__ == "__main__":
    main()
