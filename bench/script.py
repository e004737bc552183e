"""Writes a long script: script.py switch|phold CALLS. Workers take turns; a round and a collection follow every few turns."""
import random
import sys

kind, calls = sys.argv[1], int(sys.argv[2])
random.seed(11)
workers, size = 4, 8
setting = 3 if kind == "switch" else 42
out = ["model size setting pool end cap workers", f"{kind} {size} {setting} common 1099511627776 4294967295 {workers}", "call a b c"]
out += [f"place {p} {p % workers} 0" for p in range(size)]
made, time = 0, 0
if kind == "phold":
    out += [f"post {p} {p + 1} {p}" for p in range(size)]
while made < calls:
    turn = ["round 0 0 0"]
    # posted while the round is open, so that GVT does not run ahead of the next posts
    if kind == "switch":
        turn += [f"post {random.randrange(size)} {time + random.randrange(100)} {random.randrange(4)}" for _ in range(3)]
    for _ in range(5):
        for w in random.sample(range(workers), workers):
            turn += [f"absorb {w} 0 0", f"absorb {w} 0 0", f"step {w} 0 0"]
    turn += [f"report {w} 0 0" for w in range(workers)] + ["collect 64 0 0"]
    out += turn
    made += len(turn)
    time += 100
sys.stdout.write("\n".join(out) + "\n")
