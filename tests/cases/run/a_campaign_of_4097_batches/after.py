# Each fault weighs 1 FIT. The dangerous ones are a0/1, the fault 1, and a131072/1 and y/1, the faults 262,145 and 262,147.
import hashlib
DANGER, STUCK, FAULTS, UNIT = (1, 262145, 262147), 262148, 262148, 10**6
digests = "".join(hashlib.sha256(open(name, "rb").read()).hexdigest() + "\n" for name in ("n.blif", "w.csv", "r.csv", "p.csv"))
lines = ["fmeda-result 1 " + hashlib.sha256(("fmeda-settings 1 0 none\n" + digests).encode()).hexdigest() + f" {(FAULTS + 63) // 64:08x}"]
for batch in range((FAULTS + 63) // 64):
    reached = min(64 * batch + 64, FAULTS)
    plane = sum(1 << fault % 64 for fault in DANGER if fault // 64 == batch)
    permanent, transient = (sum(low <= fault < min(reached, high) for fault in DANGER) for low, high in ((0, STUCK), (STUCK, FAULTS)))
    sums = (min(reached, STUCK), permanent, 0, max(0, reached - STUCK), transient)
    lines.append(f"r {batch:08x} {plane:016x} {0:016x} " + " ".join(f"{UNIT * it:016x}" for it in sums))
open("res", "w").write("\n".join(lines) + "\n")
