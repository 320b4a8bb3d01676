#!/usr/bin/env python3
"""A Promela model of one table: promela.py POLICY M C,D,P [C,D,P ..].

One process, one loop, one alternative for each release mask. An alternative is one d_step: its guard says that the mask is
legal, its body is the tick, and the assertion at its end fails on a miss. So a state of the model is a state of the table, and a
transition of the model is a legal mask. `k` is scratch: it is 0 again after every tick (breadth-first search has no hidden
variables)."""

import sys


def model(policy, m, tasks):
    n = len(tasks)
    keeps = policy in (0, 2)
    body = "\n      ".join(choice(policy, m, tasks, keeps) + ageing(tasks))
    lines = [f"byte c[{n}], p[{n}], k;", "", "active proctype table() {", "  do"]
    for mask in range(1 << n):
        out = [i for i in range(n) if mask >> i & 1]
        guard = " && ".join(f"p[{i}] == 0" for i in out) or "true"
        release = "".join(f" c[{i}] = {tasks[i][0]}; p[{i}] = {tasks[i][2]};" for i in out)
        lines.append(f"  :: d_step {{ {guard} ->{release}\n      {body} }}")
    return "\n".join(lines + ["  od", "}", ""])


def started(i, work):
    return f"(c[{i}] > 0 && c[{i}] < {work})" if work > 1 else "false"


def earlier(policy, tasks, j, i):
    """Whether job j comes before job i (document 02, §4): less time left D - P + p, or under 4 less slack, which takes c off; then
    the greater age P - p; then the lower number. With equal time left the age is greater where D is; under 4 the compared number is 256
    times the slack, less the age."""
    (_, dj, gj), (_, di, gi) = tasks[j], tasks[i]
    if policy == 4:
        sign = "<=" if j < i else "<"
        return f"257 * p[{j}] + 256 * c[{i}] + {256 * (dj + gi) + gi} {sign} 257 * p[{i}] + 256 * c[{j}] + {256 * (di + gj) + gj}"
    return f"p[{j}] + {dj + gi} {'<=' if (-dj, j) < (-di, i) else '<'} p[{i}] + {di + gj}"


def choice(policy, m, tasks, keeps):
    """Lowers c of the running tasks."""
    lines = []
    if policy < 2:
        cores = [f"({started(i, w)} -> 1 : 0)" for i, (w, _, _) in enumerate(tasks) if keeps and w > 1]
        lines.append("k = " + " - ".join([str(m)] + cores) + ";")
        for i, (w, _, _) in enumerate(tasks):
            if keeps:
                lines.append(f"if :: {started(i, w)} -> c[{i}]-- :: c[{i}] == {w} && k > 0 -> c[{i}]--; k-- :: else fi;")
            else:
                lines.append(f"if :: c[{i}] > 0 && k > 0 -> c[{i}]--; k-- :: else fi;")
    else:
        bits = []
        for i, (w, _, _) in enumerate(tasks):
            ahead = []
            for j, (wj, _, _) in enumerate(tasks):
                if j != i:
                    before = earlier(policy, tasks, j, i)
                    if keeps and wj > 1:
                        before = f"(c[{j}] < {wj} || {before})"
                    ahead.append(f"(c[{j}] > 0 && {before} -> 1 : 0)")
            runs = f"{' + '.join(ahead) or 0} < {m}"
            if keeps and w > 1:
                runs = f"(c[{i}] < {w} || {runs})"
            bits.append(f"(c[{i}] > 0 && {runs} -> {1 << i} : 0)")
        lines.append("k = " + " + ".join(bits) + ";")
        lines += [f"c[{i}] = c[{i}] - ((k >> {i}) & 1);" for i in range(len(tasks))]
    return lines + ["k = 0;"]


def ageing(tasks):
    """Lowers every p, and asserts that no job is late: c > 0 has D + p >= P + c."""
    lines = [f"p[{i}] = p[{i}] - (p[{i}] > 0 -> 1 : 0);" for i in range(len(tasks))]
    kept = " && ".join(f"(c[{i}] == 0 || p[{i}] + {d} >= c[{i}] + {g})" for i, (_, d, g) in enumerate(tasks))
    return lines + [f"assert({kept});"]


if __name__ == "__main__":
    if len(sys.argv) < 4:
        sys.exit(__doc__)
    given = [tuple(int(v) for v in task.split(",")) for task in sys.argv[3:]]
    print(model(int(sys.argv[1]), int(sys.argv[2]), given), end="")
