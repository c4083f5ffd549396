"""One log of several that have the same head (`merge`).

Written from docs/formats.md alone, as a part of check_log.py. A cap is a number, or NO_POINT.
"""

from log_judge import Judge, parts
from log_uses import NO_POINT, BadPart, Defect, LogText, claim_of, head_text, judge, other_line


def read_logs(program, count, data_of, ahead):
    """The logs, each judged over the plant's program, or BadPart. `data_of` has the bytes of the log of a number."""
    logs = []
    for number in range(count):
        try:
            log = LogText(data_of(number), program, ahead).read()
            judge(log, program)
            if line := other_line(log.head, (logs or [log])[0].head):
                raise Defect(line, 22)
        except Defect as defect:
            raise BadPart(f"{number} {defect}") from None
        logs.append(log)
    return logs


def certificate_lines(certificate):
    """The lines behind a line that ends with the scale and the number of factors."""
    return [f"mult {row} {factor}" for row, factor in certificate.factors]


def node_lines(node):
    """The lines of a node."""
    found = [] if node.found is None else [f"found {node.found.profit} {len(node.found.point)}"]
    values = [] if node.found is None else [f"value {slot} {value}" for slot, value in sorted(node.found.point.items())]
    floor = [] if node.floor is None else [f"floor {node.floor}"]
    words = [node.ending, *node.split, *([] if node.certificate is None else [node.certificate.scale, len(node.certificate.factors)])]
    behind = [] if node.certificate is None else certificate_lines(node.certificate)
    return ["node", *(f"cut {it.row} {it.slot}" for it in node.cuts), *found, *values, *floor, " ".join(map(str, words)), *behind]


def way(node):
    """What two nodes have in common that split in the same way."""
    return [(it.row, it.slot) for it in node.cuts], node.floor, node.split, node.certificate


class Merge(Judge):
    """The tree that is merged of the trees of logs over one program, node by node."""

    def __init__(self, program, logs):
        super().__init__(program, logs[0])
        self.logs, self.places = logs, [0] * len(logs)
        self.lines, self.caps = [], []
        profits = [log.plan.profit for log in logs if log.plan.profit is not None]
        self.best = max(profits, default=NO_POINT)

    def order(self):
        """The numbers of the logs, the smallest cap first."""
        return sorted(range(len(self.logs)), key=lambda it: (NO_POINT if self.logs[it].cap is None else self.logs[it].cap, it))

    def take(self, number):
        """The next node of a log."""
        self.places[number] += 1
        return self.logs[number].nodes[self.places[number] - 1]

    def pass_over(self, number):
        """Passes over both parts of a split."""
        left = 2
        while left:
            left += 1 if self.take(number).ending == "split" else -1

    def cut(self, node, box):
        """The box after the cuts of a node."""
        box = list(box)
        for it in node.cuts:
            it.take(self.program, box)
        return box

    def cap_there(self, node, box):
        """The cap of a node that does not split."""
        cap = self.end_cap(node, self.cut(node, box))
        return NO_POINT if cap is None else cap

    def put(self, node, cap):
        self.lines += node_lines(node)
        self.caps.append(cap)

    def visit(self, box, here):
        """Puts the node that is merged of the logs that came down here, and gives the boxes behind it with the logs that go down there."""
        nodes = [(it, self.take(it)) for it in here]
        ends = [(self.cap_there(node, box), at) for at, (_, node) in enumerate(nodes) if node.ending != "split"]
        splits = [(it, node) for it, node in nodes if node.ending == "split"]
        cap, at = min(ends, default=(None, None))
        if not splits or (ends and cap <= self.best):
            for it, _ in splits:
                self.pass_over(it)
            self.put(nodes[at][1], cap)
            return []
        first = splits[0][1]
        down = [it for it, node in splits if way(node) == way(first)]
        for it, _ in splits:
            if it not in down:
                self.pass_over(it)
        box = self.cut(first, box)
        counts = first.floor is not None and all(box)
        self.put(first, first.floor if counts else NO_POINT)
        if counts:
            self.trim(box, first)
        return [(it, down) for it in parts(box, *first.split)]

    def tree(self):
        """Puts all nodes."""
        waiting = [(self.program.domains, self.order())]
        while waiting:
            waiting += self.visit(*waiting.pop())


def merged(program, logs):
    """The claim and the text of the merged log."""
    merge = Merge(program, logs)
    merge.tree()
    cap = max(merge.caps)
    claim, ends = claim_of(logs, None if cap == NO_POINT else cap)
    return claim, head_text(logs) + "\n".join([*merge.lines, *ends]).encode()
