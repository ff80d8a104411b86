"""The table and the plot of a run of the fleet. It is imported by `run`; the plot needs the Debian package python3-matplotlib."""

from typing import List, NamedTuple, Tuple

from checks import Pairs


class Sample(NamedTuple):
    """The fleet at a moment: seconds from the start, nodes that run, the share of nodes and slots with the newest, facts so far."""

    time: float
    nodes: int
    share: float
    stored: int
    kept: int
    contradicted: int


class Checked(NamedTuple):
    """A checkpoint: when, after how many statements, and what was found there."""

    title: str
    time: float
    statements: int
    nodes: int
    share: float
    pairs: Pairs
    compared: int
    wrong: List[str]       # of honest nodes
    found: Tuple[int, int]   # of the node by another rule: slots that do not hold the newest, verdicts that may not differ and do


HEAD = ("checkpoint", "statements", "nodes", "newest held", "same newest", "differ", "not the same", "differ", "compared", "wrong",
        "by another rule")


def table(checked: List[Checked]) -> str:
    """One line a checkpoint."""
    rows = [HEAD]
    for it in checked:
        rows.append((it.title, f"{it.statements:,}", str(it.nodes), f"{it.share:.1%}", *(f"{count:,}" for count in it.pairs),
                     str(it.compared), str(len(it.wrong)),
                     "{:,} slots, {:,} verdicts".format(*it.found) if any(it.found) else "-"))
    widths = [max(map(len, column)) for column in zip(*rows)]
    return "\n".join("  ".join(word.rjust(width) for word, width in zip(row, widths)) for row in rows)


def draw(path: str, title: str, samples: List[Sample], checked: List[Checked], spans: List[Tuple[str, float, float]]) -> None:
    """Writes PATH.svg and PATH.png."""
    import matplotlib
    matplotlib.use("Agg")
    matplotlib.rcParams.update({"svg.fonttype": "none", "svg.hashsalt": "fleet", "font.size": 9})
    from matplotlib import pyplot
    figure, (shares, facts, verdicts) = pyplot.subplots(3, 1, sharex=True, figsize=(8, 7.5), height_ratios=(2, 2, 1.4))
    times = [it.time for it in samples]

    shares.plot(times, [100 * it.share for it in samples], color="#1f5fa8")
    shares.set_ylim(0, 102)
    shares.set_ylabel("holds the newest, %")
    shares.set_title(title, fontsize=10)
    for name, begun, ended in spans:
        shares.axvspan(begun, ended, color="#dddddd")
        shares.text(begun, 4, " " + name)
    running = shares.twinx()
    running.step(times, [it.nodes for it in samples], color="#999999", linewidth=0.7, where="post")
    running.set_ylim(0, 1.1 * max(it.nodes for it in samples))
    running.set_ylabel("nodes that run", color="#777777")

    for kind, color in (("stored", "#2d8a4e"), ("kept", "#c98a1b"), ("contradicted", "#b3261e")):
        facts.plot(times, [getattr(it, kind) / 1000 for it in samples], label=kind, color=color)
    facts.set_ylabel("deliveries, thousands")
    facts.legend(loc="upper left", frameon=False)

    at, width = [it.time for it in checked], max(times) / 60
    may, may_not = [it.pairs.other_differ for it in checked], [it.pairs.same_differ for it in checked]
    verdicts.bar(at, may, width, color="#9db8d6", label="of nodes with different statements: may differ")
    verdicts.bar(at, may_not, width, color="#b3261e", label=f"of nodes with the same newest: may not differ ({sum(may_not) or 'none'})")
    verdicts.set_ylim(0, 1.6 * max(max(may + may_not), 1))
    verdicts.set_ylabel("pairs of verdicts\nthat differ")
    verdicts.set_xlabel("seconds")
    verdicts.legend(loc="upper left", frameon=False)
    figure.tight_layout()
    for form in ("svg", "png"):
        figure.savefig(f"{path}.{form}", dpi=110, metadata={"Date": None} if form == "svg" else None)
    pyplot.close(figure)
