"""What can be done after an answer that is no fault: no plan, or a spent budget."""
from speaking.texts import count, do, grouped, means, sentences


def gap(profit, cap):
    """How far a cap is above a profit, in percent of the profit, rounded up to a tenth."""
    tenths = -(-1000 * (cap - profit) // max(1, abs(profit)))
    return f"{tenths // 10}.{tenths % 10}"


def spent(words, budget, seconds=""):
    """`# budget-spent PROFIT CAP`; the budget, or the seconds in its place, is a text of digits, or nothing."""
    profit, cap = words
    begin = f"the budget of {count(int(budget), 'box')} was spent" if budget else "the budget was spent"
    begin = f"planning for {count(int(seconds), 'second')} ended" if seconds else begin
    if profit == "-":
        return sentences(f"{begin} before a plan was found; none earns more than {grouped(int(cap))}",
                         f"Give more {'seconds' if seconds else 'boxes'}; if none is found then either, `./stn least PLANT BUDGET` may say what a longer time would do")
    percent = gap(int(profit), int(cap))
    return sentences(f"{begin}: the plan that is printed earns {grouped(int(profit))}, and none earns more than {grouped(int(cap))}, a gap of {percent} percent",
                     do("answer", "budget spent"))


def infeasible(command):
    """`# infeasible`, by the command that asked."""
    if command == "replan":
        return sentences("no feasible plan keeps the starts before PERIOD", "Choose an earlier PERIOD, or leave out of PLAN what did not happen")
    if command == "solve-part":
        return sentences("this part has no feasible plan", "Other parts may have one: plan them all, then run `./stn join`")
    return sentences(means("answer", "infeasible"), do("answer", "infeasible"))
