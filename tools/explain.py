"""A listing in words: what was refused and why, and what every customer and bench has.

The listing says what a bench is owed and how many tokens wait there; how many of them are dead is counted from the tape and
its verdicts. All that is counted has to be as the listing says, or nothing is said at all."""
import pathlib

import tally
from streams import Fault
from tally import tape

# What a number says, and what to do, word for word as README.md has it.
VERDICTS = {
    1: ("there is no good token list, so that no step was done",
        "Take the last good copy of tokens.rec, and walk again."),
    2: ("this is no record of the eleven kinds, or a field that the kind doesn't use isn't zero",
        "Whoever wrote the tape has a fault; tools/tape read shows such a step as a record."),
    3: ("there is no such bench (0 to 7) or customer (0 to 15)",
        "Correct the number."),
    4: ("who joins has joined already; the line that is opened is open",
        "Nothing, unless another number was meant."),
    5: ("a customer or a bench that is named hasn't joined",
        "Let it join, then repeat the step."),
    6: ("the bench has no line for this customer",
        "Open it, then repeat the step."),
    17: ("the handshake is missing: a clear of either kind comes after the bench's "
         "authentication and then the desk's, and the desk's after the bench's",
         "Let the bench authenticate, then the desk, and then clear, before a stock of the bench, another clear of it or another authentication by it."),
    7: ("a budget above 1,000,000 on joining, a stock above 32, or a top up that would bring the hall's money above "
        "1,000,000 for each joined customer",
        "Ask for less. Another customer who joins with less than 1,000,000 leaves room for a top up."),
    8: ("the update asks for more than the budget that is left",
        "Top up the budget, or ask for less."),
    9: ("the desk's view of the customer would hold more than 32",
        "Have the benches clear what they took, or ask for less."),
    10: ("the list has fewer tokens left than the step needs: a stock those that it asks for, an update those that it "
         "exchanges and adds",
         "Make the list longer at its end, or ask for less. An update exchanges fewer where the benches clear before it."),
    11: ("the carnet has fewer tokens",
         "Sell fewer, or let the customer update first."),
    12: ("the line would hold more than 32 tokens, or has 16 sales already",
         "Clear the line, then sell."),
    13: ("till or desk has no authentication token left for the bench",
         "Stock the bench."),
    14: ("till and desk don't have the same token in front",
         "If it's the bench that the desk knows, stock it: both sides get the same tokens."),
    15: ("a token of the line is dead, since the customer has updated after the sale",
         "Clear what lives: the line's live tokens are paid for, and the dead ones dropped, for bench and customer to settle between them."
         " The second number, which a program gets with it, is the place of the first dead token in the line, 0 for the newest: all before it live."),
}


def count(number, noun):
    return f"{number or 'no'} {noun}{'' if number == 1 else 's'}"


def refusals(records, verdicts):
    """A line for each refused step, and for each number what to do."""
    refused = [(place, tape.line_of(record), verdict) for place, (record, verdict) in enumerate(zip(records, verdicts), 1)
               if verdict]
    if not refused:
        return []
    places, width = len(str(refused[-1][0])), max(len(line) for _, line, _ in refused)
    rows = [f"  step {place:<{places}}  {line:<{width}}  {verdict:>2}: {VERDICTS[verdict][0]}"
            for place, line, verdict in refused]
    advice = [f"  {verdict:>2}: {VERDICTS[verdict][1]}" for verdict in sorted({verdict for *_, verdict in refused})]
    return ["", "refused, and nothing changed by it:", *rows, "", "what to do:", *advice]


def customer_line(number, budget, view, carnet):
    sold = f"{count(view - carnet, 'token')} sold and waiting to be cleared"
    return f"customer {number}: {budget:,} left of the budget; {count(carnet, 'token')} in the carnet; {sold}"


def bench_lines(lines, number, owed, till, waiting):
    """A bench's account, and below it what is dead in its lines, and what was dropped."""
    dead = sum(line.dead for line in lines.values())
    sold = f"{count(waiting, 'token')} sold and waiting to be cleared" + (f", {dead} of them dead" if dead else "")
    yield f"bench {number}: owed {owed:,}; {count(till, 'authentication token')} in the till; {sold}"
    for customer, line in lines.items():
        if line.dead:
            alive = f"; to clear what lives pays for {count(line.live, 'live token')} in the same line" if line.live else ""
            yield f"  from customer {customer}: {count(line.dead, 'token')} dead, never to be paid{alive}"
    for customer, line in lines.items():
        if line.dropped:
            yield f"  from customer {customer}: {count(line.dropped, 'dead token')} dropped, unpaid"


def heading(listing):
    steps = len(listing.verdicts)
    refused = sum(map(bool, listing.verdicts))
    if not steps:
        yield "the tape has no whole step"
    elif refused:
        yield f"{count(steps, 'step')}: {steps - refused} granted, {refused} refused"
    else:
        yield f"all {steps} steps were granted" if steps > 1 else "the one step was granted"
    if listing.is_cut:
        yield f"the tape is cut: it ends within step {steps + 1}; what stands before it was done; fetch the end of the tape again"


def explained(octets, text):
    """A tape and its listing in words."""
    records, is_cut = tally.records_in(octets)
    listing = tally.listing_of(records, is_cut, text)
    hall, wrong = tally.tallied(records, listing)
    if wrong:
        raise tally.unfit(wrong)
    accounts = [""] if listing.accounts else []
    for letter, number, *counts in listing.accounts:
        accounts += [customer_line(number, *counts)] if letter == "C" else bench_lines(hall.lines_of(number), number, *counts)
    return "".join(f"{line}\n" for line in [*heading(listing), *refusals(records, listing.verdicts), *accounts])


def refused():
    """Why no step was done, as far as the list in this folder shows it."""
    says, advice = VERDICTS[1]
    why = "tokens.rec can't be told to be bad from here"
    try:
        tape.check_list("tokens.rec", pathlib.Path("tokens.rec").read_bytes())
    except OSError as fault:
        why = f"tokens.rec: {fault.strerror}"
    except Fault as fault:
        why = str(fault)
    return f"no step was done\n\nrefused:\n   1: {says}\n      {why}\n\nwhat to do:\n   1: {advice}\n"
