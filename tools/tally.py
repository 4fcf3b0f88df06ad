"""What a tape and its verdicts come to, by adding alone, and whether a listing fits that.

A walk begins with an empty book, so that what every account has is known before each step, without the book: its verdict has
to be the one that the counts bear out, and at the end every account has to be what was counted. How many tokens the list has
isn't known. A granted step shows that it has enough of them, a 10 that it hasn't, and one length has to fit all of these.
So a listing is taken exactly if a walk prints it with some good list."""
import collections, importlib.machinery, importlib.util, itertools, pathlib, re
from types import SimpleNamespace

from streams import Fault


def load_tape():
    """tools/tape as a module; importlib wants a loader by name where a file doesn't end in .py."""
    loader = importlib.machinery.SourceFileLoader("tape", str(pathlib.Path(__file__).resolve().parent / "tape"))
    module = importlib.util.module_from_spec(importlib.util.spec_from_loader("tape", loader))
    loader.exec_module(module)
    return module


tape = load_tape()
REFUSED = b"refused 1\n"  # all that a walk without a good list prints
NUMBER = "(0|[1-9][0-9]{0,19})"
STEP, ACCOUNT = re.compile(f"(.*) {NUMBER}"), re.compile(f"([CM]) {NUMBER} {NUMBER} {NUMBER} {NUMBER}")

JOIN_CUSTOMER, JOIN_BENCH, OPEN, UPDATE, STOCK, SELL, BENCH, DESK, CLEAR, TOP_UP, CLEAR_LIVING = range(1, 12)
USES = {kind: re.sub("[^A-Z]", "", line) for kind, line in tape.STEPS if kind}  # a kind's fields, by their letters
HANDSHAKES = {DESK: 1, CLEAR: 2, CLEAR_LIVING: 2}  # what the handshake has to be
CUSTOMERS, BENCHES, MOST_BUDGET, MOST_HELD, MOST_SALES = 16, 8, 1_000_000, 32, 16

# When a number is given: docs/RULES.md, section 5, line by line, of a step s. The first that fits is the verdict, so that a
# line may count on what those above it ask. 14 doesn't come up: till and desk's view get the same tokens, and lose the same.
RULES = {
    2: lambda s: s.kind not in USES or any(s.unused),
    3: lambda s: s.m >= BENCHES or s.c >= CUSTOMERS,
    4: lambda s: {JOIN_CUSTOMER: s.customer, JOIN_BENCH: s.bench, OPEN: s.line}.get(s.kind),
    5: lambda s: s.kind >= OPEN and ("B" in s.uses and not s.bench or "C" in s.uses and not s.customer),
    6: lambda s: s.kind in (SELL, CLEAR, CLEAR_LIVING) and not s.line,
    17: lambda s: s.kind in HANDSHAKES and s.bench.handshake != HANDSHAKES[s.kind],
    7: lambda s: s.n > {JOIN_CUSTOMER: MOST_BUDGET, STOCK: MOST_HELD, TOP_UP: s.hall.room()}.get(s.kind, s.n),
    8: lambda s: s.kind == UPDATE and s.n > s.customer.budget,
    9: lambda s: s.kind == UPDATE and s.customer.view + s.n > MOST_HELD,
    10: lambda s: s.hall.dealt + s.wanted() > s.hall.longest,
    11: lambda s: s.kind == SELL and s.n > s.customer.carnet,
    12: lambda s: s.kind == SELL and (s.line.live + s.line.dead + s.n > MOST_HELD or s.n and s.line.sales == MOST_SALES),
    13: lambda s: s.kind in (BENCH, DESK) and not s.bench.till,
    15: lambda s: s.kind == CLEAR and s.line.dead,
}

# Who has an account, by its letter, and what its three numbers are.
ACCOUNTS = {
    "C": ("customer", "has a budget of {}", "has {} tokens in the desk's view", "has {} tokens in the carnet"),
    "M": ("bench", "is owed {}", "has {} tokens in the till", "has {} tokens waiting in its lines"),
}

Listing = collections.namedtuple("Listing", "verdicts is_cut accounts")


class Hall:
    """What all have, by number, and a line by bench and customer; and the tokens dealt, with the shortest and the longest list
    that fits the verdicts up to here."""

    def __init__(self):
        self.customers, self.benches, self.lines = {}, {}, {}
        self.dealt, self.shortest, self.longest = 0, 0, tape.MOST_TOKENS

    def deal(self, tokens):
        """A list that has granted a step is long enough for it."""
        self.dealt += tokens
        self.shortest = max(self.shortest, self.dealt)

    def lack(self, tokens):
        """One that has refused it isn't."""
        self.longest = min(self.longest, self.dealt + tokens - 1)

    def room(self):
        """How much money may still come in by top ups."""
        held = sum(customer.budget + customer.view for customer in self.customers.values())
        return MOST_BUDGET * len(self.customers) - held - sum(bench.owed for bench in self.benches.values())

    def accounts(self):
        """Every account in the listing's order: letter, number and three counts."""
        for number, customer in sorted(self.customers.items()):
            yield "C", number, customer.budget, customer.view, customer.carnet
        for number, bench in sorted(self.benches.items()):
            yield "M", number, bench.owed, bench.till, sum(line.live + line.dead for line in self.lines_of(number).values())

    def lines_of(self, number):
        """A bench's lines, by customer."""
        return {customer: line for (bench, customer), line in sorted(self.lines.items()) if bench == number}


class Step:
    """A record, of bench m and customer c, with amount n, and what these and their line have before it, None where they
    aren't there; below, what a granted one changes."""

    def __init__(self, hall, record):
        self.kind, self.m, self.c, _, self.n = fields = tape.RECORD.unpack(record)
        self.hall, self.uses = hall, USES.get(self.kind, "")
        self.unused = [field for letter, field in zip(tape.FIELDS, fields) if letter not in f"K{self.uses}"]
        self.bench, self.customer = hall.benches.get(self.m), hall.customers.get(self.c)
        self.line = hall.lines.get((self.m, self.c))

    def wanted(self):
        """The tokens that it asks the list for."""
        held = self.customer.view if self.kind == UPDATE else 0
        return held + self.n if self.kind in (UPDATE, STOCK) else 0

    def verdicts(self):
        """What it may be answered: one number, but where the list's length decides, granted or 10."""
        number = next((number for number, fits in RULES.items() if fits(self)), 0)
        return (0, 10) if number == 0 and self.hall.dealt + self.wanted() > self.hall.shortest else (number,)

    def join_customer(self):
        self.hall.customers[self.c] = SimpleNamespace(budget=self.n, view=0, carnet=0)

    def join_bench(self):
        self.hall.benches[self.m] = SimpleNamespace(owed=0, till=0, handshake=0)

    def open_line(self):
        self.hall.lines[self.m, self.c] = SimpleNamespace(live=0, dead=0, sales=0, dropped=0)

    def update(self):
        """Of any amount: all that the customer has sold leaves the desk's view."""
        self.customer.budget -= self.n
        self.customer.view = self.customer.carnet = self.customer.view + self.n
        for line in (line for (_, customer), line in self.hall.lines.items() if customer == self.c):
            line.live, line.dead = 0, line.live + line.dead

    def stock(self):
        self.bench.till, self.bench.handshake = self.n, 0

    def sell(self):
        self.customer.carnet -= self.n
        self.line.live += self.n
        self.line.sales += self.n > 0

    def authenticate(self):
        self.bench.till -= 1
        self.bench.handshake = 1 if self.kind == BENCH else 2

    def clear(self):
        """Of either kind: what lives is paid, and what is dead dropped, of which a clear that is granted has none."""
        self.customer.view -= self.line.live
        self.bench.owed, self.bench.handshake = self.bench.owed + self.line.live, 0
        self.line.dropped += self.line.dead
        self.line.live = self.line.dead = self.line.sales = 0

    def top_up(self):
        self.customer.budget += self.n


CHANGES = {JOIN_CUSTOMER: Step.join_customer, JOIN_BENCH: Step.join_bench, OPEN: Step.open_line, UPDATE: Step.update,
           STOCK: Step.stock, SELL: Step.sell, BENCH: Step.authenticate, DESK: Step.authenticate, CLEAR: Step.clear,
           TOP_UP: Step.top_up, CLEAR_LIVING: Step.clear}


def unfit(*whats):
    return Fault(f"listing: these numbers don't fit together: {'; '.join(whats)}")


def records_in(octets):
    """The whole records of a tape, and whether bytes are left over behind them."""
    size = tape.RECORD.size
    whole = len(octets) - len(octets) % size
    return [octets[at:at + size] for at in range(0, whole, size)], whole < len(octets)


def listing_of(records, is_cut, text):
    """What a listing says: a verdict of each record, "cut" or not, and then nothing but accounts."""
    *lines, unended = text.split("\n")
    verdicts, rest = [], lines[len(records):]
    for place, (record, line) in enumerate(zip(records, lines)):
        match, head = STEP.fullmatch(line), f"{place} {record[0]}"
        if not match or match[1] != head:
            raise unfit(f'the line of step {place + 1} is {tape.quoted(line)}, and not "{head}" and a verdict')
        verdicts.append(int(match[2]))
    if unended:
        raise unfit(f"the last line, {tape.quoted(unended)}, isn't ended")
    if len(verdicts) < len(records):
        raise unfit(f"there are {len(records):,} steps on the tape, and lines for {len(verdicts):,} in the listing")
    if (rest[:1] == ["cut"]) != is_cut:
        raise unfit(f"""the tape {"ends" if is_cut else "doesn't end"} within a record, and the listing says otherwise""")
    accounts = []
    for line in rest[is_cut:]:
        match = ACCOUNT.fullmatch(line)
        if not match:
            raise unfit(f"an account is {tape.quoted(line)}")
        accounts.append((match[1], *map(int, match.groups()[1:])))
    return Listing(verdicts, is_cut, accounts)


def counted(records, verdicts):
    """The hall after all steps, and what is wrong with the first verdict that the counts before it don't bear out, if any."""
    hall = Hall()
    for place, (record, verdict) in enumerate(zip(records, verdicts), 1):
        step = Step(hall, record)
        if verdict not in step.verdicts():
            what, right = tape.line_of(record), " or ".join(map(str, step.verdicts()))
            return hall, f"step {place}, {what}, has the verdict {verdict}; by the steps before, it has to be {right}"
        if verdict == 0:
            hall.deal(step.wanted())
            CHANGES[step.kind](step)
        elif verdict == 10:
            hall.lack(step.wanted())
    return hall, None


def named(account):
    return f"{ACCOUNTS[account[0]][0]} {account[1]}" if account else "nobody"


def misfit_in(counts, accounts):
    """What is wrong with the first account that isn't there, in its place, with what was counted, if any."""
    for right, told in itertools.zip_longest(counts, accounts):
        who = named(right)
        if who != named(told):
            return f"the next account has to be {who}'s by the tape and its verdicts, and is {named(told)}'s"
        for words, by_tape, by_account in zip(ACCOUNTS[right[0]][1:], right[2:], told[2:]):
            if by_tape != by_account:
                return f"{who} {words.format(by_tape)} by the tape and its verdicts, {by_account} by its account"


def tallied(records, listing):
    """The hall that is counted, and what in the listing doesn't fit it, if anything."""
    hall, wrong = counted(records, listing.verdicts)
    return hall, wrong or misfit_in(hall.accounts(), listing.accounts)
