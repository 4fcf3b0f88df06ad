"""Faults for host/test to plant in host/ledger.c or host/quick.c, one at a time: in which, what is wrong, the text as
it is, and as it is then."""

IN_LEDGER = [
    (
        "a limit: an update up to 33 tokens",
        "held + n > 32)",
        "held + n > 33)",
    ),
    (
        "an order of verdicts: 10 before 9",
        """    if (kind == UPDATE && held + n > 32)
        return 9;
    if (asked > left)
        return 10;
""",
        """    if (asked > left)
        return 10;
    if (kind == UPDATE && held + n > 32)
        return 9;
""",
    ),
    (
        "a word not written: a stock isn't counted as dealt",
        "    d->own[AMOUNT] += n;\n",
        "",
    ),
    (
        "a short stock: one of more than is left is dealt what is left",
        "    verdict = judge_step(&d, e.kind, e.amount);\n",
        """    if (e.kind == STOCK && e.amount <= 32 && e.amount > n - d.own[AMOUNT])
        e.amount = (uint32_t)n - d.own[AMOUNT];
    verdict = judge_step(&d, e.kind, e.amount);
""",
    ),
    (
        "a stock judged like an update: what the desk's view of the bench holds is asked for too",
        "kind == STOCK ? n : 0;",
        "kind == STOCK ? d->bench_view[COUNT] + n : 0;",
    ),
    (
        "a field that isn't used: a stock asks for what customer 0 holds too",
        "kind == STOCK ? n : 0;",
        "kind == STOCK ? held + n : 0;",
    ),
    (
        "a bound missed by one: a stock of just what is left is refused",
        "if (asked > left)",
        "if (asked > left || (kind == STOCK && n > 0 && n == left))",
    ),
    (
        "a list dealt out: a stock of nothing is refused too",
        "if (asked > left)",
        "if (asked > left || (kind == STOCK && left == 0))",
    ),
    (
        "an order of verdicts: 10 before 7",
        "(kind == STOCK && n > 32)",
        "(kind == STOCK && n > 32 && n <= left)",
    ),
    (
        "a slip judged by its first token when its line is cleared",
        "size_t n = waiting(d, tokens);\n",
        """size_t n = waiting(d, tokens);
    for (size_t slip = 0, i = 0; d->form == SLIP && slip < d->line[SALES]; slip++)
        for (size_t left = d->line[CELL + 2 * slip + 1]; left > 0; left--)
            tokens[i++] = d->line[CELL + 2 * slip];
""",
    ),
    (
        "a slip paid for by its first token when what lives is cleared",
        """    for (size_t i = 0; i < n; i++)
        if (lives(d, tokens[i]))
            paid++;
""",
        """    for (size_t i = 0, first = 0, slip = 0, ends = 0; i < n; i++) {
        if (d->form == PLAIN || i == ends)
            first = i;
        if (d->form == SLIP && i == ends)
            ends += d->line[CELL + 2 * slip++ + 1];
        if (lives(d, tokens[first]))
            paid++;
    }
""",
    ),
    (
        "the dead paid for: what is dropped is credited too",
        "+= (uint32_t)paid;",
        "+= (uint32_t)n;",
    ),
    (
        "the dead kept: a line isn't emptied if some of it was dropped",
        "    for (size_t i = COUNT; i < RECORD; i++)\n        d->line[i] = 0;\n",
        "    for (size_t i = COUNT; i < RECORD && paid == n; i++)\n        d->line[i] = 0;\n",
    ),
    (
        "another second number: how many tokens of a line were paid for, if some were dropped",
        "    return n - paid;\n",
        "    return paid < n ? paid : 0;\n",
    ),
    (
        "a place counted in slips: the slip book's second number isn't in opened tokens",
        """            return i;
    return CELLS;
""",
        """        {
            size_t slip = 0, opened = d->line[CELL + 1];
            while (d->form == SLIP && opened <= i)
                opened += d->line[CELL + 2 * ++slip + 1];
            return d->form == SLIP ? slip : i;
        }
    return CELLS;
""",
    ),
    (
        "a second number left standing: a run writes it with a 15 alone",
        "        seconds[i] = (uint8_t)(answer >> 8);\n",
        "        if (verdicts[i] == 15)\n            seconds[i] = (uint8_t)(answer >> 8);\n",
    ),
    (
        "a slip that holds its last token",
        "d->line[CELL] = d->carnet[CELL];",
        "d->line[CELL] = d->carnet[CELL + n - 1];",
    ),
    (
        "a sum that wraps: the money in 32 bits",
        "uint64_t money = 0, joined = 0;",
        "uint32_t money = 0;\n    uint64_t joined = 0;",
    ),
    (
        "a refused step that writes: a line with a dead token is cleared",
        "second = do_step(&d, e.kind, e.amount);",
        "second = do_step(&d, e.kind, e.amount);\n    else if (verdict == 15)\n        clear(&d);",
    ),
    (
        "a value lost: a carnet refreshed from the carnet and not from the desk's view",
        "uint32_t count = d->customer_view[COUNT] + n;",
        "uint32_t count = d->carnet[COUNT] + n;",
    ),
    (
        "an order of tokens: a new sale behind the older ones",
        """        make_room(d->line, d->line[COUNT], n);
        for (size_t i = 0; i < n; i++)
            d->line[CELL + i] = d->carnet[CELL + i];
""",
        """        for (size_t i = 0; i < n; i++)
            d->line[CELL + d->line[COUNT] + i] = d->carnet[CELL + i];
""",
    ),
    (
        "another bench paid: a clear credits the next one",
        "d->bench_view[AMOUNT] += (uint32_t)paid;",
        "d->bench_view[RECORD + AMOUNT] += (uint32_t)paid;",
    ),
    (
        "the old clearing fault: one cell past an even number of tokens is read",
        """    for (size_t i = 0; i < d->line[COUNT]; i++)
        tokens[i] = d->line[CELL + i];
    return d->line[COUNT];
""",
        """    size_t past = d->line[COUNT] % 2 == 0 && d->line[COUNT] < CELLS;
    for (size_t i = 0; i < d->line[COUNT] + past; i++)
        tokens[i] = d->line[CELL + i];
    return d->line[COUNT] + past;
""",
    ),
    (
        "a clause of soundness not asked: a token twice in one till",
        "        if (!all_different(held, gather(book, till, till + 1, held)))\n",
        "        if (gather(book, till, till + 1, held) > CELLS)\n",
    ),
    (
        "a record let pass: a clear with an amount",
        "return kind == JOIN_CUSTOMER || kind == UPDATE || kind == STOCK || kind == SELL || kind == TOP_UP;",
        "return kind == JOIN_CUSTOMER || kind == UPDATE || kind == STOCK || kind == SELL || kind >= CLEAR;",
    ),
    (
        "another bound: a top up judged by the customer's own budget and not by the total",
        "(kind == TOP_UP && !money_fits(d->book, n))",
        "(kind == TOP_UP && d->customer_view[AMOUNT] + n > MILLION)",
    ),
    (
        "a bound missed by one: a top up that comes just up to it is refused",
        "!money_fits(d->book, n)",
        "!money_fits(d->book, n + 1)",
    ),
    (
        "a handshake lost: a stock of more than is left takes it back",
        "    size_t second = verdict == 15 ? first_dead(&d) : 0;\n",
        """    size_t second = verdict == 15 ? first_dead(&d) : 0;
    if (e.kind == STOCK && verdict == 10)
        d.bench_view[HANDSHAKE] = NONE;
""",
    ),
    (
        "a handshake kept: a stock doesn't take it back",
        "    d->own[AMOUNT] += n;\n    d->bench_view[HANDSHAKE] = NONE;\n",
        "    d->own[AMOUNT] += n;\n",
    ),
    (
        "a handshake used twice: the clear of an empty line leaves it",
        "(uint32_t)paid;\n    d->bench_view[HANDSHAKE] = NONE;\n",
        "(uint32_t)paid;\n    if (n > 0)\n        d->bench_view[HANDSHAKE] = NONE;\n",
    ),
    (
        "a step let pass: the desk authenticates a second time",
        "handshake != BENCH_HAS)",
        "handshake == NONE)",
    ),
    (
        "an order of verdicts: 13 before 17",
        "handshake != BENCH_HAS)",
        "handshake != BENCH_HAS && d->till[COUNT] > 0 && d->bench_view[COUNT] > 0)",
    ),
    (
        "an order of verdicts: 15 before 17",
        "handshake != BOTH_HAVE)",
        "handshake != BOTH_HAVE && (kind != CLEAR || first_dead(d) == CELLS))",
    ),
    (
        "a limit of soundness: a handshake of 3",
        "words[HANDSHAKE] <= BOTH_HAVE;",
        "words[HANDSHAKE] <= BOTH_HAVE + 1;",
    ),
    (
        "a clause of soundness too wide: a handshake in the desk's view of a customer",
        "record >= BENCH_VIEWS && record < TILLS",
        "record >= CUSTOMER_VIEWS && record < TILLS",
    ),
    (
        "a place that wraps: the reader far past the end",
        "return place <= bytes && bytes - place >= 8;",
        "return place + 8 <= bytes;",
    ),
    (
        "a length not asked: a tape that ends within a record",
        "bytes % 8 != 0 || count != bytes / 8",
        "count != bytes / 8",
    ),
    (
        "a length let pass: a second buffer that is too long",
        "second_count != bytes / 8",
        "second_count < bytes / 8",
    ),
    (
        "an order of bytes: a book on file with the highest first",
        "bytes[i] = (uint8_t)(word >> 8 * i);",
        "bytes[3 - i] = (uint8_t)(word >> 8 * i);",
    ),
    (
        "an order of bytes: a token's way through the index begins by its highest first",
        "(hash ^ (token >> 8 * i & 255))",
        "(hash ^ (token >> (24 - 8 * i) & 255))",
    ),
    (
        "another hash: multiplied before each byte and not behind it",
        "hash = (hash ^ (token >> 8 * i & 255)) * 16777619;",
        "hash = hash * 16777619 ^ (token >> 8 * i & 255);",
    ),
    (
        "a way that ends at the index's end and doesn't go round it",
        "tokens[index[entry] - 1] != token)\n        entry = (entry + 1) % ENTRIES;\n",
        "tokens[index[entry] - 1] != token && entry + 1 < ENTRIES)\n        entry++;\n",
    ),
    (
        "an entry that is the token's place and not one more",
        "index[entry_of_token(tokens, index, tokens[place])] = (uint16_t)(place + 1);",
        "index[entry_of_token(tokens, index, tokens[place])] = (uint16_t)place;",
    ),
    (
        "an index let pass: each token is found by it, but it has entries more",
        """        if (index[entry] != built[entry])
            return 0;
""",
        """        if (built[entry] != 0 && index[entry] != built[entry])
            return 0;
""",
    ),
    (
        "an index let pass: it has an entry for each token, found from the token's start on, but in another order",
        """    for (size_t entry = 0; entry < ENTRIES; entry++)
        if (index[entry] != built[entry])
            return 0;
""",
        """    for (size_t entry = 0; entry < ENTRIES; entry++)
        if ((index[entry] == 0) != (built[entry] == 0))
            return 0;
    for (size_t place = 0; place < n; place++) {
        size_t entry = start_of(tokens[place]);
        while (index[entry] != 0 && index[entry] != place + 1)
            entry = (entry + 1) % ENTRIES;
        if (index[entry] == 0)
            return 0;
    }
""",
    ),
    (
        "a list not asked: the index of one with a token twice",
        "    uint16_t built[ENTRIES];\n    if (entries != ENTRIES || !good_list(tokens, n))",
        "    uint16_t built[ENTRIES];\n    if (entries != ENTRIES || n > MOST_TOKENS)",
    ),
    (
        "a refused build that writes: the index of a bad list is emptied",
        """    if (entries != ENTRIES || !good_list(tokens, n))
        return 1;
    lay_index(tokens, n, index);
    return 0;
""",
        """    if (entries != ENTRIES)
        return 1;
    lay_index(tokens, good_list(tokens, n) ? n : 0, index);
    return good_list(tokens, n) ? 0 : 1;
""",
    ),
    (
        "another absence: the list's last place for a number that isn't listed",
        "return index[entry] == 0 ? n :",
        "return index[entry] == 0 && n > 0 ? n - 1 : index[entry] == 0 ? n :",
    ),
    (
        "a length let pass: more places than numbers",
        "!index_good(tokens, n, index, entries) || count != place_count",
        "!index_good(tokens, n, index, entries) || count > place_count",
    ),
    (
        "an index not asked: a book opened with a wrong one",
        "    if (!index_good(tokens, n, index, entries))\n        return 1;\n    return hand_slip_open",
        "    if (entries != ENTRIES || (size_t)index[0] > n)\n        return 1;\n    return hand_slip_open",
    ),
]

IN_QUICK = [
    (
        "bits that may not be set: a record of zeros is taken for a top up",
        "    [0] = no_kind, [JOIN_CUSTOMER]",
        "    [0] = top_up, [JOIN_CUSTOMER]",
    ),
    (
        "a number kept beside the book and not brought forward: a join doesn't make room for top ups",
        "    r->room += MILLION - n;\n",
        "",
    ),
    (
        "a block too wide: of the cells that are read from the next record only the last becomes zero",
        "        zero_last(cells, n);\n",
        "        zero_last(cells, 1);\n",
    ),
    (
        "nothing put back: a line with a dead token is refused, but its live ones are struck from the view",
        "        store(cells, first);\n        store(cells + 4, second);\n",
        "        (void)first;\n        (void)second;\n",
    ),
    (
        "a place taken on trust: a slip's tokens are opened where the customer's latest are, and nothing is compared",
        "place < FEW && near[place] != slip[0])",
        "place < 1 && near[place] != slip[0])",
    ),
]

FAULTS = [("ledger", *fault) for fault in IN_LEDGER] + [("quick", *fault) for fault in IN_QUICK]
