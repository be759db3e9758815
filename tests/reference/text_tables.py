"""The grammar of contracts typed as text as a table, and what follows from it
by trying everything: all derivations, all beginnings, all short texts."""

from functools import cache

#: For each symbol its rules, and what each counts.
GRAMMAR = {
    "whole": [(0, ["sums"]), (0, ["whole", *"(+)", "sums"])],
    "sums": [(0, ["tight"]), (0, ["sums", "+", "tight"])],
    "tight": [
        (0, ["0"]),
        (0, ["variable"]),
        (1, ["action"]),
        (1, ["action", ".", "tight"]),
        (1, [*"rec", "variable", ".", "tight"]),
        (1, ["(", "whole", ")"]),
    ],
    "variable": [(0, [name]) for name in "XYZ"],
    "action": [(0, [name]) for name in "abcdefg"] + [(0, ["!", name]) for name in "abcdefg"],
}


class Tables:
    """All derivations of the parts of a text without blanks, by the table."""

    def __init__(self, text):
        self.text = text
        self.count, self.count_all, self.begins = map(cache, (self.count, self.count_all, self.begins))

    def count(self, symbol, begin, end, depth):
        """In how many ways the symbol derives the part within the depth."""
        if symbol not in GRAMMAR:
            return int(self.text[begin:end] == symbol)
        fitting = [(depth - cost, tuple(symbols)) for cost, symbols in GRAMMAR[symbol] if cost <= depth]
        return sum(self.count_all(symbols, begin, end, left) for left, symbols in fitting)

    def count_all(self, symbols, begin, end, depth):
        """In how many ways the symbols one after the other do."""
        first, *rest = symbols
        if not rest:
            return self.count(first, begin, end, depth)
        ways = 0
        for middle in range(begin + 1, end - len(rest) + 1):
            behind = self.count_all(tuple(rest), middle, end, depth)
            ways += behind and behind * self.count(first, begin, middle, depth)
        return ways

    def begins(self, symbol, begin, depth):
        """Whether the text from there on begins something that the symbol
        derives.  Every symbol derives something within every depth."""
        if begin == len(self.text):
            return True
        if symbol not in GRAMMAR:
            return self.text[begin:] == symbol
        return any(
            self.all_begin(symbols, begin, depth - cost, symbol) for cost, symbols in GRAMMAR[symbol] if cost <= depth
        )

    def all_begin(self, symbols, begin, depth, left=None):
        """The same for symbols one after the other.  What begins a symbol
        through its own first symbol begins it without."""
        first, *rest = symbols
        if first != left and self.begins(first, begin, depth):
            return True
        return bool(rest) and any(
            self.count(first, begin, middle, depth) and self.all_begin(rest, middle, depth)
            for middle in range(begin + 1, len(self.text) + 1)
        )


def fault_by_tables(text, depth):
    """As byte_at_fault, of a text without blanks."""
    for length in range(1, len(text) + 1):
        if not Tables(text[:length]).begins("whole", 0, depth):
            return length - 1
    return None if Tables(text).count("whole", 0, len(text), depth) else len(text)


def derived(longest, depth):
    """Every text of so many bytes at most that the grammar derives within the
    depth, over the name a and the variable X."""

    @cache
    def by(symbol, length, depth):
        if symbol not in GRAMMAR:
            return {symbol} if length == 1 and symbol not in "YZbdfg" else set()
        found = set()
        for cost, symbols in GRAMMAR[symbol]:
            if cost <= depth and symbols not in ([name] for name in "ce") and symbols not in (["!", name] for name in "ce"):
                found |= by_all(tuple(symbols), length, depth - cost)
        return found

    @cache
    def by_all(symbols, length, depth):
        first, *rest = symbols
        if not rest:
            return by(first, length, depth)
        return {
            one + other
            for size in range(1, length - len(rest) + 1)
            for other in by_all(tuple(rest), length - size, depth)
            for one in by(first, size, depth)
        }

    return {text for length in range(1, longest + 1) for text in by("whole", length, depth)}
