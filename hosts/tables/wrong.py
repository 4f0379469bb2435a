"""Tries wrong tables, each in the text of its file: the comparisons of shipped.py must find every one.

usage: wrong.py

Each digit is replaced by each other digit, words are dropped, doubled and swapped, those of a CDT are put into other orders, its
thresholds are rounded to four and to seven decimals, it is replaced by those of other deviations, and a table gets another name. No file
is changed.
"""
from itertools import combinations
import sys

# Importing it leaves nothing in its folder.
sys.dont_write_bytecode = True
import rules
import shipped


def wrong_digits(right):
    for place, word in enumerate(right):
        for i, digit in enumerate(word):
            for other in set("0123456789") - {digit}:
                yield right[:place] + [word[:i] + other + word[i + 1:]] + right[place + 1:]


def wrong_words(right):
    for place, word in enumerate(right):
        yield right[:place] + right[place + 1:]
        yield right[:place] + [word] + right[place:]
    for one, other in combinations(range(len(right)), 2):
        if right[one] != right[other]:
            swapped = list(right)
            swapped[one], swapped[other] = right[other], right[one]
            yield swapped


def other_orders(cdt):
    """The high and the low word of each threshold together, and the low words first."""
    high, low = cdt[:10], cdt[10:]
    yield [word for words in zip(high, low) for word in words]
    yield low + high


def rounded(cdt, decimals):
    """A CDT that went through a sheet: so many decimals are left of each chance."""
    unit = 10**decimals
    thresholds = [2**62 * high + low for high, low in zip(cdt[:10], cdt[10:])]
    chances = [rules.nearest(threshold * unit, 2**124) for threshold in thresholds]
    return rules.words([min(rules.nearest(chance * 2**124, unit), 2**124 - 1) for chance in chances])


def wrong_tables(rule):
    """The words of wrong tables, as texts."""
    right = [str(number) for number in rule]
    yield from wrong_digits(right)
    yield from wrong_words(right)
    if rule != shipped.POLYNOMIAL:
        others = (cdt for cdt in shipped.CDTS.values() if cdt != rule)
        for cdt in (*other_orders(rule), rounded(rule, 4), rounded(rule, 7), *others):
            yield [str(number) for number in cdt]


def with_words(table, words):
    """The text of the table's file with other words in the table. They are set apart as its first two are."""
    text, (first, second, *_, last) = table.text, table.words
    return text[:first.start] + text[first.end:second.start].join(words) + text[last.end:]


def is_found(text, table, twins):
    """Whether the table is found to be wrong in a text of its file: by its rule, and by each table of the same rule in other files."""
    tables, of_form = shipped.read(table.file, text)
    faults = of_form + shipped.against_rules(table.file, tables)
    return any(table.name in fault for fault in faults) and all(shipped.against_each_other([*tables, twin]) for twin in twins)


def try_table(table, twins):
    """Tries wrong versions of one table, and the right one, and gives the number of those that are wrong."""
    right = [str(number) for number in table.rule()]
    if is_found(with_words(table, right), table, []):
        sys.exit(f"{table.name} of {table.file} is found to be wrong, and is not")
    tried = 0
    for words in wrong_tables(table.rule()):
        if not is_found(with_words(table, words), table, twins):
            sys.exit(f"a wrong {table.name} of {table.file} is not found: {', '.join(words)}")
        tried += 1
    others = {
        "under another name": table.text.replace(table.name, "OTHER"),
        "with a sum for a word": with_words(table, [right[0] + " + x", *right[1:]]),
    }
    for how, text in others.items():
        if not is_found(text, table, []):
            sys.exit(f"{table.name} of {table.file} {how} is not found")
    return tried + len(others)


def main():
    tables = [table for file in shipped.FILES for table in shipped.read(file, shipped.text_of(file))[0]]
    tried = 0
    for table in tables:
        tried += try_table(table, [other for other in tables if other.file != table.file and other.rule() == table.rule()])
        if not shipped.read(table.file, table.text + f"\n{table.rule()[0]}\n")[1]:
            sys.exit(f"a number outside of the tables of {table.file} is not found")
    digits = sum(len(str(number)) for _, rule_of in shipped.FILES.values() for rule in rule_of.values() for number in rule)
    if tried < 9 * digits:
        sys.exit(f"{tried} wrong tables are too few: {digits} digits can each be wrong in nine ways")
    print(f"{tried} wrong tables were tried, and all were found")


main()
