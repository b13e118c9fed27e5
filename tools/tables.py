#!/usr/bin/env python3
"""Makes the tables of a grammar, and the certificate that lr_tables checks.

    tables.py GRAMMAR           prints figures and conflicts
    tables.py GRAMMAR CRATE     writes src/rows.rt, src/rules.rt and specs/Certificate.antt of the crate

A grammar's text, which may stand in a file of code as r"..", has these lines, and comments behind '#':

    %token A B ..               its terminals, in the order of their numbers; 0 is the end of the input
    %left A .., %right A ..     a level of operators, from the loosest to the tightest; so %none and %prefix;
                                +A has a power to the right alone, -A one to the left alone
    %start x                    what a whole input is
    left: X Y Z | X             rules; a line that begins with '|' has the left side of the line before
                                !A in a right side: the rule does not stand before A, which has no level; no more does one that has a level
                                !=A: the rule has the level of A; !loose: it has none; !closed: it stands before each token
                = name: what the rule makes; of a grammar with such names src/actions.rt has an enum and a table
                ~ name, at the end: the form that the rule is where it is left out; src/forms.rt has a table, src/form.rt the enum

The tables are LALR(1). Of what is written rules.rt, which is the grammar, and actions.rt are trusted, as far as no test compares them with
the text; lr_tables checks the rest. Each rule that takes its level from a symbol behind its first three is printed: maybe it is loose.
"""

import re
import sys
from collections import defaultdict

MOST = 65535  # a power that no symbol has
WIDTH = 10  # symbols of a right side at most


def parse(text):
    """The tokens, the start, the rules with their marks, actions and forms, and the levels, as names."""
    tokens, start, rules, levels, left = [], None, [], [], None
    for line in text.splitlines():
        line = line.split('#')[0].rstrip()
        words = line.split()
        if not words:
            continue
        if words[0] == '%token':
            tokens += words[1:]
        elif words[0] == '%start':
            start = words[1]
        elif words[0] in ('%left', '%right', '%none', '%prefix'):
            levels.append((words[0][1:], words[1:]))
        else:
            named = re.match(r'(\w+)\s*:(.*)', line)
            if named:
                left, line = named.group(1), named.group(2)
            else:
                line = line.strip()[1:]
            for side in line.split('|'):
                side, _, form = side.partition(' ~ ')
                side, _, action = side.partition(' = ')
                symbols = [word for word in side.split() if word[0] != '!']
                marks = [word[1:] for word in side.split() if word[0] == '!']
                rules.append((left, symbols, marks, action.strip(), form.strip()))
    return tokens, start, rules, levels


class Grammar:
    """Symbols by number: terminals first, 0 the end. Rules, and their powers."""

    def __init__(self, text):
        tokens, start, rules, levels = parse(text)
        self.names = ['END'] + tokens
        self.terminals = len(self.names)
        for left, *_ in rules:
            if left not in self.names:
                self.names.append(left)
        number = {name: place for place, name in enumerate(self.names)}
        self.start = number[start]
        self.rules = [(number[left], [number[x] for x in side]) for left, side, *_ in rules]
        self.actions = [rule[3] for rule in rules]
        self.forms = [rule[4] for rule in rules]
        self.rules_of = defaultdict(list)
        for place, (left, side) in enumerate(self.rules):
            assert len(side) <= WIDTH, self.names[left]
            self.rules_of[left].append(place)
        self.set_powers(number, levels, [rule[2] for rule in rules])
        self.find_firsts()
        self.find_weights()
        self.find_samples()

    def set_powers(self, number, levels, marks):
        count = len(self.names)
        self.lefts, self.rights = [0] * count, [0] * count
        level, kind, self.far = {}, {}, []
        top = 2 * (len(levels) + 2)  # more than any operator's
        for place, (how, names) in enumerate(levels):
            for name in names:
                symbol = number[name.lstrip('+-')]
                level[symbol], kind[symbol] = place + 2, how
                if name[0] != '-':
                    self.rights[symbol] = 2 * (place + 2)
                if name[0] != '+':
                    self.lefts[symbol] = 2 * (place + 2)
        self.before, self.behind = [MOST] * len(self.rules), [MOST] * len(self.rules)
        for place, (left, side) in enumerate(self.rules):
            named = [number[mark[1:]] for mark in marks[place] if mark[0] == '=']
            refused = [number[mark] for mark in marks[place] if mark[0] != '=' and mark not in ('loose', 'closed')]
            leveled = named or [x for x in side if x in level]
            if 'loose' in marks[place]:
                continue
            if named or (leveled and left == side[-1]):
                symbol = leveled[0]
                if not named and side.index(symbol) > 2:
                    self.far.append((place, symbol))
                power = 2 * level[symbol]
                self.before[place] = power if kind[symbol] in ('left', 'prefix') else power - 1
                if side[0] == left:
                    self.behind[place] = power if kind[symbol] == 'right' else power - 1
            if 'closed' in marks[place]:
                self.before[place] = MOST
            for token in refused:
                assert token not in level, self.names[token]
                self.lefts[token], self.before[place] = top, top - 1

    def is_blocked(self, rule, token):
        return self.before[rule] < self.lefts[token]

    def is_barred(self, rule, symbol):
        return self.behind[rule] < self.rights[symbol]

    def begun(self, symbol, last):
        """The rules for this symbol that stand behind the last one."""
        return [rule for rule in self.rules_of[symbol] if not self.is_barred(rule, last)]

    def find_firsts(self):
        """Which terminals each symbol may begin with, and whether it may be empty."""
        count = len(self.names)
        self.firsts = [1 << x if x < self.terminals else 0 for x in range(count)]
        self.empty = [False] * count
        changed = True
        while changed:
            changed = False
            for left, side in self.rules:
                firsts, empty = self.heads(side, 0), all(self.empty[x] for x in side)
                if firsts & ~self.firsts[left] or (empty and not self.empty[left]):
                    self.firsts[left] |= firsts
                    self.empty[left] |= empty
                    changed = True

    def heads(self, side, ahead):
        heads = 0
        for symbol in side:
            heads |= self.firsts[symbol]
            if not self.empty[symbol]:
                return heads
        return heads | ahead

    def find_weights(self):
        """Weights that show that derivations are linear in their tokens."""
        for most in (4, 8, 16, 32, 64, 128, 256):
            weights = [0] * len(self.names)
            for _ in range(4 * len(self.names)):
                changed = False
                for left, side in self.rules:
                    need = 1 + sum(weights[x] for x in side) + most - len(side) * most
                    if need > weights[left]:
                        weights[left], changed = need, True
                if not changed:
                    self.most, self.weights = most, weights
                    return
        raise SystemExit('no weights: a symbol leads to itself without a token')

    def is_free(self, token):
        """Every rule stands before this token."""
        return self.lefts[token] == 0

    def find_samples(self):
        """Of each nonterminal some tokens that it derives, behind every symbol, where a free token follows."""
        self.samples = {}
        changed = True
        while changed:
            changed = False
            for place, (left, side) in enumerate(self.rules):
                tokens = self.sampled(side)
                if left not in self.samples and self.behind[place] >= max(self.rights) and tokens is not None:
                    self.samples[left] = (place, tokens)
                    changed = True

    def sampled(self, side):
        """Tokens that the symbols derive where a free token follows, if there is a sample of each."""
        tokens = []
        for symbol in reversed(side):
            if symbol < self.terminals:
                tokens = [symbol] + tokens
            elif symbol in self.samples and (not tokens or self.is_free(tokens[0])):
                tokens = self.samples[symbol][1] + tokens
            else:
                return None
        return tokens


class Tables:
    """The states of a grammar, what each does at each symbol, and what it is known by."""

    def __init__(self, grammar):
        self.grammar = grammar
        self.begin = len(grammar.rules)  # a rule that only reads the start
        self.sides = [side for _, side in grammar.rules] + [[grammar.start]]
        self.find_states()
        self.find_aheads()
        self.find_rows()
        self.find_opened()

    def closure(self, kernel, last):
        items, work = set(kernel), list(kernel)
        while work:
            rule, place = work.pop()
            if place < len(self.sides[rule]):
                for begun in self.grammar.begun(self.sides[rule][place], last):
                    if (begun, 0) not in items:
                        items.add((begun, 0))
                        work.append((begun, 0))
        return items

    def find_states(self):
        numbers, self.kernels, self.steps, self.accesses = {}, [], [], []

        def number(kernel, symbol):
            if kernel not in numbers:
                numbers[kernel] = len(self.kernels)
                self.kernels.append(kernel)
                self.steps.append({})
                self.accesses.append(symbol)
            return numbers[kernel]

        number(frozenset([(self.begin, 0)]), 0)
        state = 0
        while state < len(self.kernels):
            following = defaultdict(set)
            for rule, place in self.closure(self.kernels[state], self.accesses[state]):
                if place < len(self.sides[rule]):
                    following[self.sides[rule][place]].add((rule, place + 1))
            for symbol in sorted(following):
                self.steps[state][symbol] = number(frozenset(following[symbol]), symbol)
            state += 1

    def items_of(self, state):
        """Items with their look-aheads, those of the kernel first."""
        grammar = self.grammar
        items = [(rule, place, self.aheads[state][rule, place]) for rule, place in self.kernels[state]]
        for symbol, ahead in self.closed[state].items():
            items += [(rule, 0, ahead) for rule in grammar.begun(symbol, self.accesses[state])]
        return items

    def close(self, state):
        grammar, closed, changed = self.grammar, self.closed[state], True
        while changed:
            changed = False
            for rule, place, ahead in self.items_of(state):
                rest = self.sides[rule][place:]
                if rest and rest[0] >= grammar.terminals:
                    heads = grammar.heads(rest[1:], ahead)
                    if rest[0] not in closed or heads & ~closed[rest[0]]:
                        closed[rest[0]] = closed.get(rest[0], 0) | heads
                        changed = True

    def find_aheads(self):
        self.aheads = [{item: 0 for item in kernel} for kernel in self.kernels]
        self.closed = [{} for _ in self.kernels]
        self.aheads[0][self.begin, 0] = 1
        work = list(range(len(self.kernels)))
        while work:
            state = work.pop()
            self.close(state)
            for rule, place, ahead in self.items_of(state):
                if place < len(self.sides[rule]):
                    target = self.steps[state][self.sides[rule][place]]
                    if ahead & ~self.aheads[target][rule, place + 1]:
                        self.aheads[target][rule, place + 1] |= ahead
                        if target not in work:
                            work.append(target)

    def find_rows(self):
        grammar, self.rows, self.conflicts = self.grammar, [], []
        for state in range(len(self.kernels)):
            row = {symbol: ('go', target) for symbol, target in self.steps[state].items()}
            for rule, place, ahead in self.items_of(state):
                if place < len(self.sides[rule]):
                    continue
                step = ('accept',) if rule == self.begin else ('reduce', rule)
                for token in range(grammar.terminals):
                    if ahead >> token & 1 and not (rule != self.begin and grammar.is_blocked(rule, token)):
                        if row.get(token, step) != step:
                            self.conflicts.append((state, grammar.names[token], row[token], step))
                        row[token] = step
            self.rows.append(row)

    def find_opened(self):
        """For each nonterminal that begins in a state an item before it, behind which a free token may follow; in the order in
           which they are found, so that the item is of the kernel or of one that was found before."""
        self.opened = []
        for state in range(len(self.kernels)):
            opened, items = {}, sorted(self.kernels[state])
            for rule, place in items:
                rest = self.sides[rule][place:]
                if not rest or rest[0] < self.grammar.terminals or rest[0] in opened:
                    continue
                tokens = self.grammar.sampled(rest[1:])
                if tokens is not None and (not tokens or self.grammar.is_free(tokens[0])):
                    opened[rest[0]] = (rule, place)
                    items += [(begun, 0) for begun in self.grammar.begun(rest[0], self.accesses[state])]
            self.opened.append(opened)

    def missing(self):
        """What the certificate lacks: samples, and nonterminals behind which no free token can be shown to follow."""
        grammar = self.grammar
        for symbol in range(grammar.terminals, len(grammar.names)):
            if symbol not in grammar.samples:
                yield f'no sample of {grammar.names[symbol]}'
        for state, opened in enumerate(self.opened):
            for symbol in self.closed[state]:
                if symbol not in opened:
                    yield f'no free token follows {grammar.names[symbol]} in state {state}'

    def figures(self):
        grammar = self.grammar
        items = sum(len(self.items_of(state)) for state in range(len(self.kernels)))
        return (f'{grammar.terminals} terminals, {len(grammar.names) - grammar.terminals} nonterminals, '
                f'{len(grammar.rules)} rules, {len(self.kernels)} states, {items} items, {len(self.conflicts)} conflicts, '
                f'most {grammar.most}, weight {grammar.weights[grammar.start]}')


def constant(grammar, symbol):
    return grammar.names[symbol].upper() + ('' if symbol < grammar.terminals else '_')


def code(step):
    """The number of a step, as step_of of lr_machine reads it."""
    return 1 if step[0] == 'accept' else 2 * step[1] + 2 + (step[0] == 'reduce')


def row_text(row, symbols):
    return '    [' + ', '.join(str(code(row[x])) if x in row else '0' for x in symbols) + '],'


def rows_text(tables):
    terminals, count = tables.grammar.terminals, len(tables.grammar.names)
    gotos = [row_text(row, range(terminals, count)) for row in tables.rows]
    rows = list(dict.fromkeys(gotos))
    return '\n'.join([
        '//! What each state does at each symbol. Made by tools/tables.py.', '', '/// The rows at terminals, as numbers.',
        f'pub const ROWS: [[u16; {terminals}]; {len(tables.rows)}] = [', *(row_text(row, range(terminals)) for row in tables.rows), '];',
        '', '/// The rows at nonterminals, each once.', f'pub const GOTOS: [[u16; {count - terminals}]; {len(rows)}] = [', *rows, '];',
        '', '/// Which of these is that of each state.', f'pub const GOTO_OF: [u16; {len(gotos)}] = {[rows.index(row) for row in gotos]};',
        '', '/// The symbol that leads to each state.', f'pub const ACCESSES: [u16; {len(tables.rows)}] = {tables.accesses};', ''])


def rules_text(grammar):
    count = len(grammar.names)
    lines = ['//! The grammar. Made by tools/tables.py.', '', 'use lr_tables::Rule;', '']
    for x in range(count):
        lines += [f'/// The terminal {grammar.names[x]}.', f'pub const {constant(grammar, x)}: u16 = {x};'] if 0 < x < grammar.terminals else [
            f'const {constant(grammar, x)}: u16 = {x};']
    lines += ['', '/// The names of the symbols.', f'pub const NAMES: [&str; {count}] = [', *(f'    "{name}",' for name in grammar.names), '];',
              '', '/// The rules.', f'pub const RULES: [Rule; {len(grammar.rules)}] = [']
    for place, (left, side) in enumerate(grammar.rules):
        back = [constant(grammar, x) for x in reversed(side)] + ['0'] * (WIDTH - len(side))
        lines.append(f'    // {spelled(grammar, place)}')
        lines.append(f'    Rule {{ left: {constant(grammar, left)}, back: [{", ".join(back)}], '
                     f'before: {grammar.before[place]}, behind: {grammar.behind[place]} }},')
    return '\n'.join(lines + [
        '];', '', '/// The powers of the symbols to the left.', f'pub const LEFTS: [u16; {count}] = {grammar.lefts};',
        '', '/// The powers of the symbols to the right.', f'pub const RIGHTS: [u16; {count}] = {grammar.rights};',
        '', '/// How many terminals there are, with the end.', f'pub const TERMINALS: u16 = {grammar.terminals};',
        '', '/// What a whole input is.', f'pub const START: u16 = {constant(grammar, grammar.start)};', ''])


def spelled(grammar, rule):
    left, side = grammar.rules[rule]
    return f'{grammar.names[left]}: {" ".join(grammar.names[x] for x in side)}'.rstrip()


def variant(name, other):
    return ''.join(word.capitalize() for word in name.split('_')) or other


def forms_text(grammar):
    lines = ['//! Which form each rule is, where it is left out. Made by tools/tables.py.', '', 'use crate::form::Form;', '',
             '/// The form that each rule is, where the language leaves it out or what stands in it.',
             f'pub const FORMS: [Form; {len(grammar.rules)}] = [']
    return '\n'.join([*lines, *(f"    Form::{variant(form, 'Other')}," for form in grammar.forms), '];', ''])


def actions_text(grammar):
    lines = ['//! What each rule makes. Made by tools/tables.py.', '', '/// What a rule makes of the values of its right side.',
             '#[derive(Clone, Copy, PartialEq, Eq)]', 'pub enum Action {', '    /// It makes nothing that the language has.', '    Outside,']
    for action in dict.fromkeys(filter(None, grammar.actions)):
        rules = [f'`{spelled(grammar, rule)}`' for rule, name in enumerate(grammar.actions) if name == action]
        lines += [f'    /// {rules[0]}', *(f'    /// and {rule}' for rule in rules[1:]), f"    {variant(action, 'Outside')},"]
    return '\n'.join([*lines, '}', '', '/// What each rule makes.', f'pub const ACTIONS: [Action; {len(grammar.rules)}] = [',
                      *(f"    Action::{variant(action, 'Outside')}," for action in grammar.actions), '];', ''])


def listed(items):
    return ' ∷ '.join([*items, '[]'])


def certificate_text(tables):
    grammar = tables.grammar
    facts = [f'({grammar.firsts[x]}, {"true" if grammar.empty[x] else "false"}, {grammar.weights[x]})'
             for x in range(grammar.terminals, len(grammar.names))]
    samples = [f'({x}, {rule}, {listed(map(str, tokens))})' for x, (rule, tokens) in reversed(grammar.samples.items())]
    lines = ['-- What lr_tables checks the tables by. Made by tools/tables.py.',
             'use Rattle.std.specs.Prelude.{ℕ, Bool, true, false, List, [], ◌∷◌}',
             'use Rattle.lr_tables.specs.Certificates.{State, Certificate}', '',
             '-- of each nonterminal: the terminals that it may begin with, as bits, whether it may be empty, and a weight',
             'abbrev pub facts : List (ℕ × Bool × ℕ)', 'facts = ' + listed(facts), '',
             '-- of each nonterminal a rule, and tokens that it derives by this rule',
             'abbrev pub samples : List (ℕ × ℕ × List ℕ)', 'samples = ' + listed(samples), '',
             '-- of each state its items behind a first symbol, and the nonterminals that begin there, each with what may follow',
             'abbrev pub states : List State', 'states =']
    for state in range(len(tables.kernels)):
        kernel = [f'({rule}, {place}, {ahead})' for (rule, place), ahead in sorted(tables.aheads[state].items())
                  if rule != tables.begin]
        closed = [f'({x}, {tables.closed[state][x]}, {rule}, {place})'
                  for x, (rule, place) in reversed(tables.opened[state].items())]
        lines.append(f'    record {{ kernel = {listed(kernel)}; closed = {listed(closed)} }} ∷')
    return '\n'.join(lines + ['    []', '', '-- all of it, with one less than the turns that a token pays for', 'abbrev pub certificate : Certificate',
                              f'certificate = record {{ most = {grammar.most}; facts = facts; samples = samples; states = states }}', ''])


def write(tables, crate):
    actions = [('src/actions.rt', actions_text(tables.grammar))] if any(tables.grammar.actions) else []
    forms = [('src/forms.rt', forms_text(tables.grammar))] if any(tables.grammar.forms) else []
    for name, text in [('src/rows.rt', rows_text(tables)), ('src/rules.rt', rules_text(tables.grammar)), *actions, *forms,
                       ('specs/Certificate.antt', certificate_text(tables))]:
        with open(f'{crate}/{name}', 'w') as file:
            file.write(text)


def main(words):
    text = open(words[0]).read()
    tables = Tables(Grammar(text[text.index('r"') + 2:text.rindex('"')] if words[0].endswith('.rt') else text))
    for rule, symbol in tables.grammar.far:
        print(f'the level of {tables.grammar.names[symbol]}: {spelled(tables.grammar, rule)}', file=sys.stderr)
    for conflict in tables.conflicts:
        print('conflict', conflict, file=sys.stderr)
    for lack in tables.missing():
        print(lack, file=sys.stderr)
    print(tables.figures())
    if len(words) > 1:
        write(tables, words[1])


if __name__ == '__main__':
    main(sys.argv[1:])
