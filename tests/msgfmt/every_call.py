"""Says whether runs of crates/test_every_call, each with one request for memory refused, answer as they should.

  every_call.py WORD OWN RUNS..   WORD: the calls that were made; OWN: what they print where nothing is refused;
                                  RUNS: what they printed, each run with another request refused

Each line of a run is the one that the call prints by itself, or says that memory was refused, and no line is missing;
what stands behind it is what such answers leave. It prints how often which call told that memory was refused, and
ends with 1 behind a fault, or where a call that takes memory never told.
"""
import sys
from collections import Counter

UNCALLED = "isn't called: out of memory"

# what the calls answer that hang on no call before
REFUSED = {
    'read_po': ['gives Err(PoFault { kind: Memory, line: 0 })'],
    'parse_expr': ['gives Err(Memory)'],
    'read_rule': ['gives Err(AllocError)'],
    'signature': ['gives Err(Memory)'],
    'compile': ['gives Err(LoadFault { kind: Memory, line: 0 })'],
    'from_sorted': ['gives Err(AllocError)', UNCALLED],
    'from_file': ['gives Err(AllocError)', UNCALLED],
    'write_mo': ['gives Err(AllocError)', UNCALLED],
    'read_mo': ['gives Err(Memory)'],
    'check': ['gives Err(Memory)'],
    'reread': ['gives Err(Memory)', UNCALLED],
    'name': ['gives Err(Memory)'],
}

# the answers that take memory: values, except for an absent rule, and the refusals of `check` that are found after
# the first pass over a file
GIVEN = ('Ok', 'Given')
TAKES = {'check': ('Err(BadText', 'Err(Forms', 'Err(Order', 'Err(Charset')}

# the maps that are loaded, and how the entries of the texts count
SALUT, HALLO, FILE = {'hi': 'salut'}, {'hi': 'hallo'}, {'a': 'x', 'ba': 'xx'}
ONE = 'Stats { translated: 1, fuzzy: 0, untranslated: 0 }'
TWICE = 'Refused(LoadFault { kind: Duplicate, line: 4 })'

# a run in which the first publish was refused, and one in which the second load was
FIRST_PUBLISH = """publish gives Err(Memory)
  pending 2, version 0
enter gives 0, fr hi, de hi, sv hi ba
publish gives Ok(2)
  pending 0, version 2
learn, 2, has seen 2
enter gives 2, fr salut, de hallo, sv hi ba
"""
SECOND_LOAD = """load, app de, gives Err(Memory)
  pending 1, version 0
publish gives Ok(1)
  pending 0, version 1
enter gives 1, fr salut, de hi, sv hi ba
"""


class Fault(Exception):
    """A line that can't stand where it stands."""


class Run:
    """The lines of a run, which calls told that memory was refused, and whether it was for what they are given."""

    def __init__(self, lines):
        self.lines, self.at, self.told, self.ungiven = lines, 0, [], False

    def take(self, *wanted):
        """The next line, which is one of these."""
        got = self.lines[self.at] if self.at < len(self.lines) else 'the end'
        if got not in wanted:
            raise Fault(f'line {self.at + 1} is {got!r}, and not {wanted[0]!r}')
        self.at += 1
        return got

    def call(self, label, own, faults=('gives Err(Memory)',)):
        """Whether a call answered its own answer, and not that memory was refused."""
        got = self.take(label + own, *(label + fault for fault in faults if not (self.told or self.ungiven)))
        if got == label + own:
            return True
        if got.endswith(UNCALLED):
            self.ungiven = True
        else:
            self.told.append(label.rstrip(', '))
        return False

    def end(self):
        if self.at != len(self.lines):
            raise Fault(f'there are lines behind the last: {self.lines[self.at]!r}')


def flat(run, word, own):
    """Calls of which each stands by itself."""
    for line in own:
        label, gives, answer = line.partition('gives ')
        run.call(label, gives + answer, REFUSED[word])


def text_in(loads, locale, msgid):
    """What a msgid is in the last load for a locale."""
    return next((texts for where, texts in reversed(loads) if where == locale), {}).get(msgid, msgid)


def absorb(run):
    loads = []

    def show():
        texts = ''.join(f', {locale} {text_in(loads, locale, "hi")}' for locale in ['fr', 'de', 'sv'])
        run.take(f'  version {len(loads)}{texts}')

    show()
    for locale, texts in [('fr', SALUT), ('de', HALLO), ('fr', HALLO), ('sv', SALUT)]:
        if run.call(f'absorb, {locale}, ', 'gives Ok(())', ['gives Err(AllocError)', UNCALLED]):
            loads.append((locale, texts))
        show()


def try_clone(run):
    refused = 'gives Err(AllocError)'
    run.call('try_clone, a name, ', 'gives Ok(app), app', [refused + ', app', UNCALLED])
    run.call('try_clone, a load, ', 'gives Ok(app fr salut), salut', [refused + ', salut', UNCALLED])
    held = '  version 2, fr salut, de hallo, sv hi'
    if run.call('try_clone, a set, ', 'gives Ok', [refused, UNCALLED]):
        run.take(held)
        run.take(held)
    elif not run.ungiven:
        run.take(held)


class Store:
    """A store, and the loads that are published and pending."""

    def __init__(self, run, most, seen=0):
        self.run, self.most, self.published, self.pending, self.seen = run, most, [], [], seen

    def state(self):
        self.run.take(f'  pending {len(self.pending)}, version {len(self.published)}')

    def load(self, locale, texts, domain='app', call='load', fault=TWICE, answer=ONE):
        """A load of these texts, or of what is refused with the fault."""
        full = len(self.published) + len(self.pending) >= self.most
        why = 'BadName' if ' ' in domain else 'VersionsSpent' if full else fault if texts is None else None
        own = f'gives Err({why})' if why else f'gives Ok({answer})'
        if self.run.call(f'{call}, {domain} {locale}, ', own) and not why:
            self.pending.append((locale, texts))
        self.state()

    def load_mo(self, texts, domain='app'):
        self.load('sv', texts, domain, 'load_mo', 'RefusedMo(Bounds)', 2)

    def publish(self):
        if self.run.call('publish ', f'gives Ok({len(self.published) + len(self.pending)})'):
            self.published, self.pending = self.published + self.pending, []
        self.state()

    def enter(self):
        fr, de, sv, ba = (text_in(self.published, *it) for it in
                          [('fr', 'hi'), ('de', 'hi'), ('sv', 'hi'), ('sv', 'ba')])
        self.run.take(f'enter gives {len(self.published)}, fr {fr}, de {de}, sv {sv} {ba}')
        self.seen = len(self.published)

    def learn(self):
        self.seen = len(self.published)
        self.run.take(f'learn, {self.seen}, has seen {self.seen}')
        return self.seen

    def ask(self):
        text = text_in(self.published, 'fr', 'hi')
        self.run.call('ask ', f'gives Ok(({len(self.published)}, "{text}"))', ['gives Err(Memory)', UNCALLED])
        self.run.take(f'  has seen {self.seen}')

    def ask_into(self):
        text = text_in(self.published, 'fr', 'hi')
        self.run.call('ask_into ', f'gives Ok({len(self.published)}), "{text}"', ['gives Err(Memory), ""', UNCALLED])
        self.run.take(f'  has seen {self.seen}')

    def settle(self, notice):
        ahead = self.seen > notice
        self.run.take(f'settle, first, gives Err(Ahead {{ seen: {self.seen} }})' if ahead
                      else f'settle, first, gives Ok({notice})')


def opened(run, label, most, answer='gives Ok'):
    """A new store, or None where memory for it was refused."""
    return Store(run, most) if run.call(f'open_store, {label}, ', answer, ['gives Err(Memory)']) else None


def open_store(run):
    run.take('open_store, 0 9, gives Err(BadCount)')
    run.take('open_store, 17 9, gives Err(BadCount)')
    for readers, most in [(2, 9), (16, 9), (1, 1)]:
        if store := opened(run, f'{readers} {most}', most, 'gives Ok' + readers * ' 0:hi'):
            store.load('fr', SALUT)
            store.load('fr', SALUT)
            store.load('fr', SALUT, 'a b')


def publish(run):
    if store := opened(run, '1', 2**64 - 1):
        store.load('fr', SALUT)
        store.load('de', HALLO)
        store.publish()
        store.enter()
        store.publish()
        store.learn()
        store.enter()
        store.load('fr', None)
        store.publish()
        store.enter()


def ask(run):
    if store := opened(run, '1', 9):
        store.enter()
        store.load('fr', SALUT)
        store.publish()
        first = store.learn()
        store.enter()
        store.enter()
        store.ask()
        store.ask_into()
        store.settle(first)
        store.load('fr', SALUT)
        store.publish()
        store.learn()
        store.settle(first)
        store.load_mo(FILE)
        store.load_mo(None)
        store.load_mo(FILE, 'a b')
        store.publish()
        store.enter()


def serve_store(run, label, most, pending, outcomes, queries):
    """A service of two desks, and a publish behind it."""
    store = opened(run, '2', most)
    if not store:
        return
    if pending:
        store.load('fr', SALUT)
    before, done = len(store.pending), sum(it.startswith('Ok') for it in outcomes)
    version = before + done
    faults = [f'gives Err({it})' for it in ['Memory', 'Closed', 'Join']]
    if run.call(f'serve, {label}, ', f'gives Ok([{", ".join(outcomes)}], {version})', faults + [UNCALLED]):
        for _ in range(2):
            run.take(f'  {queries} of {queries} answers are right, has seen {version}')
        run.take(f'  pending 0, version {version}')
    elif run.ungiven:
        return
    else:
        # nothing done, or some jobs; the load of the last one may be pending
        states = {(before, 0)}
        for jobs in range(done + 1):
            states |= {(0, before + jobs)} | ({(1, before + jobs - 1)} if jobs else set())
        state = run.take(*(f'  pending {p}, version {v}' for p, v in sorted(states)))
        version = sum(int(it) for it in state.replace(',', '').split() if it.isdigit())
    run.call('publish ', f'gives Ok({version})')
    run.take(f'  pending 0, version {version}')


def serve(run):
    ok, twice, bad, spent = f'Ok(Po({ONE}))', f'Err({TWICE})', 'Err(BadName)', 'Err(VersionsSpent)'
    serve_store(run, 'nothing', 9, False, [], 0)
    serve_store(run, 'a job and three queries', 9, False, [ok], 3)
    serve_store(run, 'three jobs', 9, False, [ok, twice, bad], 0)
    serve_store(run, 'a job too many', 0, False, [spent], 0)
    serve_store(run, 'a pending load', 9, True, [], 0)
    serve_store(run, 'three queries', 9, False, [], 3)


LINKED = {'absorb': absorb, 'try_clone': try_clone, 'open_store': open_store, 'publish': publish, 'ask': ask, 'serve': serve}


def checked(lines, word, own):
    """The run of these lines, where they are as they should be."""
    run = Run(lines)
    if lines == ['words: out of memory']:
        run.ungiven = True
        return run
    if word in LINKED:
        LINKED[word](run)
    else:
        flat(run, word, own)
    run.end()
    return run


def read(path):
    """The lines of a file, of which the last is ended too."""
    text = open(path, encoding='utf-8').read()
    return text.removesuffix('\n').split('\n') if text.endswith('\n') else [text + ' (a line that is not ended)']


def main(word, own_path, *paths):
    own, told, ungiven, first_publish, second_load = read(own_path), Counter(), 0, 0, 0
    path = own_path
    try:
        checked(own, word, own)
        for path in paths:
            lines = read(path)
            run = checked(lines, word, own)
            told.update(run.told)
            ungiven += run.ungiven
            text = '\n'.join(lines) + '\n'
            first_publish += FIRST_PUBLISH in text
            second_load += SECOND_LOAD in text
    except Fault as fault:
        sys.exit(f'{path.rsplit("/", 1)[-1]} refused: {fault}')
    if word == 'publish' and not (first_publish and second_load):
        sys.exit(f'the first publish was refused in {first_publish} runs, the second load in {second_load}')
    silent = [] if word in LINKED else [
        label for label, gives, answer in (line.partition(', gives ') for line in own)
        if answer.startswith(TAKES.get(word, GIVEN)) and not told[label]]
    if word in LINKED and not told:
        silent = [word]
    if silent and paths:
        sys.exit(f'never told: {"; ".join(silent)}')
    told = sum(told.values())
    rows = f' (the first publish in {first_publish}, the second load in {second_load})' if word == 'publish' else ''
    rest = len(paths) - told - ungiven
    print(f'{told} told by the calls{rows}, {ungiven} for what they are given, {rest} without effect')


main(*sys.argv[1:])
