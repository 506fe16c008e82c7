"""The page's reader finds in each form of line what the table of lines.py says."""
from __future__ import annotations

import json

from lines import ROWS
from paging import TWO_EXITS, Paged

# What a reader has found, as the table says it: the names that it fills, and nothing for those that stay empty.
FOUND = """import('./read.js').then(m => %s.map(([reader, text]) => {
  const r = m[{ report: 'reportOf', promises: 'promisesOf', cuts: 'cutsOf', free: 'freeOf', spread: 'spreadOf', waits: 'waitingOf', compared: 'comparisonOf' }[reader]](text), stands = (s) => [s.state, s.rank, s.path],
    sends = (s) => [s.state, s.rank, s.hops, s.next];
  const now = r.cases?.[0] ?? { prefixes: [], origins: [], unclaimed: [], routers: [], sessions: [], transit: [], unused: [] }, cut = r.cuts?.at(-1);
  const said = {
    report: () => ({ prefix: r.prefix, class: r.class, quiet: r.quiet, rounds: r.rounds, deliveries: r.deliveries, events: [...r.events],
      routers: [...r.routers].map(([name, s]) => [name, ...stands(s)]), sessions: r.sessions.map((s) => [s.router, s.peer, ...stands(s)]) }),
    promises: () => ({ cases: r.cases.map((c) => [c.number, c.statement]), prefixes: now.prefixes, origins: now.origins, unclaimed: now.unclaimed,
      sources: [...now.routers.map((s) => [s.name, '', s.rank]), ...now.sessions.map((s) => [s.router, s.peer, s.rank])],
      transit: now.transit, covered: now.isCovered ? [now.number] : [], unused: now.unused, ranks: [...r.ranks],
      uncarried: r.uncarried, open: r.open.map((o) => [o.pattern, o.prefix, o.number]),
      apart: r.apart.map((o) => [o.statement, o.better, o.worse]), last: r.last }),
    cuts: () => ({ cut: cut && [cut.kind, cut.id, cut.moves, cut.shifts], lost: cut?.lost, worse: cut?.worse.map(({ who, rank }) => [who, rank]), last: r.last }),
    free: () => ({ free: [...r.free], last: r.last }),
    spread: () => ({ routers: [...r.routers].map(([name, s]) => [name, ...sends(s)]), sessions: r.sessions.map((s) => [s.router, s.peer, ...sends(s)]),
      idle: [...r.idle], last: r.last }),
    compared: () => {
      const c = r.changes.at(-1), p = [...c?.differs ?? [], ...c?.carriers ?? []].at(-1), named = (n) => n && [n.areAll, n.names];
      return { changes: r.changes.map((e) => [e.old, e.now]), prefixes: c?.prefixes, origins: c?.origins.map((o) => [o.word, named(o.routers)]),
        differs: c?.differs.map((d) => d.words), part: p?.part, routers: named(p?.routers), sessions: named(p?.sessions),
        rows: c?.differs.flatMap((d) => d.rows.map((w) => [w.old, w.now, w.isPath, w.walk])), carriers: c?.carriers.map((e) => e.words[0]),
        last: r.cases ? [r.cases, r.changed] : null };
    },
    waits: () => ({ waits: r.map((way) => [way.from, way.to, way.messages]) }),
  }[reader]();
  return Object.fromEntries(Object.entries(said).filter(([, each]) => each !== null && each !== undefined && each !== '' && each.length !== 0));
}))"""


class Lines(Paged):
    def test_lines(self) -> None:
        """A line says what is found with it and isn't found without it."""
        self.open(*TWO_EXITS)
        found = self.browser.eval(FOUND % json.dumps([[row.reader, text] for row in ROWS for text in (row.text(), row.before)]))
        for row, said, before in zip(ROWS, found[::2], found[1::2]):
            self.assertEqual({name: each for name, each in said.items() if each != before.get(name)}, row.says, row.line)
