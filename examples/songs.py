"""songs: threads of Python that ask while one writes, each answer compared with a dict at its commit."""
import json
import random
import threading

from vattr import Engine, Refused

OPERATIONS, BATCH, READERS = 4000, 50, 4
pick = random.Random(1)
operations = [(pick.randrange(1, 300), pick.randrange(1950, 2000), pick.random() < 0.15) for _ in range(OPERATIONS)]


def line(operation):
    document, year, gone = operation
    name = f"id:music:song::{document}"
    return json.dumps({"remove": name} if gone else {"put": name, "fields": {"year": year, "tags": {"decade": year // 10, "odd": year % 2}}})


def reads(reader, wrong):
    table, done, rounds = {}, 0, random.Random(2)
    while done < OPERATIONS:
        with reader.hold() as held:
            for document, year, gone in operations[done:held.operations]:
                table.pop(document, None) if gone else table.__setitem__(document, year)
            done = held.operations
            low = rounds.randrange(1950, 2000)
            wanted = sorted(d for d, year in table.items() if low <= year <= low + 9)
            if list(reader.hits(f"[{low};{low + 9}]")) != wanted or reader.count(f"[{low};{low + 9}]") != len(wanted):
                wrong.append(("hits", held.commit))
            scores = [(it.document, it.score) for it in reader.scores('tags:dot("decade":2,"odd":-1)')]
            if scores != [(d, year // 10 * 2 - year % 2) for d, year in sorted(table.items())]:
                wrong.append(("scores", held.commit))
            for document in list(table)[:3]:
                tags = [("decade", table[document] // 10), ("odd", table[document] % 2)]
                if reader.items(document) != [(table[document], 1)] or reader.items(document, "tags") != tags:
                    wrong.append(("items", held.commit))


with Engine("year:single:long,tags:weightedset:string", readers=READERS) as engine:
    wrong, readers = [], [engine.reader() for _ in range(READERS)]
    threads = [threading.Thread(target=reads, args=(reader, wrong)) for reader in readers]
    for thread in threads:
        thread.start()
    for first in range(0, OPERATIONS, BATCH):
        engine.feed("\n".join(map(line, operations[first:first + BATCH])) + "\n")
        engine.commit()
        engine.compact()
    for thread in threads:
        thread.join()
    try:
        engine.feed('{"remove":"id:music:song::1"}\n\n{"put":"id:music:song::x"}\n')
        wrong.append("a bad line")
    except Refused as refused:
        if refused.line != 3 or not str(refused).startswith("the id does not end with the number of a document: line 3"):
            wrong.append(("told", refused.line, str(refused)))
    for reader in readers:
        engine.take_back(reader)
print(f"songs: {OPERATIONS} operations, {READERS} threads: " + (f"wrong: {wrong[:5]}" if wrong else "every answer right"))
raise SystemExit(1 if wrong else 0)
