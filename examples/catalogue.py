"""catalogue: a page of products by price, facets by tag, totals, the best for a customer and suggestions by a prefix, all of one commit. Each
answer is compared with plain lists."""
import json
import random
from collections import Counter

from vattr import Engine, Group, quoted

PRODUCTS, PAGE = 3000, 10
TAGS = ["blue", "cotton", "garden", "glass", "gold", "green", "kitchen", "steel", "wood"]
dice = random.Random(1)


def made():
    return {"price": dice.randrange(500) * 10 if dice.random() < 0.95 else None, "tags": [tag for tag in TAGS if dice.random() < 0.25],
            "liked": {"young": dice.randrange(100), "old": dice.randrange(100)}}


def put(table, document):
    table[document] = made()
    return json.dumps({"put": f"id:shop:product::{document}", "fields": table[document]}) + "\n"


def shop(reader, table, tag):
    """What a page of the shop shows, of the commit that the reader holds. Returns what of it is wrong."""
    hits = [document for document, it in table.items() if tag in it["tags"]]
    prices = {document: table[document]["price"] for document in hits}
    counts = Counter(name for document in hits for name in table[document]["tags"])
    of_all = Counter(name for it in table.values() for name in it["tags"])
    score = {document: 3 * it["liked"]["young"] - it["liked"]["old"] for document, it in table.items()}
    known = [price for price in prices.values() if price is not None]

    wrong = []
    reader.ask("tags:" + quoted(tag))
    cheapest = sorted(hits, key=lambda it: (prices[it] is None, prices[it], it))
    page = reader.sort("price", first=PAGE, most=PAGE)
    if list(page) != cheapest[PAGE:2 * PAGE]:
        wrong.append("the second page by price")
    dearest = sorted(hits, key=lambda it: (prices[it] is None, -(prices[it] or 0), it))
    if list(reader.sort("price", descending=True)) != dearest:
        wrong.append("all by price, descending")
    numbers, present = reader.longs("price", page)
    if [number if is_there else None for number, is_there in zip(numbers, present)] != [prices[it] for it in page]:
        wrong.append("the prices of a page")
    if reader.totals("price") != (len(known), sum(known), min(known, default=None), max(known, default=None)):
        wrong.append("totals")
    if reader.groups("tags") != sorted(counts.items()):
        wrong.append("facets")
    if reader.groups("tags", by_count=True, most=3) != sorted(counts.items(), key=lambda it: (-it[1], it[0]))[:3]:
        wrong.append("the most frequent tags")
    if reader.terms('tags:"g"*') != [Group(name, of_all[name]) for name in sorted(of_all) if name.startswith("g")]:
        wrong.append("suggestions")
    best = [(it.document, it.score) for it in reader.best('liked:dot("young":3,"old":-1)', PAGE)]
    if best != sorted(score.items(), key=lambda it: (-it[1], it[0]))[:PAGE]:
        wrong.append("the best for a young customer")
    if list(reader.documents(100, 50)) != sorted(it for it in table if it >= 100)[:50]:
        wrong.append("documents one after another")
    return wrong


with Engine("price:single:long,tags:array:string,liked:weightedset:string", readers=1) as engine:
    table, wrong = {}, []
    engine.feed("".join(put(table, document) for document in range(1, PRODUCTS, 2)))
    engine.commit()
    with engine.reader() as reader:
        for _ in range(5):
            with reader.hold() as held:
                before = dict(table)
                engine.feed("".join(put(table, dice.randrange(1, PRODUCTS)) for _ in range(300)))
                engine.commit()
                for tag in TAGS + ["no such tag"]:
                    wrong += [(it, held.commit) for it in shop(reader, before, tag)]
            wrong += [(it, "the last commit") for it in shop(reader, table, "glass")]
print(f"catalogue: {PRODUCTS} products: " + (f"wrong: {wrong[:5]}" if wrong else "every answer right"))
raise SystemExit(1 if wrong else 0)
