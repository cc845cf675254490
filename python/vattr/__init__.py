"""vattr: attributes of a document collection, in memory, for search, sorting and grouping.

    import vattr

    with vattr.Engine("year:single:long,tags:weightedset:string", readers=4) as engine:
        reader = engine.reader()
        engine.feed('{"put":"id:music:song::1","fields":{"year":1969}}')
        engine.commit()
        with reader.hold() as held:            # several answers of one commit
            reader.hits("[1960;1969]")         # array('I', [1])
            reader.sort("year", most=10)       # the first ten of them by year

One thread writes; each reader is used by one thread. A call by another thread, with a closed handle or with the reader of another engine
raises Misuse and calls nothing.
"""
from ._handles import Engine, Guard, Reader
from ._library import VERSION, Answer, Code, Counts, Group, Item, Longs, Misuse, Refused, Score, Told, Totals, message, quoted

__all__ = ["Answer", "Code", "Counts", "Engine", "Group", "Guard", "Item", "Longs", "Misuse", "Reader", "Refused", "Score", "Told", "Totals",
           "VERSION", "message", "quoted"]
__version__ = f"{VERSION // 1000000}.{VERSION // 1000 % 1000}.{VERSION % 1000}"
