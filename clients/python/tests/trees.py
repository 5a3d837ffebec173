"""What is below a key, and work that is tried again."""
import threading
import uuid

import regtx
from ours import ID, expect_error, raised, store_of
from regtx import Value
from scratch import expect


def trees(program):
    """What is below a key: read, walked and deleted; alone, in a transaction, and in vain."""
    keys = ["0:T", "0:T\\A 50%", "0:T\\A 50%\\x:", "0:T\\A 50%\\x:\\y", "0:T\\B", "0:U"]
    with store_of(program, "trees") as store:
        for key in keys:
            store.create_key(key)
        wanted = [("", Value.sz("d")), ("@", Value(8, b"")), ("n", Value.dword(7))]
        for name, value in reversed(wanted):
            store.set_value("0:T", name, value)
        yield expect("items", (store.items("0:T"), store.items("0:U")), (wanted, []))
        yield expect("all", store.walk("0:"), ["0:", *keys])
        yield expect("below a key", (store.walk("0:T\\A 50%"), store.walk("0:U")), (keys[1:4], keys[5:]))
        for title, call in {"items": store.items, "walk": store.walk, "delete_tree": store.delete_tree}.items():
            yield expect_error(f"{title} of none", lambda: call("0:None"), regtx.NotFound)
        yield expect_error("the root", lambda: store.delete_tree("0:"), regtx.Fixed, "E18 Fixed")
        with store.transaction() as t:
            t.create_key("0:T\\A 50%\\z")
            yield expect("in a transaction", (t.delete_tree("0:T\\A 50%"), t.walk("0:T")), (4, ["0:T", "0:T\\B"]))
            t.rollback()
        with store.session() as session, session.transaction() as t:
            t.set_value("0:T\\B", "v", Value.dword(1))
            yield expect_error("in another's way", lambda: store.delete_tree("0:T"), regtx.Conflict)
            yield expect("it goes on", (t.is_active(), store.walk("0:")), (True, ["0:", *keys]))
            store.delete_tree("0:U")
            t.rollback()
        before = store.number
        yield expect("deleted", (store.delete_tree("0:T"), store.walk("0:"), store.number), (5, ["0:"], before + 1))
        yield expect("folded", (store.fold(), store.opened_at), (before + 1, 0))


def conflicts(program):
    """Work that is tried again until another writer is out of its way."""
    times = []

    def work(t):
        times.append(t)
        t.set_value("0:", "v", Value.dword(len(times)))

    def other_work(t):
        times.append(t)
        raise KeyError

    with store_of(program, "conflicts") as store, store.session() as one:
        other, unit = one.transaction(), uuid.uuid5(ID, "conflicts")
        other.set_value("0:", "v", Value.dword(0))
        yield expect_error("in vain", lambda: store.transact(work, tries=3), regtx.Conflict, "E7 Conflict: tx ")
        yield expect("so many times", (len(times), store.value_names("0:"), other.is_active()), (3, [], True))
        threading.Timer(0.05, other.commit).start()
        yield expect("at last", (store.transact(work, unit), store.kept(unit)), (2, 2))
        yield expect("more often", (len(times) > 4, store.get_value("0:", "v").value), (True, len(times)))
        del times[:]
        lost = one.transaction()
        lost.set_value("0:", "v", Value.dword(0))
        store.set_value("0:", "v", Value.dword(9))
        yield expect("a write alone", (lost.is_active(), raised(lambda: lost.commit()).name), (False, "NotActive"))
        yield expect_error("another error", lambda: one.transact(other_work), KeyError)
        yield expect("once", (len(times), store.transact(lambda t: None)), (1, 0))
