"""The operations that the benches of `regd plain` and `regd audit` send: those that fill a book, and the kinds of bench/plain."""

OF_AN_AGENT = 10
PAGE = 100


def agent_of(number):
    return f"spiffe://ex.org/spire/agent/n{number}"


def id_of(number):
    return f"00000000-0000-0000-0000-{number:012x}"


def entry(number, agents):
    """Returns the keys of an entry. Entry `number` belongs to the agent `number` modulo `agents`."""
    return {
        "id": id_of(2 * number),
        "parent": agent_of(number % agents),
        "identity": f"spiffe://ex.org/service/{number}",
        "selectors": [f"unix:uid:{1000 + number}"],
    }


def filling(entries):
    """Returns the operations that fill the book."""
    agents = max(entries // OF_AN_AGENT, 1)
    for number in range(agents):
        yield {"op": "set_agent", "agent": agent_of(number), "selectors": [f"x:{number}"]}
    for number in range(entries):
        yield {"op": "create"} | entry(number, agents)


def spread(number, count):
    """Returns a number below `count`; the numbers from 0 reach all of them, in no order."""
    return number * 7919 % count


def created(number, entries):
    """Returns the create of an entry between two others, and then its deletion."""
    place = spread(number // 2, entries)
    new = entry(place, max(entries // OF_AN_AGENT, 1)) | {"id": id_of(2 * place + 1), "identity": "spiffe://ex.org/new"}
    return {"op": "create"} | new if number % 2 == 0 else {"op": "delete", "id": new["id"]}


JOBS = {
    "show": lambda number, entries: {"op": "show", "id": id_of(2 * spread(number, entries))},
    "authorised": lambda number, entries: {"op": "authorised", "agent": agent_of(spread(number, entries // OF_AN_AGENT))},
    "create": created,
    "update": lambda number, entries: {"op": "update"}
    | entry(spread(number, entries), max(entries // OF_AN_AGENT, 1))
    | {"hint": f"update {number}"},
    "page": lambda number, entries: {"op": "page", "size": PAGE, "from": id_of(2 * (number * PAGE % entries))},
    "token": created,
}
