"""A log that stays short: generations that one process makes while others do nothing, or are at work too."""
import threading

from postgres.table import read_rows, replay

# How often a service is created and closed by one process alone, and by each of three at once; each time is eight
# entries. How many rows a generation has at most: who finds 1,024 of them writes it anew behind its call.
PAIRS, PAIRS_AT_ONCE, MOST = 160, 80, 1100


def churn(process, pairs):
    """Has a process create and close again and again, some lines at once."""
    wrong = []
    for begin in range(0, pairs, 20):
        numbers = range(begin, begin + 20)
        create = f"event create {process.node} 0 c/{process.node}"
        process.say(*(line for number in numbers for line in (f"{create}/{number % 3}", "close 0")))
        replies = [process.hear() for _ in range(2 * len(numbers))]
        wrong += [reply for reply in replies if not reply or not reply.startswith(("ok 0 ", "closed 0"))]
    return wrong


def living(site, name, node):
    """A process that knows its node."""
    process = site.living(name, node)
    process.node = node
    return process


def compaction(site):
    """One creates and closes while another does nothing; then three at once. What was kept is compared."""
    checks, name = site.checks, "compaction"
    idle, busy, other = (living(site, name, node) for node in (1, 2, 3))
    for slot in range(1, 5):
        reply = idle.reply(f"pubsub create 1 {slot} kept/{slot} max_nodes={slot + 2}")
        checks.need(reply and reply.startswith(f"ok {slot} "), f"a create before: {reply}")
    for slot in (8, 9):
        reply = other.reply(f"pubsub open 3 {slot} kept/1")
        checks.need(reply and reply.startswith(f"ok {slot} "), f"an open before: {reply}")
    checks.same(churn(busy, PAIRS), [], "replies while one is at work")
    generation, count = current(site, name)
    checks.need(generation >= 1 and count <= MOST, f"after {PAIRS} creates: generation {generation} of {count} rows")
    reply = idle.reply("pubsub open 1 7 kept/1")
    checks.need(reply and reply.startswith("ok 7 "), f"of who did nothing meanwhile: {reply}")
    work = lambda one: checks.same(churn(one, PAIRS_AT_ONCE), [], "replies while three are at work")
    threads = [threading.Thread(target=work, args=[one], daemon=True) for one in (idle, busy, other)]
    for thread in threads:
        thread.start()
    for thread in threads:
        thread.join()
    later, _ = current(site, name)
    checks.need(later > generation, f"after {PAIRS_AT_ONCE} creates of three processes each: generation {later}")
    table = replay(checks, site.server, name, "a log that is compacted")
    checks.need(table and table.compactions == later, "not each generation is there")
    checks.same(sorted(idle.listing()), sorted(table.world.listing()), "a listing after compactions")
    for process in (idle, busy, other):
        ran = process.end()
        checks.need(ran.status == 0 and not ran.err, f"a process at a log that is compacted: {ran}")
    forgotten(site, name)


def current(site, name):
    """The current generation, and how many rows it has."""
    told = site.server.told(f"select generation, (select count(*) from wulameron.entries e where e.log = l.log and "
                            f"e.generation = l.generation) from wulameron.logs l where name = '{name}'")
    return tuple(map(int, told[0].split("|")))


def forgotten(site, name):
    """Old generations are deleted, and what is there still is the same."""
    checks, server = site.checks, site.server
    before = replay(checks, server, name, "after all have ended")
    checks.need(before and not before.world.remains(), f"in the end there is {before and before.world.remains()}")
    first, _ = current(site, name)
    old = sum(row.generation < first - 1 for row in read_rows(server, name))
    checks.same(server.told(f"select wulameron.forget('{name}')"), [str(old)], "rows that are forgotten")
    after = site.ran("run", name, "--node", "1", lines=["event create 1 0 after", "list"])
    checks.need(after.status == 0 and after.out[-1] == "1 services", f"after old rows are deleted: {after}")
    checks.need(replay(checks, server, name, "after old rows are deleted"), "what is left can't be read")
