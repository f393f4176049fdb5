"""What a handle asks `psql`, byte for byte: the texts of the crate iceoryx2_postgres_log, written a second time."""

END = 9223372036854775807
GATE = "'wulameron.logs'::regclass::oid::int"
CELLS = "seq || ' ' || encode(chain, 'hex') || ' ' || "


def reading(log, generation, number, until=END):
    """The row of a number, with that of the last row, and up to 64 rows behind it."""
    rows = f"from wulameron.entries where log = {log} and generation = {generation}"
    last = f"(select max(seq)::text {rows})"
    cells = f"{CELLS}case when seq > {number} then encode(bytes, 'hex') else {last} end"
    return f"select {cells} {rows} and seq between {number} and {until} order by seq limit 65;\n"


def opening(name, makes, patience):
    """A log's current generation, in a new session."""
    sets = f"set lock_timeout = {patience}\\; set idle_in_transaction_session_timeout = 2000\\; "
    return sets + reopening(name, makes)


def reopening(name, makes=False):
    """The same in a session that was set up."""
    return f"select wulameron.opened('{name}', {'true' if makes else 'false'});\n\\echo opened :SQLSTATE\n"


def holding(log, generation, number):
    """The gate, and then what is new."""
    lock = f"begin isolation level read committed\\; select pg_advisory_lock({GATE}, {log})\\; "
    refused = f"\\if :ERROR\nrollback;\nselect wulameron.let_go({log});\n\\endif\n"
    return lock + reading(log, generation, number) + "\\echo held :SQLSTATE\n" + refused


def looking(log, generation, number, until=END):
    """What is new, without the gate."""
    return reading(log, generation, number, until) + "\\echo read :SQLSTATE\n"


def row(log, generation, number, data):
    """A row that is inserted."""
    return f"({log}, {generation}, {number}, '\\x{data.hex()}')"


INSERT = "insert into wulameron.entries (log, generation, seq, bytes) values "


def appending(log, generation, number, data):
    """An entry, and its commit."""
    cells = "returning seq || ' ' || encode(chain, 'hex')"
    return f"{INSERT}{row(log, generation, number, data)} {cells}\\; commit and chain;\n\\echo appended :SQLSTATE\n"


def letting_go(log):
    """The gate is given back; nothing is told."""
    return f"select 1 where not pg_advisory_unlock({GATE}, {log})\\; commit;\n"


def pausing(log):
    """The gate is given back, and some time goes by."""
    return letting_go(log) + "select pg_sleep(0.005);\n\\echo paused :SQLSTATE\n"


# ---- Compaction


def moving(log, generation, number, mark):
    """The mark, and row 0 of the next generation."""
    cells = "returning seq || ' ' || encode(chain, 'hex')"
    rows = f"{row(log, generation, number, mark)}, ({log}, {generation + 1}, 0, '')"
    return f"{INSERT}{rows} {cells};\n\\echo moved :SQLSTATE\n"


def copying(log, generation, rows):
    """Some entries of the next generation."""
    cells = f"returning {CELLS}encode(bytes, 'hex')\\; "
    inserts = "".join(f"{INSERT}{row(log, generation, number, data)} {cells}" for number, data in rows)
    return f"{inserts}select 1 where false;\n\\echo copied :SQLSTATE\n"


def going_on(log, generation, count):
    """The next generation, of so many entries, becomes the current one."""
    return f"select wulameron.go_on({log}, {generation}, {count})\\; commit and chain;\n\\echo went :SQLSTATE\n"


UNDOING = "rollback and chain;\n"


# ---- Nodes


def claiming(name, node, waits):
    """A node's claim, which others may have."""
    return f"select wulameron.claim('{name}', {node}, {'true' if waits else 'false'});\n\\echo claimed :SQLSTATE\n"


def claiming_free(name):
    """The claim of the lowest node that nobody has."""
    return f"select wulameron.claim_free('{name}');\n\\echo claimed :SQLSTATE\n"


def releasing(name, node):
    """A claim is given back."""
    return f"select wulameron.release('{name}', {node});\n\\echo released :SQLSTATE\n"


def listing(name):
    """Each node that was ever claimed, and whether it is alive, lost or dead."""
    return f"select wulameron.nodes('{name}');\n\\echo listed :SQLSTATE\n"
