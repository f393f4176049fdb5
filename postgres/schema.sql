-- Logs of Wulameron in a database, version 3: the tables, what guards them, and the role of the nodes.
--
-- Run it once, as the owner of a database of its own who may make roles (or for whom wulameron_node was made):
--
--     psql -X -v ON_ERROR_STOP=1 -f schema.sql
--
-- One database holds many logs, each by its name. A program connects as a login role that is a member of
-- wulameron_node: it may read, and append. Rows that were appended are never changed, by the owner neither. The owner
-- deletes old generations by wulameron.forget. docs/POSTGRES.md tells what the rows are and what an administrator sets.

begin;

create schema wulameron;

-- A log. Its current generation counts; earlier ones are what it was compacted from. The first `snapshot` entries of the
-- current generation are its snapshot, and its counter of services begins with `counter`.
create table wulameron.logs (
    log        int         generated always as identity primary key,
    name       text        collate "C" not null unique check (name ~ '^[A-Za-z0-9][A-Za-z0-9._-]{0,62}$'),
    generation bigint      not null default 0 check (generation >= 0),
    counter    numeric(20) not null default 1 check (counter between 0 and 18446744073709551615),
    snapshot   bigint      not null default 0 check (snapshot >= 0)
);

-- An entry, by its number from 1 on. `bytes` is its form, as in a log's file. `chain` is a SHA-256 over this row and all
-- rows before it. Row 0 of a generation is no entry. In a log's first generation its chain is drawn at random, so that
-- no two logs have a place in common; in each further one it is the chain of the last row of the generation before.
-- The trigger `follow` looks each row's log up, so `log` needs no foreign key.
create table wulameron.entries (
    log        int    not null,
    generation bigint not null,
    seq        bigint not null check (seq >= 0),
    bytes      bytea  not null check (octet_length(bytes) <= 1048592 and (octet_length(bytes) = 0) = (seq = 0)),
    chain      bytea  not null check (octet_length(chain) = 32),
    primary key (log, generation, seq)
);

-- Each node that was ever claimed. A node is alive as long as some session has the lock of its `id`. If the session ends, the
-- node's process has to learn that before others take what the node has. So the node is lost at first: nobody but its
-- process gets its lock. It is lost for three seconds from `lost_since`, when somebody first found that no session has the
-- lock. That is by this server's clock, and doesn't count if another start of a server found it, as after a restart or a
-- failover: `found_by` is when that began. `lost_since` is minus infinity if the node was given back in order, and null as long
-- as nobody has found that. `process` is what wulameron.process was in the session that claimed the node last, which was its
-- claim number `claims`.
create table wulameron.nodes (
    log        int         not null references wulameron.logs,
    node       numeric(20) not null check (node between 0 and 18446744073709551615),
    id         int         generated always as identity unique,
    process    text,
    claims     bigint      not null default 0,
    lost_since timestamptz default '-infinity',
    found_by   timestamptz default pg_postmaster_start_time(),
    primary key (log, node)
);

-- Advisory locks guard both. They belong to a session: they outlive its commits, and go when it ends, however it ends.
--
--     the gate of a log, had by the one session that reads and appends    (oid of wulameron.logs, log)
--     the claim of a node, had by the session that is this node           (oid of wulameron.nodes, id)

-- The second keys of the locks that sessions have, or that the caller's session has.
create function wulameron.locked(kind regclass, by_me boolean) returns setof int language sql stable
    set search_path = pg_catalog, pg_temp as $$
    select objid::int from pg_locks
        where locktype = 'advisory' and classid = kind::oid and objsubid = 2 and granted
        and database = (select oid from pg_database where datname = current_database())
        and (pid = pg_backend_pid() or not by_me)
$$;

-- ---- Rows

-- Each row follows the one before it, in the current generation or the next one. The server makes the chain.
create function wulameron.follow() returns trigger language plpgsql
    security definer set search_path = pg_catalog, pg_temp as $$
declare
    current bigint;
    before  bytea;
begin
    select generation into current from wulameron.logs where log = new.log;
    if new.seq > 0 and new.generation in (current, current + 1) then
        select chain into before from wulameron.entries
            where log = new.log and generation = new.generation and seq = new.seq - 1;
        new.chain := sha256(before || new.bytes);
    elsif new.seq = 0 and new.generation = current + 1 then
        select chain into new.chain from wulameron.entries
            where log = new.log and generation = current order by seq desc limit 1;
    elsif new.seq = 0 and new.generation = 0 and current = 0 then
        new.chain := sha256(uuid_send(gen_random_uuid()) || uuid_send(gen_random_uuid()));
    else
        new.chain := null;
    end if;
    if new.chain is null then
        raise exception 'entry % of generation % follows none', new.seq, new.generation
            using errcode = 'foreign_key_violation';
    end if;
    return new;
end
$$;
create trigger follow before insert on wulameron.entries for each row execute function wulameron.follow();

-- A generation is committed only together with its becoming the current one.
create function wulameron.count_in() returns trigger language plpgsql
    security definer set search_path = pg_catalog, pg_temp as $$
begin
    if not exists (select from wulameron.logs where log = new.log and generation >= new.generation) then
        raise exception 'generation % is not the current one', new.generation using errcode = 'check_violation';
    end if;
    return null;
end
$$;
create constraint trigger count_in after insert on wulameron.entries deferrable initially deferred
    for each row when (new.seq = 0) execute function wulameron.count_in();

-- No row changes. Rows of the current generation stay.
create function wulameron.stand() returns trigger language plpgsql
    security definer set search_path = pg_catalog, pg_temp as $$
begin
    if tg_op = 'DELETE' then
        if exists (select from wulameron.logs where log = old.log and generation > old.generation) then
            return old;
        end if;
    end if;
    raise exception 'entries are not changed, and those of the current generation not deleted'
        using errcode = 'insufficient_privilege';
end
$$;
create trigger stand before update or delete on wulameron.entries for each row execute function wulameron.stand();
create trigger stand_all before truncate on wulameron.entries for each statement execute function wulameron.stand();

-- ---- What a node calls

-- The log of that name, which is made if there is none.
create function wulameron.made(name text) returns int language plpgsql
    set search_path = pg_catalog, pg_temp as $$
declare
    found_log int;
begin
    select l.log into found_log from wulameron.logs l where l.name = made.name;
    if not found then
        insert into wulameron.logs (name) values (made.name) on conflict do nothing returning logs.log into found_log;
        if found then
            insert into wulameron.entries (log, generation, seq, bytes) values (found_log, 0, 0, '');
        else
            select l.log into strict found_log from wulameron.logs l where l.name = made.name;
        end if;
    end if;
    return found_log;
end
$$;

-- `VERSION LOG GENERATION COUNTER SNAPSHOT CHAIN` of a log: the version of this schema, and the chain of row 0 of the
-- current generation. No row if there is no such log, and it isn't to be made.
create function wulameron.opened(name text, makes boolean) returns setof text language plpgsql
    security definer set search_path = pg_catalog, pg_temp as $$
begin
    if makes then
        perform wulameron.made(opened.name);
    end if;
    return query select concat_ws(' ', 3, l.log, l.generation, l.counter, l.snapshot, encode(e.chain, 'hex'))
        from wulameron.logs l join wulameron.entries e on e.log = l.log and e.generation = l.generation and e.seq = 0
        where l.name = opened.name;
end
$$;

-- Makes the generation of `snapshot` entries behind the current one current. The caller has the gate, and nothing was
-- appended since row 0 of the new generation.
create function wulameron.go_on(log int, generation bigint, snapshot bigint) returns boolean language plpgsql
    security definer set search_path = pg_catalog, pg_temp as $$
begin
    if go_on.log in (select wulameron.locked('wulameron.logs', true))
        and (select chain from wulameron.entries e where e.log = go_on.log and e.generation = go_on.generation - 1
            order by seq desc limit 1)
            = (select chain from wulameron.entries e where e.log = go_on.log and e.generation = go_on.generation
            and seq = 0)
        and (select count(*) from wulameron.entries e where e.log = go_on.log and e.generation = go_on.generation)
            = go_on.snapshot + 1
    then
        update wulameron.logs l set generation = go_on.generation, counter = 0, snapshot = go_on.snapshot
            where l.log = go_on.log and l.generation = go_on.generation - 1;
        if found then
            return true;
        end if;
    end if;
    raise exception 'log % does not go on in generation %', go_on.log, go_on.generation
        using errcode = 'object_not_in_prerequisite_state';
end
$$;

-- Gives the gate back if the caller has it, and tells nothing.
create function wulameron.let_go(log int) returns setof int language plpgsql
    security definer set search_path = pg_catalog, pg_temp as $$
begin
    if let_go.log in (select wulameron.locked('wulameron.logs', true)) then
        perform pg_advisory_unlock('wulameron.logs'::regclass::oid::int, let_go.log);
    end if;
end
$$;

-- Claims are known to the server itself, and to no replica.
create function wulameron.no_replica() returns void language plpgsql
    set search_path = pg_catalog, pg_temp as $$
begin
    if pg_is_in_recovery() then
        raise exception 'a replica knows no claims' using errcode = 'read_only_sql_transaction';
    end if;
end
$$;

-- The lock's number of a node, whose row is made if there is none, and its log's too.
create function wulameron.node_id(name text, node numeric) returns int language plpgsql
    set search_path = pg_catalog, pg_temp as $$
declare
    found_log int := wulameron.made(node_id.name);
    found_id  int;
begin
    select n.id into found_id from wulameron.nodes n where n.log = found_log and n.node = node_id.node;
    if not found then
        insert into wulameron.nodes (log, node) values (found_log, node_id.node) on conflict do nothing;
        select n.id into strict found_id from wulameron.nodes n where n.log = found_log and n.node = node_id.node;
    end if;
    return found_id;
end
$$;

-- For how many seconds more a node that no session has is lost to this session: not at all to the process that had it last,
-- and not if wulameron.now is on.
create function wulameron.lost_for(id int) returns double precision language sql stable
    set search_path = pg_catalog, pg_temp as $$
    select case
            when current_setting('wulameron.now', true) = 'on' then 0
            when n.process = nullif(current_setting('wulameron.process', true), '') then 0
            when n.lost_since is null or n.found_by is distinct from pg_postmaster_start_time() then 3
            when n.lost_since = '-infinity' then 0
            else least(3, 3 - extract(epoch from clock_timestamp() - n.lost_since))
        end
        from wulameron.nodes n where n.id = lost_for.id
$$;

-- Writes down when nodes of a log were first found lost. A session that may only read can't. Rows that another session
-- writes are left to that.
create function wulameron.find_lost(log int) returns void language plpgsql
    set search_path = pg_catalog, pg_temp as $$
begin
    if current_setting('transaction_read_only')::boolean then
        return;
    end if;
    update wulameron.nodes set lost_since = clock_timestamp(), found_by = pg_postmaster_start_time()
        where id in (
            select n.id from wulameron.nodes n where n.log = find_lost.log
            and (n.lost_since is null or n.found_by is distinct from pg_postmaster_start_time())
            and n.id not in (select wulameron.locked('wulameron.nodes', false))
            for update skip locked
        );
end
$$;

-- True if this session has the node from now on. It waits for as long as the node is lost. False if a session has it, this
-- one or another; `waits` says whether to wait for another's end as long as lock_timeout.
create function wulameron.claim(name text, node numeric, waits boolean) returns boolean language plpgsql
    security definer set search_path = pg_catalog, pg_temp as $$
declare
    lock   int;
    rest   double precision;
    before bigint;
    now    bigint;
begin
    perform wulameron.no_replica();
    lock := wulameron.node_id(claim.name, claim.node);
    if lock in (select wulameron.locked('wulameron.nodes', true)) then
        return false;
    end if;
    loop
        if claim.waits then
            perform pg_advisory_lock('wulameron.nodes'::regclass::oid::int, lock);
        elsif not pg_try_advisory_lock('wulameron.nodes'::regclass::oid::int, lock) then
            return false;
        end if;
        -- The node's own process may come back meanwhile. If nobody has, the node was lost for that long.
        select n.claims into now from wulameron.nodes n where n.id = lock;
        exit when now = before;
        before := now;
        rest := wulameron.lost_for(lock);
        exit when rest <= 0;
        perform pg_advisory_unlock('wulameron.nodes'::regclass::oid::int, lock);
        perform pg_sleep(rest);
    end loop;
    update wulameron.nodes set process = nullif(current_setting('wulameron.process', true), ''), claims = claims + 1,
        lost_since = null, found_by = null where id = lock;
    return true;
exception when lock_not_available then
    return false;
end
$$;

-- Claims the lowest node from 0 to 65535 that no session has and that isn't lost, and tells its number; no row if there is
-- none.
create function wulameron.claim_free(name text) returns setof text language plpgsql
    security definer set search_path = pg_catalog, pg_temp as $$
declare
    found_log int;
    free      int;
begin
    perform wulameron.no_replica();
    found_log := wulameron.made(claim_free.name);
    for free in
        select s.node from generate_series(0, 65535) as s (node)
        where not exists (
            select from wulameron.nodes n where n.log = found_log and n.node = s.node
            and (n.id in (select wulameron.locked('wulameron.nodes', false)) or wulameron.lost_for(n.id) > 0)
        )
        order by s.node
    loop
        if wulameron.claim(claim_free.name, free, false) then
            return next free::text;
            return;
        end if;
    end loop;
end
$$;

-- Gives this session's claim of the node back in order: the node isn't lost. False if it had none.
create function wulameron.release(name text, node numeric) returns boolean language plpgsql
    security definer set search_path = pg_catalog, pg_temp as $$
declare
    lock int;
begin
    select n.id into lock from wulameron.nodes n join wulameron.logs l using (log)
        where l.name = release.name and n.node = release.node;
    if found and lock in (select wulameron.locked('wulameron.nodes', true)) then
        update wulameron.nodes set lost_since = '-infinity', found_by = pg_postmaster_start_time() where id = lock;
        return pg_advisory_unlock('wulameron.nodes'::regclass::oid::int, lock);
    end if;
    return false;
end
$$;

-- Gives all of this session's claims back in order when it ends. So it is told that the program has ended whose nodes they are.
create function wulameron.give_back() returns void language sql
    security definer set search_path = pg_catalog, pg_temp as $$
    update wulameron.nodes set lost_since = '-infinity', found_by = pg_postmaster_start_time()
        where id in (select wulameron.locked('wulameron.nodes', true))
$$;

-- `NODE alive`, `NODE lost` or `NODE dead` of each node that was ever claimed, by rising number. A node is told as lost for as
-- long as this session wouldn't get it.
create function wulameron.nodes(name text) returns setof text language plpgsql
    security definer set search_path = pg_catalog, pg_temp as $$
begin
    perform wulameron.no_replica();
    perform wulameron.find_lost(l.log) from wulameron.logs l where l.name = nodes.name;
    return query select n.node || case
            when n.id in (select wulameron.locked('wulameron.nodes', false)) then ' alive'
            when wulameron.lost_for(n.id) > 0 then ' lost'
            else ' dead'
        end
        from wulameron.nodes n join wulameron.logs l using (log) where l.name = nodes.name order by n.node;
end
$$;

-- ---- What the owner calls

-- Deletes a log's generations before the last `kept` ones that were compacted, and tells how many rows that was. A process
-- that has read nothing since one of them was the current one ends, and has to be started again.
create function wulameron.forget(name text, kept bigint default 1) returns bigint language plpgsql
    set search_path = pg_catalog, pg_temp as $$
declare
    deleted bigint;
begin
    delete from wulameron.entries e using wulameron.logs l
        where l.name = forget.name and e.log = l.log and e.generation < l.generation - greatest(forget.kept, 0);
    get diagnostics deleted = row_count;
    return deleted;
end
$$;

-- ---- Rights

do $$
begin
    if not exists (select from pg_catalog.pg_roles where rolname = 'wulameron_node') then
        create role wulameron_node nologin;
    end if;
end
$$;
revoke all on all functions in schema wulameron from public;
grant usage on schema wulameron to wulameron_node;
grant select on wulameron.logs, wulameron.entries, wulameron.nodes to wulameron_node;
grant insert (log, generation, seq, bytes) on wulameron.entries to wulameron_node;
grant execute on function wulameron.opened(text, boolean), wulameron.go_on(int, bigint, bigint), wulameron.let_go(int),
    wulameron.claim(text, numeric, boolean), wulameron.claim_free(text), wulameron.release(text, numeric),
    wulameron.give_back(), wulameron.nodes(text) to wulameron_node;

commit;
