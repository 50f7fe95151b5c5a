-- One log: a schema of PostgreSQL of its own, to which search_path is set. `Log.create` makes it.

CREATE TABLE head (                          -- one row: whoever has it locked appends next
    single    boolean PRIMARY KEY DEFAULT true CHECK (single),
    id        text   NOT NULL,               -- drawn when the log was made, so that two logs are never taken for one
    fields    text   NOT NULL,               -- of the catalogue, as JSON with sorted names
    rules     text   NOT NULL,               -- what a write and a read mean; programs of other rules are refused
    position  bigint NOT NULL,               -- of the newest batch; 0 before the first
    seal      bytea  NOT NULL,               -- over all batches up to there
    cut       bigint NOT NULL DEFAULT 0,     -- batches up to this one were deleted
    cut_seal  bytea  NOT NULL,               -- the seal there
    most_lead bigint NOT NULL                -- how far appends may be ahead of the slowest replica; 0: any distance
) WITH (fillfactor = 20);

CREATE TABLE batch (
    position bigint PRIMARY KEY,             -- 1, 2, 3 without a gap
    key      text   NOT NULL UNIQUE,         -- the writer's: said twice, appended once
    mark     "char" NOT NULL,                -- behind its lines: - nothing, r a view, a one that is kept long, d such a one whose digests are compared
    lines    text   NOT NULL,                -- PUT, DEL and DELW, parted by line feeds, none at the end; may be empty
    seal     bytea  NOT NULL,                -- sha256(seal before || mark || lines)
    at       timestamptz NOT NULL DEFAULT clock_timestamp()
);
CREATE INDEX marks ON batch (position) WHERE mark <> '-';
CREATE INDEX anchors ON batch (position) WHERE mark IN ('a', 'd');
CREATE INDEX checked ON batch (position) WHERE mark = 'd';
CREATE INDEX moments ON batch (at);

CREATE TABLE skip (                          -- lines that every replica leaves out
    position bigint, line integer, reason text NOT NULL, PRIMARY KEY (position, line)
);

-- What replicas tell. All of it may be lost without harm.
CREATE TABLE replica (
    name     text PRIMARY KEY,
    address  text NOT NULL,
    version  text NOT NULL,                  -- of its program
    position bigint NOT NULL,                -- applied
    shown    bigint NOT NULL,                -- of the newest mark that can be read
    token    bigint NOT NULL,
    base     bigint NOT NULL,                -- at which it would start again, with all of its tokens; 0: the log's beginning
    is_ready boolean NOT NULL,               -- whether it has caught up since it started
    at       timestamptz NOT NULL DEFAULT clock_timestamp()
);
CREATE TABLE view (position bigint PRIMARY KEY, token bigint NOT NULL, refusals text NOT NULL, told_by text NOT NULL);
CREATE TABLE refused (position bigint, line integer, number integer NOT NULL, PRIMARY KEY (position, line));
CREATE TABLE digest (position bigint, name text, digest text NOT NULL, PRIMARY KEY (position, name));

-- Appends a batch, whole or not at all, and answers its position; that of before where the key was appended already.
CREATE FUNCTION append(a_key text, a_mark "char", a_lines text) RETURNS bigint LANGUAGE plpgsql AS $$
DECLARE
    now record;
    old record;
    slowest bigint;
    next bytea;
BEGIN
    IF current_setting('synchronous_commit') = 'off' OR current_setting('fsync') = 'off' THEN
        RAISE EXCEPTION 'replicas would show what a crash may take back: synchronous_commit or fsync is off';
    END IF;
    IF a_mark NOT IN ('-', 'r', 'a', 'd') THEN RAISE EXCEPTION 'no mark: %', a_mark; END IF;
    -- The order. The row is given up only when everyone can see this transaction's commit, so whoever comes next takes a
    -- later position, and every snapshot has a front of the log without a gap. A rollback takes its position back.
    SELECT * INTO now FROM head FOR UPDATE;
    -- READ COMMITTED: this statement sees whatever was committed before the lock was had.
    SELECT b.position, b.mark, b.lines INTO old FROM batch b WHERE b.key = a_key;
    IF FOUND THEN
        IF old.mark <> a_mark OR old.lines <> a_lines THEN
            RAISE EXCEPTION USING ERRCODE = 'JD001', MESSAGE = format('the key %s was used for another batch', a_key);
        END IF;
        RETURN old.position;
    END IF;
    IF now.most_lead > 0 AND a_lines <> '' THEN
        SELECT min(r.position) INTO slowest FROM replica r WHERE r.is_ready AND r.at > clock_timestamp() - interval '1 minute';
        IF now.position - slowest >= now.most_lead THEN
            RAISE EXCEPTION USING ERRCODE = 'JD002',
                MESSAGE = format('the log is at %s, and the slowest replica at %s', now.position, slowest);
        END IF;
    END IF;
    next := sha256(now.seal || convert_to(a_mark::text || a_lines, 'UTF8'));
    INSERT INTO batch (position, key, mark, lines, seal) VALUES (now.position + 1, a_key, a_mark, a_lines, next);
    UPDATE head SET position = now.position + 1, seal = next;
    PERFORM pg_notify('jasminedome', current_schema() || ' ' || (now.position + 1));
    RETURN now.position + 1;
END $$;

-- Several batches in one transaction, in their order.
CREATE FUNCTION append_all(keys text[], marks text[], texts text[]) RETURNS bigint[] LANGUAGE plpgsql AS $$
DECLARE
    positions bigint[] := '{}';
BEGIN
    FOR each IN 1 .. cardinality(keys) LOOP
        positions := positions || append(keys[each], marks[each]::"char", texts[each]);
    END LOOP;
    RETURN positions;
END $$;

-- Deletes the batches that are older than `age` and before the oldest base of every replica that was ever told of; that of
-- the base stays, since its mark may be held. Their keys go with them, so that a retry which comes later than that would be
-- appended again.
CREATE FUNCTION cut(age interval) RETURNS bigint LANGUAGE plpgsql AS $$
DECLARE
    now record;
    young bigint;
    upto bigint;
    at_upto bytea;
BEGIN
    SELECT * INTO now FROM head FOR UPDATE;
    SELECT min(b.position) INTO young FROM batch b WHERE b.at >= clock_timestamp() - age;
    SELECT least(coalesce(young - 1, now.position), min(r.base) - 1) INTO upto FROM replica r HAVING count(*) > 0;
    IF upto IS NULL OR upto <= now.cut THEN RETURN now.cut; END IF;
    SELECT b.seal INTO at_upto FROM batch b WHERE b.position = upto;
    DELETE FROM batch b WHERE b.position <= upto;
    DELETE FROM skip s WHERE s.position <= upto;
    DELETE FROM view v WHERE v.position <= upto;
    DELETE FROM refused r WHERE r.position <= upto;
    DELETE FROM digest d WHERE d.position <= upto;
    UPDATE head SET cut = upto, cut_seal = at_upto;
    RETURN upto;
END $$;

-- Has every replica leave a line out. Refused where some replica has applied the line, since the others would differ then.
CREATE FUNCTION leave_out(a_position bigint, a_line integer, a_reason text) RETURNS void LANGUAGE plpgsql AS $$
DECLARE
    lines text;
    first text;
BEGIN
    PERFORM 1 FROM head FOR UPDATE;
    LOCK TABLE replica IN SHARE MODE;
    SELECT b.lines INTO lines FROM batch b WHERE b.position = a_position;
    IF lines IS NULL OR lines = '' OR a_line NOT BETWEEN 0 AND cardinality(string_to_array(lines, E'\n')) - 1 THEN
        RAISE EXCEPTION USING ERRCODE = 'JD001', MESSAGE = format('there is no line %s at %s', a_line, a_position);
    END IF;
    SELECT r.name INTO first FROM replica r WHERE greatest(r.position, r.base) >= a_position LIMIT 1;
    IF first IS NOT NULL THEN
        RAISE EXCEPTION USING ERRCODE = 'JD001', MESSAGE = format('the replica %s has applied %s already', first, a_position);
    END IF;
    INSERT INTO skip VALUES (a_position, a_line, a_reason) ON CONFLICT DO NOTHING;
    PERFORM pg_notify('jasminedome', current_schema() || ' ' || a_position);
END $$;

-- Says where the next view is due, by the database's clock. Any number of replicas may call it as often as they like: the
-- clock decides only where marks stand, and what follows from a mark follows from the log.
CREATE FUNCTION pulse(views interval, anchors interval, digests interval) RETURNS bigint LANGUAGE plpgsql AS $$
DECLARE
    viewed record;
    anchored record;
    digested record;
    due text;
BEGIN
    FOR try IN 1..2 LOOP  -- first without the lock: mostly there is nothing to do
        SELECT b.position, b.at INTO viewed FROM batch b WHERE b.mark <> '-' ORDER BY b.position DESC LIMIT 1;
        SELECT b.position, b.at INTO anchored FROM batch b WHERE b.mark IN ('a', 'd') ORDER BY b.position DESC LIMIT 1;
        SELECT b.position, b.at INTO digested FROM batch b WHERE b.mark = 'd' ORDER BY b.position DESC LIMIT 1;
        due := CASE
            WHEN coalesce(clock_timestamp() - anchored.at > anchors, true)
                AND EXISTS (SELECT 1 FROM batch b WHERE b.position > coalesce(anchored.position, 0) AND b.lines <> '')
                THEN CASE WHEN clock_timestamp() - digested.at <= digests THEN 'a' ELSE 'd' END
            WHEN coalesce(clock_timestamp() - viewed.at > views, true)
                AND EXISTS (SELECT 1 FROM batch b WHERE b.position > coalesce(viewed.position, 0) AND b.lines <> '')
                THEN 'r'
        END;
        IF due IS NULL THEN RETURN NULL; END IF;
        IF try = 1 THEN PERFORM 1 FROM head FOR UPDATE; END IF;
    END LOOP;
    RETURN append('pulse ' || gen_random_uuid(), due::"char", '');
END $$;
