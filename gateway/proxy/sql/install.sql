-- Installs schema escrow, version 4, or brings an older version to it. A superuser runs it, in one transaction, since it
-- creates event triggers. Rules are those of PROTOCOL.md.

-- Nothing of anybody else's stands for what PostgreSQL has: this runs as a superuser.
SET LOCAL search_path = pg_catalog, pg_temp;

DO $do$
DECLARE
	owner text := (SELECT r.rolname FROM pg_namespace AS n JOIN pg_roles AS r ON r.oid = n.nspowner
		WHERE n.nspname = 'escrow' AND NOT r.rolsuper AND r.rolname <> current_user);
BEGIN
	IF owner IS NOT NULL THEN
		RAISE EXCEPTION 'schema escrow belongs to the role %, which is no superuser', owner
			USING ERRCODE = 'object_not_in_prerequisite_state', HINT = 'It may have functions of anybody''s. Drop it.';
	END IF;
END
$do$;

DO $do$
BEGIN
	IF current_setting('server_version_num')::int < 150000 THEN
		RAISE EXCEPTION 'escrowd-proxy needs PostgreSQL 15 or later' USING ERRCODE = 'feature_not_supported';
	END IF;
	IF to_regprocedure('escrow.version()') IS NOT NULL THEN
		IF escrow.version() > 4 THEN
			RAISE EXCEPTION 'schema escrow has version %, which is newer than 4', escrow.version()
				USING ERRCODE = 'object_not_in_prerequisite_state';
		END IF;
		IF escrow.version() < 4 AND escrow.is_live((SELECT nullif(last_value, 0) FROM escrow.epoch)) THEN
			RAISE EXCEPTION 'an escrowd-proxy is running' USING ERRCODE = 'object_in_use', HINT = 'Stop it first.';
		END IF;
		-- Where a dump was restored, columns may have got other numbers. The event trigger leaves these tables alone until the end
		-- of this script, which reads them anew.
		UPDATE escrow.declared SET definition = '{}';
	END IF;
	-- It owns journals, secret and what reads them.
	IF to_regrole('escrow_journal') IS NULL THEN
		CREATE ROLE escrow_journal NOLOGIN;
	END IF;
	-- The role that the proxy's login role is a member of.
	IF to_regrole('escrow_proxy') IS NULL THEN
		CREATE ROLE escrow_proxy NOLOGIN;
	END IF;
	GRANT pg_signal_backend, pg_read_all_stats TO escrow_proxy;
END
$do$;

CREATE SCHEMA IF NOT EXISTS escrow;
GRANT USAGE ON SCHEMA escrow TO PUBLIC;
GRANT CREATE ON SCHEMA escrow TO escrow_journal;
-- Whatever default privileges who installs has: these, and escrow.take_rights behind.
ALTER DEFAULT PRIVILEGES IN SCHEMA escrow GRANT EXECUTE ON FUNCTIONS TO PUBLIC;

CREATE OR REPLACE FUNCTION escrow.version() RETURNS integer LANGUAGE sql IMMUTABLE AS 'SELECT 4';

-- Rule 8. Unlogged, so that it is 0 after a crash, a promotion and a restore.
CREATE UNLOGGED SEQUENCE IF NOT EXISTS escrow.epoch MINVALUE 0 START 0;
-- Rule 18. The last greeting of the epoch; and a session's last number, which is its currval.
CREATE UNLOGGED SEQUENCE IF NOT EXISTS escrow.greeted MINVALUE 0 START 0;
CREATE UNLOGGED SEQUENCE IF NOT EXISTS escrow.heard MINVALUE 0 START 0;
ALTER SEQUENCE escrow.epoch OWNER TO escrow_journal;
ALTER SEQUENCE escrow.greeted OWNER TO escrow_journal;
ALTER SEQUENCE escrow.heard OWNER TO escrow_journal;
GRANT SELECT ON SEQUENCE escrow.epoch TO escrow_proxy;

-- The key of all MACs, 64 bytes. A MAC is a half of SHA-512 over the words and, behind them, the key. So nobody who sees
-- MACs can lengthen the words.
CREATE TABLE IF NOT EXISTS escrow.secret (is_one boolean PRIMARY KEY DEFAULT true CHECK (is_one), key bytea NOT NULL);
ALTER TABLE escrow.secret OWNER TO escrow_journal;
GRANT SELECT ON escrow.secret TO escrow_proxy;
INSERT INTO escrow.secret (key) VALUES (sha512((gen_random_uuid()::text || gen_random_uuid()::text || gen_random_uuid()::text)::bytea)) ON CONFLICT DO NOTHING;

-- The tables that are declared. The proxy calls note and own fold by their texts here. `columns` are the reservable ones: name, place, type, digits, scale, least and greatest value.
-- `checks` are linear: name, a coefficient for each of these columns, a comparison, a limit. `definition` is what the
-- event trigger compares.
CREATE TABLE IF NOT EXISTS escrow.declared (
	number integer GENERATED ALWAYS AS IDENTITY PRIMARY KEY,
	relation regclass NOT NULL UNIQUE, -- a dump has its name
	key_name name NOT NULL,
	key_type text NOT NULL,
	columns jsonb NOT NULL,
	checks jsonb NOT NULL,
	definition jsonb NOT NULL,
	note_text text NOT NULL,
	own_text text NOT NULL,
	refusal_text text NOT NULL DEFAULT '',
	here_text text NOT NULL DEFAULT '',
	direct_text text NOT NULL DEFAULT ''
);
ALTER TABLE escrow.declared OWNER TO escrow_journal;
GRANT SELECT ON escrow.declared TO PUBLIC;

-- Holds, and the notes that each has.
CREATE TABLE IF NOT EXISTS escrow.hold_names (
	number bigint GENERATED ALWAYS AS IDENTITY PRIMARY KEY,
	name text NOT NULL,
	maker regrole NOT NULL,
	since timestamptz NOT NULL,
	until timestamptz NOT NULL,
	state text NOT NULL DEFAULT 'standing' CHECK (state IN ('standing', 'taken', 'released', 'expired')),
	ended timestamptz
);
CREATE UNIQUE INDEX IF NOT EXISTS hold_names_standing ON escrow.hold_names (name) WHERE state = 'standing';
CREATE INDEX IF NOT EXISTS hold_names_until ON escrow.hold_names (until) WHERE state = 'standing';
CREATE INDEX IF NOT EXISTS hold_names_name ON escrow.hold_names (name, number) WHERE state <> 'standing';
CREATE INDEX IF NOT EXISTS hold_names_ended ON escrow.hold_names (ended) WHERE state <> 'standing';

-- `epoch` and `number` are the note's. `taken` is what of `changes` was committed.
CREATE TABLE IF NOT EXISTS escrow.hold_lines (
	epoch bigint NOT NULL,
	number bigint NOT NULL,
	hold bigint NOT NULL,
	"table" integer NOT NULL,
	key text NOT NULL,
	changes numeric[] NOT NULL,
	taken numeric[],
	stands boolean NOT NULL DEFAULT true,
	PRIMARY KEY (number, epoch)
);
CREATE INDEX IF NOT EXISTS hold_lines_hold ON escrow.hold_lines (hold);
CREATE INDEX IF NOT EXISTS hold_lines_key ON escrow.hold_lines ("table", key) WHERE stands;
CREATE INDEX IF NOT EXISTS hold_lines_ended ON escrow.hold_lines (number) WHERE NOT stands;
ALTER TABLE escrow.hold_names OWNER TO escrow_journal;
ALTER TABLE escrow.hold_lines OWNER TO escrow_journal;

-- Takes rights on tables, sequences and functions of these names away, which default privileges may have given to anybody when they
-- were made. The roles of the schema keep theirs.
CREATE OR REPLACE FUNCTION escrow.take_rights(names text) RETURNS void
LANGUAGE plpgsql SET search_path = pg_catalog, pg_temp AS $$
DECLARE
	it record;
BEGIN
	FOR it IN
		SELECT format('%s %s', CASE c.relkind WHEN 'S' THEN 'SEQUENCE' ELSE 'TABLE' END, c.oid::regclass) AS object, a.grantee
		FROM pg_class AS c, aclexplode(c.relacl) AS a
		WHERE c.relnamespace = 'escrow'::regnamespace AND c.relkind IN ('r', 'S', 'v') AND c.relname ~ names AND a.grantee <> c.relowner
		UNION SELECT format('FUNCTION %s', p.oid::regprocedure), a.grantee
		FROM pg_proc AS p, aclexplode(coalesce(p.proacl, acldefault('f', p.proowner))) AS a
		WHERE p.pronamespace = 'escrow'::regnamespace AND p.proname ~ names AND a.grantee <> p.proowner
	LOOP
		IF it.grantee NOT IN ('escrow_journal'::regrole, 'escrow_proxy'::regrole) THEN
			EXECUTE format('REVOKE ALL ON %s FROM %s', it.object, CASE it.grantee WHEN 0 THEN 'PUBLIC' ELSE it.grantee::regrole::text END);
		END IF;
	END LOOP;
END
$$;

-- The MAC of words: the first half. Only functions of escrow_journal call it and the next, which have set their path of search.
CREATE OR REPLACE FUNCTION escrow.mac(VARIADIC words text[]) RETURNS bytea LANGUAGE plpgsql STABLE AS $$
BEGIN
	RETURN (SELECT substr(sha512(convert_to(array_to_string(words, '|'), 'UTF8') || s.key), 1, 32) FROM escrow.secret AS s);
END
$$;
ALTER FUNCTION escrow.mac OWNER TO escrow_journal;
REVOKE ALL ON FUNCTION escrow.mac FROM PUBLIC;

-- Rule 18: whether a note is fresh. It keeps the number where no rollback takes it back. It raises if the session was not
-- greeted, or has forgotten it by DISCARD.
CREATE OR REPLACE FUNCTION escrow.is_fresh(number bigint) RETURNS boolean LANGUAGE plpgsql AS $$
BEGIN
	IF number <= currval('escrow.heard') THEN
		RETURN false;
	END IF;
	PERFORM setval('escrow.heard', number);
	RETURN true;
END
$$;
ALTER FUNCTION escrow.is_fresh OWNER TO escrow_journal;
REVOKE ALL ON FUNCTION escrow.is_fresh FROM PUBLIC;

-- The error of a proxy that is not the owner any more (40001: the transaction may be repeated).
CREATE OR REPLACE FUNCTION escrow.refuse_stale() RETURNS void LANGUAGE plpgsql AS $$
BEGIN
	RAISE EXCEPTION 'could not reserve: this escrowd-proxy is not the owner any more'
		USING ERRCODE = 'serialization_failure', HINT = 'Repeat the transaction.';
END
$$;

-- The error of a name that means another table than it did when the proxy asked.
CREATE OR REPLACE FUNCTION escrow.refuse_other(name text, is_meant boolean) RETURNS void LANGUAGE plpgsql AS $$
BEGIN
	IF is_meant IS NOT TRUE THEN
		RAISE EXCEPTION 'the name of table % means another one now', name
			USING ERRCODE = 'serialization_failure', HINT = 'Repeat the transaction.';
	END IF;
END
$$;

-- The form to write in place of the client's statement.
-- This function and others mean the same whatever settings of texts and names the client has.
CREATE OR REPLACE FUNCTION escrow.form() RETURNS text LANGUAGE sql SET search_path = pg_catalog, pg_temp SET standard_conforming_strings = on SET quote_all_identifiers = off AS $$
	SELECT 'Connect to escrowd-proxy, and ' || CASE
		WHEN current_query() ~* '\mON\s+CONFLICT\M' THEN 'write INSERT .. ON CONFLICT DO NOTHING. If that inserts nothing, add by the key in the same transaction: '
			'UPDATE t SET c = c + 3 WHERE key = 5.'
		WHEN current_query() ~* '\m(WITH|FROM)\M' THEN 'name the key and the number, which may be parameters: UPDATE t SET c = c - 3 WHERE key = 5.'
		WHEN current_query() ~* '\m(MERGE|DO|CALL|EXECUTE)\M' THEN 'send the UPDATE by itself: UPDATE t SET c = c - 3 WHERE key = 5.'
		ELSE 'add or subtract by the key: UPDATE t SET c = c - 3 WHERE key = 5.' END
$$;

-- Raises what the proxy refuses a client's UPDATE with, if the client's role may know it. `changed` are the columns that it
-- changes. With 00000 it tests the rights alone.
CREATE OR REPLACE FUNCTION escrow.refuse_change(table_number integer, state text, message text, detail text, about text, changed boolean[],
	allowed boolean[], is_meant boolean) RETURNS void
LANGUAGE plpgsql SET search_path = pg_catalog, pg_temp AS $$
DECLARE
	it record;
BEGIN
	SELECT n.nspname, c.relname INTO it FROM escrow.declared AS d JOIN pg_class AS c ON c.oid = d.relation JOIN pg_namespace AS n ON n.oid = c.relnamespace
	WHERE d.number = table_number;
	PERFORM escrow.refuse_other(it.relname, is_meant);
	IF current_setting('transaction_read_only') = 'on' THEN
		RAISE EXCEPTION 'cannot execute UPDATE in a read-only transaction' USING ERRCODE = 'read_only_sql_transaction';
	ELSIF EXISTS (SELECT FROM generate_subscripts(changed, 1) AS i WHERE changed[i] AND allowed[i] IS NOT TRUE) THEN
		RAISE EXCEPTION 'permission denied for table %', it.relname USING ERRCODE = 'insufficient_privilege';
	ELSIF state = '00000' THEN
		RETURN;
	ELSIF state = '23514' THEN
		RAISE EXCEPTION '%', message USING ERRCODE = state, DETAIL = detail, SCHEMA = it.nspname, TABLE = it.relname, CONSTRAINT = about;
	ELSIF about <> '' THEN
		RAISE EXCEPTION '%', message USING ERRCODE = state, DETAIL = detail, SCHEMA = it.nspname, TABLE = it.relname, COLUMN = about;
	ELSE
		RAISE EXCEPTION '%', message USING ERRCODE = state, DETAIL = detail, SCHEMA = it.nspname, TABLE = it.relname;
	END IF;
END
$$;

-- Rule 10: whether somebody holds the lock of the epoch. If nobody does, this transaction holds it shared to its end.
CREATE OR REPLACE FUNCTION escrow.is_live(epoch bigint) RETURNS boolean LANGUAGE plpgsql AS $$
BEGIN
	RETURN NOT pg_catalog.pg_try_advisory_xact_lock_shared(epoch);
END
$$;

-- Whether a row that this transaction sees was written by itself: then its id is in progress.
CREATE OR REPLACE FUNCTION escrow.is_own(it xid) RETURNS boolean
LANGUAGE plpgsql SET search_path = pg_catalog, pg_temp AS $$
DECLARE
	top bigint := pg_current_xact_id()::text::bigint;
	candidate bigint := (top & ~4294967295::bigint) | it::text::bigint;
BEGIN
	RETURN candidate >= top AND pg_xact_status(candidate::text::xid8) = 'in progress';
EXCEPTION WHEN invalid_parameter_value THEN
	RETURN false; -- an id of an earlier round of ids, which would be in the future
END
$$;

-- Rule 18. Greets a connection before its client's first message. Greetings come one after another. If the last one had this
-- number or a higher one, this is no greeting, and the last number is returned: a greeting of the former owner may have come
-- while the epoch was set.
DROP FUNCTION IF EXISTS escrow.greet(bigint, bigint, bytea);
CREATE FUNCTION escrow.greet(epoch bigint, number bigint, proof bytea) RETURNS bigint
LANGUAGE plpgsql SECURITY DEFINER SET search_path = pg_catalog, pg_temp AS $$
DECLARE
	last bigint;
BEGIN
	IF proof IS DISTINCT FROM escrow.mac('greet', epoch::text, pg_backend_pid()::text, number::text) THEN
		RAISE EXCEPTION 'escrow.greet is for escrowd-proxy' USING ERRCODE = 'insufficient_privilege';
	ELSIF epoch IS DISTINCT FROM (SELECT last_value FROM escrow.epoch) THEN
		PERFORM escrow.refuse_stale();
	END IF;
	last := (SELECT last_value FROM escrow.greeted);
	IF number <= last THEN
		RETURN last;
	END IF;
	PERFORM setval('escrow.greeted', number);
	PERFORM setval('escrow.heard', number);
	RETURN NULL;
END
$$;
ALTER FUNCTION escrow.greet OWNER TO escrow_journal;

-- What the proxy tells a session of open reservations, in front of a statement that asks for them. It is kept only for
-- roles that may know. The entries have process, table (its number), key, changes (one for each column, or null) and since;
-- those of a table that an alarm has stopped have table, since and stopped.
CREATE OR REPLACE FUNCTION escrow.show(entries jsonb) RETURNS void
LANGUAGE plpgsql SET search_path = pg_catalog, pg_temp AS $$
BEGIN
	IF pg_has_role(current_user, 'pg_monitor', 'USAGE') OR pg_has_role(current_user, 'escrow_proxy', 'USAGE') THEN
		PERFORM set_config('escrow.shown', entries::text, false);
	END IF;
END
$$;

-- Open reservations, one row for each change of a column. `process` is that of pg_stat_activity. And a row for each table
-- that an alarm has stopped, with the reason.
DROP FUNCTION IF EXISTS escrow.reservations();
CREATE FUNCTION escrow.reservations()
RETURNS TABLE (process integer, relation regclass, key text, "column" name, change numeric, since timestamptz, stopped text)
LANGUAGE plpgsql SET search_path = pg_catalog, pg_temp AS $$
BEGIN
	IF NOT (pg_has_role(current_user, 'pg_monitor', 'USAGE') OR pg_has_role(current_user, 'escrow_proxy', 'USAGE')) THEN
		RAISE EXCEPTION 'permission denied for function escrow.reservations' USING ERRCODE = 'insufficient_privilege',
			HINT = 'Members of pg_monitor may call it.';
	ELSIF coalesce(current_setting('escrow.shown', true), '') = '' THEN
		RAISE EXCEPTION 'only escrowd-proxy knows the open reservations' USING ERRCODE = 'object_not_in_prerequisite_state',
			HINT = 'Connect to escrowd-proxy.';
	END IF;
	RETURN QUERY SELECT e.process, d.relation, e.key, (d.columns->(c.place::integer - 1)->>'name')::name, c.change::numeric, e.since, e.stopped
	FROM jsonb_to_recordset(current_setting('escrow.shown')::jsonb)
		AS e (process integer, "table" integer, key text, changes jsonb, since timestamptz, stopped text)
	JOIN escrow.declared AS d ON d.number = e."table"
	LEFT JOIN jsonb_array_elements_text(e.changes) WITH ORDINALITY AS c (change, place) ON true
	WHERE c.change IS NOT NULL OR e.stopped IS NOT NULL;
END
$$;

-- Lets a table go on that an alarm has stopped: the proxy tries its folds again, and grants. The table's owner calls it, once
-- the cause is gone.
CREATE OR REPLACE FUNCTION escrow.resume(relation regclass) RETURNS void
LANGUAGE plpgsql SET search_path = pg_catalog, pg_temp AS $$
DECLARE
	n integer := (SELECT number FROM escrow.declared AS d WHERE d.relation = resume.relation);
BEGIN
	IF n IS NULL THEN
		RAISE EXCEPTION '% is not declared reservable', relation USING ERRCODE = 'object_not_in_prerequisite_state';
	ELSIF NOT pg_has_role((SELECT relowner FROM pg_class WHERE oid = relation), 'USAGE') THEN
		RAISE EXCEPTION 'must be owner of table %', relation USING ERRCODE = 'insufficient_privilege';
	END IF;
	PERFORM pg_notify('escrow_declared', n::text);
END
$$;

-- Takes a session's and a transaction's lock on one key. PREPARE TRANSACTION fails if it finds both.
CREATE OR REPLACE FUNCTION escrow.forbid_prepare() RETURNS void LANGUAGE plpgsql AS $$
BEGIN
	PERFORM pg_catalog.pg_try_advisory_lock_shared(1702064994, pg_catalog.pg_backend_pid()),
		pg_catalog.pg_try_advisory_xact_lock_shared(1702064994, pg_catalog.pg_backend_pid());
END
$$;

-- Rule 9, first step, after OWNER and the lock of the epoch are taken. It raises if this connection has not both.
-- A standby that is promoted soon after the installation, before it has written what it read of it, may have an unlogged sequence
-- of zeros alone, which has no row and takes none ("bad magic number", seen of PostgreSQL 15.18). Such a one is made anew.
CREATE OR REPLACE FUNCTION escrow.set_epoch(epoch bigint) RETURNS void
LANGUAGE plpgsql SECURITY DEFINER SET search_path = pg_catalog, pg_temp AS $$
DECLARE
	held bigint;
	sequence text;
	is_whole boolean;
BEGIN
	SELECT count(*) INTO held FROM pg_locks
	WHERE locktype = 'advisory' AND pid = pg_backend_pid() AND granted AND mode = 'ExclusiveLock'
		AND database = (SELECT oid FROM pg_database WHERE datname = current_database())
		AND ((objsubid = 2 AND classid = 1702064993 AND objid = 1)
			OR (objsubid = 1 AND classid::bigint = epoch >> 32 AND objid::bigint = epoch & 4294967295));
	IF epoch <= 0 OR held <> 2 THEN
		RAISE EXCEPTION 'the locks of the owner are not held' USING ERRCODE = 'object_not_in_prerequisite_state';
	END IF;
	FOREACH sequence IN ARRAY ARRAY['epoch', 'greeted', 'heard'] LOOP
		EXECUTE format('SELECT EXISTS (SELECT FROM escrow.%I)', sequence) INTO is_whole;
		IF NOT is_whole THEN
			EXECUTE format('DROP SEQUENCE escrow.%I', sequence);
			EXECUTE format('CREATE UNLOGGED SEQUENCE escrow.%I MINVALUE 0 START 0', sequence);
			GRANT SELECT ON SEQUENCE escrow.epoch TO escrow_proxy;
		END IF;
	END LOOP;
	PERFORM setval('escrow.epoch', epoch);
	PERFORM setval('escrow.greeted', 0);
END
$$;
ALTER FUNCTION escrow.set_epoch OWNER TO escrow_journal;
REVOKE ALL ON FUNCTION escrow.set_epoch FROM PUBLIC;
GRANT EXECUTE ON FUNCTION escrow.set_epoch TO escrow_proxy;

-- Who holds OWNER, whether it may, and how long it has said nothing. The next owner ends one that may not, and one that is
-- silent for too long.
CREATE OR REPLACE FUNCTION escrow.owner(OUT process integer, OUT is_proxy boolean, OUT silent double precision)
LANGUAGE sql SET search_path = pg_catalog, pg_temp AS $$
	SELECT l.pid, pg_has_role(a.usesysid, 'escrow_proxy', 'MEMBER'), extract(epoch FROM clock_timestamp() - a.state_change)::double precision
	FROM pg_locks AS l LEFT JOIN pg_stat_activity AS a ON a.pid = l.pid
	WHERE l.locktype = 'advisory' AND l.granted AND l.classid = 1702064993 AND l.objid = 1 AND l.objsubid = 2
		AND l.database = (SELECT oid FROM pg_database WHERE datname = current_database())
$$;

-- Rule 9, second step: who may still commit a note. Without a process it is a prepared transaction, which may also have OWNER.
CREATE OR REPLACE FUNCTION escrow.holders() RETURNS TABLE (process integer, prepared text)
LANGUAGE sql SET search_path = pg_catalog, pg_temp AS $$
	SELECT DISTINCT l.pid, p.gid
	FROM pg_locks AS l
	LEFT JOIN escrow.declared AS d ON l.locktype = 'relation' AND l.mode = 'RowExclusiveLock' AND l.relation = to_regclass('escrow.journal_' || d.number)
	LEFT JOIN pg_locks AS x ON l.pid IS NULL AND x.pid IS NULL AND x.virtualtransaction = l.virtualtransaction AND x.locktype = 'transactionid'
	LEFT JOIN pg_prepared_xacts AS p ON p.transaction = x.transactionid
	WHERE l.granted AND (d.number IS NOT NULL OR l.pid IS NULL AND l.locktype = 'advisory' AND l.classid = 1702064993 AND l.objid = 1 AND l.objsubid = 2)
		AND l.database = (SELECT oid FROM pg_database WHERE datname = current_database())
		AND l.pid IS DISTINCT FROM pg_backend_pid()
$$;

-- Ends who holds a journal, and returns who it was. The functions that end processes run with the rights of who installed
-- the schema: the proxy's role need not be a superuser, and superusers' connections would stay otherwise.
CREATE OR REPLACE FUNCTION escrow.end_holders() RETURNS TABLE (process integer, prepared text)
LANGUAGE plpgsql SECURITY DEFINER SET search_path = pg_catalog, pg_temp AS $$
BEGIN
	FOR process, prepared IN SELECT h.process, h.prepared FROM escrow.holders() AS h LOOP
		PERFORM pg_terminate_backend(process);
		RETURN NEXT;
	END LOOP;
END
$$;
REVOKE ALL ON FUNCTION escrow.end_holders FROM PUBLIC;
GRANT EXECUTE ON FUNCTION escrow.end_holders TO escrow_proxy;

-- Ends who holds OWNER or waits for it and may not, or holds it and has said nothing for so many seconds, at least one. Returns how
-- many it were.
CREATE OR REPLACE FUNCTION escrow.end_owner(longest double precision) RETURNS integer
LANGUAGE plpgsql SECURITY DEFINER SET search_path = pg_catalog, pg_temp AS $$
DECLARE
	it record;
	ended integer := 0;
BEGIN
	FOR it IN SELECT l.pid FROM pg_locks AS l JOIN pg_stat_activity AS a ON a.pid = l.pid
		WHERE l.locktype = 'advisory' AND l.classid = 1702064993 AND l.objid = 1 AND l.objsubid = 2 AND l.database = a.datid
			AND a.datname = current_database() AND (NOT pg_has_role(a.usesysid, 'escrow_proxy', 'MEMBER')
				OR l.granted AND extract(epoch FROM clock_timestamp() - a.state_change) > greatest(longest, 1))
	LOOP
		PERFORM pg_terminate_backend(it.pid);
		ended := ended + 1;
	END LOOP;
	RETURN ended;
END
$$;
REVOKE ALL ON FUNCTION escrow.end_owner FROM PUBLIC;
GRANT EXECUTE ON FUNCTION escrow.end_owner TO escrow_proxy;

-- Reads a CHECK as linear sums over reservable columns. Returns null if it has none of them. Each condition of it
-- becomes one: coefficients, comparison, limit. `ranks` are the columns' types by what they can hold: 2, 4 and 8 are
-- integers of so many bytes, 99 is numeric. PostgreSQL computes a sum of integers in the type of its widest part, and
-- fails if that is too small. So each such sum, also as a part of another, becomes two conditions more, with "range". A sum
-- of bigint is refused if values of 15 digits can be too large for it.
CREATE OR REPLACE FUNCTION escrow.linear(condition text, reservable name[], others name[], ranks integer[]) RETURNS jsonb
LANGUAGE plpgsql IMMUTABLE SET search_path = pg_catalog, pg_temp AS $$
DECLARE
	found jsonb := '[]';
	tokens text[];
	token text;
	signs integer[] := '{1}';   -- of each open parenthesis
	sign integer := 1;          -- of the next term
	side integer := 1;          -- -1 behind the comparison
	comparison text;
	sums numeric[] := array_fill(0::numeric, ARRAY[cardinality(reservable)]);
	level numeric := 0;
	factor numeric;
	variable integer;
	expects_term boolean := true;
	rank integer := 0;          -- of the last term
	widened integer;
	n integer := cardinality(reservable);
	opened numeric[] := '{}';   -- for each open parenthesis: sums and level in front of it
	opened_ranks integer[] := '{}';
	steps integer[] := '{}';    -- how many operators are in it; null if it has a comparison
	change numeric[];
	ranges jsonb := '[]';
	names name[] := '{}';
	i integer := 1;
BEGIN
	-- PostgreSQL writes constants with their types, and in parentheses: '-5'::integer, (5)::numeric.
	condition := regexp_replace(condition, '''(-?[0-9.]+)''::(?:numeric|bigint|integer|smallint)', '(\1)', 'g');
	condition := regexp_replace(condition, '\((-?[0-9.]+)\)::(?:numeric|bigint|integer|smallint)', ' \1 ', 'g');
	condition := regexp_replace(condition, '\((-?[0-9.]+)\)', ' \1 ', 'g');
	tokens := ARRAY(SELECT m[1] FROM regexp_matches(condition, '("(?:[^"]|"")+"|[a-zA-Z_][a-zA-Z0-9_$]*|[0-9.]+|<=|>=|<>|::[a-z]+(?:\([0-9,]+\))?|[^[:space:]])', 'g') AS m);
	FOREACH token IN ARRAY tokens LOOP
		token := CASE WHEN token LIKE '"%' THEN replace(substr(token, 2, length(token) - 2), '""', '"') ELSE token END;
		names := CASE WHEN token = ANY (reservable) OR token = ANY (others) THEN names || token::name ELSE names END;
	END LOOP;
	IF NOT names && reservable THEN
		RETURN NULL;
	END IF;
	tokens := tokens || 'AND'::text;
	WHILE i <= cardinality(tokens) LOOP
		token := tokens[i];
		variable := array_position(reservable, CASE WHEN token LIKE '"%' THEN replace(substr(token, 2, length(token) - 2), '""', '"') ELSE token END::name);
		IF token = '(' AND expects_term THEN
			signs := signs || sign;
			opened := opened || sums || level;
			opened_ranks := opened_ranks || 0;
			steps := steps || 0;
		ELSIF token = ')' AND NOT expects_term AND cardinality(signs) > 1 THEN
			rank := greatest(rank, opened_ranks[cardinality(opened_ranks)]);
			sign := side * signs[cardinality(signs)];
			change := ARRAY(SELECT sign * (s - o) FROM unnest(sums, opened[cardinality(opened) - n : cardinality(opened) - 1]) WITH ORDINALITY AS u (s, o, place) ORDER BY place);
			IF steps[cardinality(steps)] > 0 AND rank = 8
				AND (SELECT sum(abs(c)) FROM unnest(change) AS c) * 999999999999999 + abs(level - opened[cardinality(opened)]) > 9223372036854775807 THEN
				RETURN '"no sum"';
			ELSIF steps[cardinality(steps)] > 0 AND rank < 8 AND change <> array_fill(0::numeric, ARRAY[n]) THEN
				ranges := ranges || jsonb_build_array(
					jsonb_build_object('range', true, 'coefficients', to_jsonb(change), 'comparison', '<=',
						'limit', CASE rank WHEN 2 THEN 32767 ELSE 2147483647 END + sign * (level - opened[cardinality(opened)])),
					jsonb_build_object('range', true, 'coefficients', to_jsonb(change), 'comparison', '>=',
						'limit', CASE rank WHEN 2 THEN -32768 ELSE -2147483648 END + sign * (level - opened[cardinality(opened)])));
			END IF;
			signs := trim_array(signs, 1);
			opened := trim_array(opened, n + 1);
			opened_ranks := trim_array(opened_ranks, 1);
			steps := trim_array(steps, 1);
		ELSIF token LIKE '::%' AND NOT expects_term THEN
			-- A cast that may round, or fail, is no sum.
			widened := CASE token WHEN '::smallint' THEN 2 WHEN '::integer' THEN 4 WHEN '::bigint' THEN 8 WHEN '::numeric' THEN 99 END;
			IF widened IS NULL OR widened < rank THEN
				RETURN '"no sum"';
			END IF;
			rank := widened;
		ELSIF token IN ('+', '-') THEN
			IF cardinality(steps) > 0 THEN
				steps[cardinality(steps)] := steps[cardinality(steps)] + 1;
				opened_ranks[cardinality(opened_ranks)] := greatest(opened_ranks[cardinality(opened_ranks)], CASE WHEN NOT expects_term THEN rank END);
			END IF;
			sign := signs[cardinality(signs)] * CASE token WHEN '-' THEN -1 ELSE 1 END * CASE WHEN expects_term THEN sign * signs[cardinality(signs)] ELSE 1 END;
			expects_term := true;
		ELSIF expects_term AND (variable IS NOT NULL OR token ~ '^[0-9]+(\.[0-9]+)?$') THEN
			factor := CASE WHEN variable IS NULL THEN token::numeric ELSE 1 END;
			rank := CASE WHEN variable IS NOT NULL THEN ranks[variable] WHEN token LIKE '%.%' THEN 99 WHEN factor <= 2147483647 THEN 4 ELSE 8 END;
			IF tokens[i + 1] = '*' THEN
				IF cardinality(steps) > 0 THEN
					steps[cardinality(steps)] := steps[cardinality(steps)] + 1;
				END IF;
				i := i + 2;
				WHILE tokens[i] = '-' LOOP
					factor := -factor;
					i := i + 1;
				END LOOP;
				token := CASE WHEN tokens[i] LIKE '"%' THEN replace(substr(tokens[i], 2, length(tokens[i]) - 2), '""', '"') ELSE tokens[i] END;
				IF variable IS NULL AND token = ANY (reservable) THEN
					variable := array_position(reservable, token::name);
					rank := greatest(rank, ranks[variable]);
				ELSIF variable IS NOT NULL AND token ~ '^[0-9]+(\.[0-9]+)?$' THEN
					factor := factor * token::numeric;
					rank := greatest(rank, CASE WHEN token LIKE '%.%' THEN 99 WHEN token::numeric <= 2147483647 THEN 4 ELSE 8 END);
				ELSE
					RETURN '"no sum"';
				END IF;
			END IF;
			IF variable IS NULL THEN
				level := level - side * sign * factor;
			ELSE
				sums[variable] := sums[variable] + side * sign * factor;
			END IF;
			expects_term := false;
		ELSIF token IN ('<', '<=', '>', '>=', '=') AND NOT expects_term AND comparison IS NULL THEN
			comparison := token;
			steps := array_fill(NULL::integer, ARRAY[cardinality(steps)]);
			side := -1;
			sign := signs[cardinality(signs)];
			expects_term := true;
		ELSIF upper(token) = 'AND' AND NOT expects_term AND comparison IS NOT NULL THEN
			found := found || jsonb_build_array(jsonb_build_object('coefficients', to_jsonb(sums), 'comparison', comparison, 'limit', level));
			sums := array_fill(0::numeric, ARRAY[cardinality(reservable)]);
			level := 0;
			comparison := NULL;
			side := 1;
			sign := 1;
			expects_term := true;
		ELSE
			RETURN '"no sum"';
		END IF;
		i := i + 1;
	END LOOP;
	RETURN CASE WHEN cardinality(signs) = 1 THEN found || ranges ELSE '"no sum"' END;
END
$$;

-- Returns a linear condition as the server takes it: with whole factors, and a limit in units of its finest column. Returns
-- null if it has no column, and a text if it cannot be so.
CREATE OR REPLACE FUNCTION escrow.scaled(condition jsonb, scales integer[]) RETURNS jsonb
LANGUAGE plpgsql IMMUTABLE SET search_path = pg_catalog, pg_temp AS $$
DECLARE
	factors numeric[] := ARRAY(SELECT c::numeric FROM jsonb_array_elements_text(condition->'coefficients') WITH ORDINALITY AS e (c, place) ORDER BY place);
	comparison text := condition->>'comparison';
	ten integer := (SELECT max(scale(trim_scale(f))) FROM unnest(factors) AS f);
	unit integer := (SELECT max(s) FROM unnest(factors, scales) AS u (f, s) WHERE f <> 0);
	units numeric := ((condition->>'limit')::numeric * ('1' || repeat('0', ten + unit))::numeric);
BEGIN
	IF unit IS NULL THEN
		RETURN NULL;
	END IF;
	factors := ARRAY(SELECT trim_scale(f * ('1' || repeat('0', ten))::numeric) FROM unnest(factors) WITH ORDINALITY AS u (f, place) ORDER BY place);
	IF units <> trunc(units) THEN
		IF comparison = '=' THEN
			RETURN '"holds for no value"';
		END IF;
		units := CASE WHEN comparison IN ('<', '<=') THEN floor(units) ELSE ceil(units) END;
		comparison := left(comparison, 1) || '=';
	END IF;
	IF abs(units) > 999999999999999 OR EXISTS (SELECT FROM unnest(factors) AS f WHERE abs(f) > 1000000) THEN
		RETURN '"has a factor above 1000000, or a limit of more than 15 digits"';
	END IF;
	RETURN condition || jsonb_build_object('coefficients', to_jsonb(factors), 'comparison', comparison,
		'limit', trim_scale(units / ('1' || repeat('0', unit))::numeric));
END
$$;

-- Returns a linear condition in words.
CREATE OR REPLACE FUNCTION escrow.told(condition jsonb, reservable name[]) RETURNS text
LANGUAGE sql IMMUTABLE SET search_path = pg_catalog, pg_temp AS $$
	SELECT regexp_replace(regexp_replace(string_agg(
			CASE WHEN c::numeric < 0 THEN ' - ' ELSE ' + ' END || CASE WHEN abs(c::numeric) = 1 THEN '' ELSE abs(c::numeric)::text || ' * ' END || reservable[n],
			'' ORDER BY n), '^ \+ ', ''), '^ - ', '-')
		|| ' ' || (condition->>'comparison') || ' ' || (condition->>'limit')
	FROM jsonb_array_elements_text(condition->'coefficients') WITH ORDINALITY AS e(c, n)
	WHERE c::numeric <> 0
$$;

-- The role that a client acts as: that of SET ROLE, or the one it logged in as. The functions that ask run as their owner, so
-- their current_user is nobody's; a function of the client's with rights of its own changes nothing of it. In an operation that
-- PostgreSQL restricts, as ANALYZE of an index with a function of somebody else's, the session is not who calls; UNLISTEN raises
-- there, and does nothing else.
CREATE OR REPLACE FUNCTION escrow.caller() RETURNS regrole LANGUAGE plpgsql SET search_path = pg_catalog, pg_temp AS $$
BEGIN
	UNLISTEN escrow_nothing;
	RETURN quote_ident(coalesce(nullif(current_setting('role'), 'none'), session_user))::regrole;
END
$$;

-- Whether the client may do what a table's owner may.
CREATE OR REPLACE FUNCTION escrow.is_owners(proprietor oid) RETURNS boolean LANGUAGE plpgsql SET search_path = pg_catalog, pg_temp AS $$
BEGIN
	RETURN pg_has_role(escrow.caller(), proprietor, 'USAGE');
END
$$;

-- Refuses a declaration.
CREATE OR REPLACE FUNCTION escrow.refuse(relation regclass, why text, hint text DEFAULT NULL) RETURNS void
LANGUAGE plpgsql AS $$
BEGIN
	RAISE EXCEPTION '% cannot be declared reservable: %', relation, why
		USING ERRCODE = 'invalid_table_definition', HINT = coalesce(hint, '');
END
$$;

-- The functions of a declared table.
CREATE OR REPLACE FUNCTION escrow.functions(n integer) RETURNS SETOF oid LANGUAGE sql STABLE SET search_path = pg_catalog, pg_temp SET standard_conforming_strings = on SET quote_all_identifiers = off AS $$
	SELECT p.oid FROM pg_proc AS p WHERE p.pronamespace = 'escrow'::regnamespace AND p.proname LIKE '%\_' || n
$$;

-- Tests a table, and returns what is declared of it. Raises the first reason against it.
CREATE OR REPLACE FUNCTION escrow.describe(relation regclass, reservable name[]) RETURNS escrow.declared
LANGUAGE plpgsql SET search_path = pg_catalog, pg_temp SET standard_conforming_strings = on SET quote_all_identifiers = off AS $$
DECLARE
	it pg_class;
	key pg_attribute;
	a pg_attribute;
	c record;
	read jsonb;
	others name[];
	result escrow.declared;
	digits integer;
	scale integer;
	names_in_checks boolean;
	conditions integer;
	ranks integer[];
	scales integer[];
	part jsonb;
BEGIN
	SELECT * INTO STRICT it FROM pg_class WHERE oid = relation;
	IF it.relkind <> 'r' OR it.relispartition OR EXISTS (SELECT FROM pg_inherits WHERE inhrelid = relation OR inhparent = relation) THEN
		PERFORM escrow.refuse(relation, 'it is no ordinary table by itself (a view, or part of a partitioned table or of inheritance)');
	END IF;
	-- Functions are made of texts that have these names between $body$ and $body$.
	IF EXISTS (SELECT FROM unnest(ARRAY[it.relname, (SELECT nspname FROM pg_namespace WHERE oid = it.relnamespace)]
			|| ARRAY(SELECT attname FROM pg_attribute WHERE attrelid = relation AND NOT attisdropped)) AS name WHERE name LIKE '%$body$%') THEN
		PERFORM escrow.refuse(relation, 'a name of it has $body$');
	END IF;
	IF it.relpersistence <> 'p' THEN
		PERFORM escrow.refuse(relation, 'it is temporary or unlogged');
	END IF;
	IF it.relrowsecurity THEN
		PERFORM escrow.refuse(relation, 'it has row-level security');
	END IF;
	IF it.relhasrules AND EXISTS (SELECT FROM pg_rewrite WHERE ev_class = relation) THEN
		PERFORM escrow.refuse(relation, 'it has rules');
	END IF;
	FOR c IN SELECT tgname FROM pg_trigger WHERE tgrelid = relation AND tgdeferrable AND NOT tgisinternal LOOP
		PERFORM escrow.refuse(relation, format('the trigger %I can be deferred to the end of a fold', c.tgname), 'Create it anew as NOT DEFERRABLE.');
	END LOOP;
	FOR c IN SELECT tgname FROM pg_trigger WHERE tgrelid = relation AND NOT tgisinternal AND tgtype & 19 = 19 AND tgname > '~escrow guard' LOOP
		PERFORM escrow.refuse(relation, format('the trigger %I fires behind the one that guards reservable columns', c.tgname), 'Its name has to come before "~".');
	END LOOP;
	SELECT attribute.* INTO key FROM pg_index AS i JOIN pg_attribute AS attribute ON attrelid = relation AND attnum = i.indkey[0]
	WHERE i.indrelid = relation AND i.indisprimary AND i.indnkeyatts = 1;
	IF key IS NULL THEN
		PERFORM escrow.refuse(relation, 'it has no primary key of one column');
	END IF;
	IF key.atttypid NOT IN ('int2'::regtype, 'int4'::regtype, 'int8'::regtype, 'numeric'::regtype, 'text'::regtype, 'varchar'::regtype, 'uuid'::regtype) THEN
		PERFORM escrow.refuse(relation, format('its key %I has the type %s', key.attname, format_type(key.atttypid, key.atttypmod)),
			'The key may be smallint, integer, bigint, numeric, text, varchar or uuid.');
	END IF;
	-- PostgreSQL refuses an UPDATE that it could not publish, and so each fold: it needs the replica identity, which has all columns
	-- of a condition, and is among the columns that are published.
	FOR c IN SELECT p.pubname FROM pg_publication AS p LEFT JOIN pg_publication_rel AS r ON r.prpubid = p.oid AND r.prrelid = relation
		LEFT JOIN LATERAL (SELECT x.indkey[0 : x.indnkeyatts - 1]::int2[] AS places FROM pg_index AS x
			WHERE x.indrelid = relation AND CASE it.relreplident WHEN 'd' THEN x.indisprimary WHEN 'i' THEN x.indisreplident END) AS identity ON true
		WHERE p.pubupdate AND (r.oid IS NOT NULL OR p.puballtables
				OR EXISTS (SELECT FROM pg_publication_namespace AS n WHERE n.pnpubid = p.oid AND n.pnnspid = it.relnamespace))
			AND CASE WHEN it.relreplident = 'f' THEN r.prattrs IS NOT NULL
				ELSE places IS NULL OR NOT places <@ r.prattrs::int2[]
					OR EXISTS (SELECT FROM regexp_matches(r.prqual::text, ':varattno (-?[0-9]+) ', 'g') AS m WHERE m[1]::int2 <> ALL (places)) END
	LOOP
		PERFORM escrow.refuse(relation, format('the publication %I lets no row of it be updated', c.pubname),
			'A published UPDATE needs a replica identity, which has all columns of a WHERE and is among the columns that are published.');
	END LOOP;
	IF NOT (SELECT collisdeterministic FROM pg_collation WHERE oid = key.attcollation) THEN
		PERFORM escrow.refuse(relation, format('its key %I has a nondeterministic collation', key.attname));
	END IF;
	IF cardinality(reservable) = 0 OR cardinality(reservable) > 10 THEN
		PERFORM escrow.refuse(relation, format('%s columns are named', cardinality(reservable)), 'Name 1 to 10 columns.');
	END IF;
	ranks := ARRAY(SELECT CASE atttypid WHEN 'int2'::regtype THEN 2 WHEN 'int4'::regtype THEN 4 WHEN 'int8'::regtype THEN 8 ELSE 99 END
		FROM unnest(reservable) WITH ORDINALITY AS r (name, place) LEFT JOIN pg_attribute ON attrelid = relation AND attname = r.name AND attnum > 0
		ORDER BY place);
	result.columns := '[]';
	FOR i IN 1 .. cardinality(reservable) LOOP
		SELECT * INTO a FROM pg_attribute WHERE attrelid = relation AND attname = reservable[i] AND attnum > 0 AND NOT attisdropped;
		IF a IS NULL THEN
			PERFORM escrow.refuse(relation, format('it has no column %I', reservable[i]));
		ELSIF reservable[i] = ANY (reservable[: i - 1]) THEN
			PERFORM escrow.refuse(relation, format('the column %I is named twice', a.attname));
		ELSIF a.attnum = key.attnum THEN
			PERFORM escrow.refuse(relation, format('the column %I is its key', a.attname));
		ELSIF a.atttypid NOT IN ('int2'::regtype, 'int4'::regtype, 'int8'::regtype, 'numeric'::regtype) THEN
			PERFORM escrow.refuse(relation, format('the column %I has the type %s', a.attname, format_type(a.atttypid, a.atttypmod)),
				'A reservable column may be smallint, integer, bigint or numeric(p,s).');
		ELSIF NOT a.attnotnull THEN
			PERFORM escrow.refuse(relation, format('the column %I may be NULL', a.attname), format('ALTER TABLE %s ALTER %I SET NOT NULL', relation, a.attname));
		ELSIF a.attgenerated <> '' OR a.attidentity <> '' THEN
			PERFORM escrow.refuse(relation, format('the column %I is generated', a.attname));
		END IF;
		digits := CASE a.atttypid WHEN 'int2'::regtype THEN 5 WHEN 'int4'::regtype THEN 10 WHEN 'int8'::regtype THEN 15
			ELSE CASE WHEN a.atttypmod < 0 THEN NULL ELSE (a.atttypmod - 4) >> 16 & 65535 END END;
		scale := CASE WHEN a.atttypid <> 'numeric'::regtype THEN 0 ELSE (a.atttypmod - 4) & 2047 END;
		IF digits IS NULL OR digits > 15 OR scale > 6 OR scale > digits THEN
			PERFORM escrow.refuse(relation, format('the column %I has the type %s', a.attname, format_type(a.atttypid, a.atttypmod)),
				'A numeric column needs numeric(p,s) with p from 1 to 15 and s from 0 to 6, not above p.');
		END IF;
		FOR c IN SELECT conname, contype FROM pg_constraint
			WHERE (conrelid = relation AND contype IN ('p', 'u', 'x', 'f') AND a.attnum = ANY (conkey)) OR (confrelid = relation AND a.attnum = ANY (confkey))
		LOOP
			PERFORM escrow.refuse(relation, format('the column %I is in the constraint %I', a.attname, c.conname));
		END LOOP;
		-- What a fold evaluates besides the CHECKs may fail, or refuse the new value.
		-- An expression over the whole row depends on no column.
		FOR c IN SELECT x.indexrelid::regclass AS index, x.indisunique OR x.indisexclusion AS is_unique, x.indexprs IS NOT NULL AS has_expressions,
				pg_get_expr(x.indpred, x.indrelid) AS condition, concat(x.indexprs, x.indpred) LIKE '%:varattno 0 %' AS has_row
			FROM pg_index AS x WHERE x.indrelid = relation AND (concat(x.indexprs, x.indpred) LIKE '%:varattno 0 %'
				OR EXISTS (SELECT FROM pg_depend AS d WHERE d.classid = 'pg_class'::regclass
					AND d.objid = x.indexrelid AND d.refclassid = 'pg_class'::regclass AND d.refobjid = relation AND d.refobjsubid = a.attnum))
		LOOP
			read := escrow.linear(c.condition, reservable, '{}', ranks);
			IF c.is_unique THEN
				PERFORM escrow.refuse(relation, format('the column %I is in a unique index', a.attname));
			ELSIF c.has_expressions OR c.has_row OR jsonb_typeof(read) = 'string' OR read @? '$[*].range' THEN
				PERFORM escrow.refuse(relation, format('the column %I is in an expression or the condition of the index %s', a.attname, c.index));
			END IF;
		END LOOP;
		FOR c IN SELECT g.attname FROM pg_attribute AS g JOIN pg_attrdef AS e ON e.adrelid = relation AND e.adnum = g.attnum
			WHERE g.attrelid = relation AND g.attgenerated <> '' AND NOT g.attisdropped AND EXISTS (SELECT FROM pg_depend AS d
				WHERE d.refclassid = 'pg_class'::regclass AND d.refobjid = relation AND d.refobjsubid = a.attnum
				AND (d.classid = 'pg_attrdef'::regclass AND d.objid = e.oid OR d.classid = 'pg_class'::regclass AND d.objid = relation AND d.objsubid = g.attnum))
		LOOP
			PERFORM escrow.refuse(relation, format('the column %I is generated from the column %I', c.attname, a.attname));
		END LOOP;
		result.columns := result.columns || jsonb_build_array(jsonb_build_object('name', a.attname, 'place', a.attnum,
			'type', format_type(a.atttypid, a.atttypmod), 'digits', digits, 'scale', scale,
			'least', CASE a.atttypid WHEN 'int2'::regtype THEN -32768 WHEN 'int4'::regtype THEN -2147483648 END,
			'greatest', CASE a.atttypid WHEN 'int2'::regtype THEN 32767 WHEN 'int4'::regtype THEN 2147483647 END));
	END LOOP;
	others := ARRAY(SELECT attname FROM pg_attribute WHERE attrelid = relation AND attnum > 0 AND NOT attisdropped AND attname <> ALL (reservable));
	scales := ARRAY(SELECT (x->>'scale')::integer FROM jsonb_array_elements(result.columns) WITH ORDINALITY AS e (x, place) ORDER BY place);
	result.checks := '[]';
	FOR c IN SELECT oid, conname, conkey, convalidated, pg_get_expr(conbin, conrelid) AS condition FROM pg_constraint
		WHERE conrelid = relation AND contype = 'c' ORDER BY conname
	LOOP
		IF 0 = ANY (c.conkey) THEN
			PERFORM escrow.refuse(relation, format('the CHECK %I names the whole row: %s', c.conname, c.condition));
		END IF;
		-- Each UPDATE of a row that breaks it would be refused, and so its fold, whatever its columns.
		IF NOT c.convalidated THEN
			PERFORM escrow.refuse(relation, format('the CHECK %I is not validated', c.conname), format('ALTER TABLE %s VALIDATE CONSTRAINT %I', relation, c.conname));
		END IF;
		names_in_checks := c.conkey && ARRAY(SELECT attnum FROM pg_attribute WHERE attrelid = relation AND attname = ANY (reservable));
		CONTINUE WHEN names_in_checks IS NOT TRUE; -- left to PostgreSQL
		IF c.conkey && ARRAY(SELECT attnum FROM pg_attribute WHERE attrelid = relation AND attname = ANY (others)) THEN
			PERFORM escrow.refuse(relation, format('the CHECK %I names reservable columns and others: %s', c.conname, c.condition));
		END IF;
		read := escrow.linear(c.condition, reservable, others, ranks);
		IF jsonb_typeof(read) IS DISTINCT FROM 'array' THEN
			PERFORM escrow.refuse(relation, format('the CHECK %I compares no sums of its columns: %s', c.conname, c.condition),
				'A CHECK may compare sums as 2 * a - b + 5, joined by AND.');
		END IF;
		FOR part IN SELECT escrow.scaled(condition, scales) FROM jsonb_array_elements(read) AS condition LOOP
			IF jsonb_typeof(part) = 'string' THEN
				PERFORM escrow.refuse(relation, format('the CHECK %I %s: %s', c.conname, part #>> '{}', c.condition));
			ELSIF part IS NOT NULL THEN
				result.checks := result.checks || jsonb_build_array(part || jsonb_build_object('name', c.conname));
			END IF;
		END LOOP;
	END LOOP;
	conditions := jsonb_array_length(result.checks) + (SELECT count(*) FROM jsonb_array_elements(result.columns) AS x WHERE x->>'least' IS NOT NULL);
	IF conditions > 32 THEN
		PERFORM escrow.refuse(relation, format('its CHECKs have %s conditions', conditions),
			'There may be 32 of them. A column of smallint or integer counts for one more, and a sum of integers for two, since each has to fit its type.');
	END IF;
	result.relation := relation;
	result.key_name := key.attname;
	result.key_type := format_type(key.atttypid, key.atttypmod);
	result.definition := jsonb_build_object('name', format('%s.%I', it.relnamespace::regnamespace, it.relname), 'key', key.attnum, 'key_name', key.attname, 'key_type', result.key_type,
		'columns', result.columns, 'checks', result.checks,
		'triggers', (SELECT jsonb_object_agg(tgname, tgenabled) FROM pg_trigger WHERE tgrelid = relation AND tgname ~ '^~?escrow '),
		-- The table's owner owns some of them. Without SECURITY DEFINER, triggers on the table would run with other rights. Roles
		-- may get other names.
		'functions', (SELECT jsonb_object_agg(p.proname, format('%s %s %s', CASE p.proowner WHEN it.relowner THEN 'owner'
				WHEN 'escrow_journal'::regrole THEN 'escrow_journal' ELSE p.proowner::regrole::text END, p.prosecdef, p.proconfig))
			FROM escrow.functions((SELECT number FROM escrow.declared AS d WHERE d.relation = describe.relation)) AS f JOIN pg_proc AS p ON p.oid = f));
	RETURN result;
END
$$;

-- Rule 15.
CREATE OR REPLACE FUNCTION escrow.refuse_truncate() RETURNS trigger LANGUAGE plpgsql AS $$
BEGIN
	RAISE EXCEPTION '% has reservable columns and cannot be truncated', TG_TABLE_NAME
		USING ERRCODE = 'object_in_use', SCHEMA = TG_TABLE_SCHEMA, TABLE = TG_TABLE_NAME,
			HINT = pg_catalog.format('Call escrow.ordinary(%L) first.', TG_RELID::pg_catalog.regclass);
END
$$;

-- Returns what makes a key's one text of a key: numbers have no zeros at their end. It has the collation of the lines of holds,
-- whose index serves no other one.
CREATE OR REPLACE FUNCTION escrow.key_text(key_type text, key text) RETURNS text LANGUAGE sql IMMUTABLE SET search_path = pg_catalog, pg_temp AS $$
	SELECT format(CASE WHEN key_type LIKE 'numeric%' THEN 'trim_scale(%s)::text' ELSE '(%s)::text COLLATE pg_catalog."default"' END, key)
$$;

-- The collation of a declared table's key, as a column has it behind its type. An index serves comparisons of its own collation alone.
CREATE OR REPLACE FUNCTION escrow.collation_of(relation regclass, key name) RETURNS text LANGUAGE sql STABLE SET search_path = pg_catalog, pg_temp AS $$
	SELECT coalesce((SELECT ' COLLATE ' || attcollation::regcollation FROM pg_attribute
		WHERE attrelid = relation AND attname = key AND attcollation <> 0), '')
$$;

-- The view of a declared table. Its comment has the number; an owner of another view may have written that too.
CREATE OR REPLACE FUNCTION escrow.now_view(n integer) RETURNS regclass LANGUAGE sql STABLE SET search_path = pg_catalog, pg_temp AS $$
	SELECT v.oid::regclass FROM escrow.declared AS d JOIN pg_class AS t ON t.oid = d.relation
	JOIN pg_class AS v ON v.relkind = 'v' AND v.relnamespace = 'escrow'::regnamespace AND v.relowner = t.relowner
	WHERE d.number = n AND obj_description(v.oid, 'pg_class') = n::text LIMIT 1
$$;

-- Creates or replaces what a declared table has: functions, triggers and the view. Journal and marks stay.
CREATE OR REPLACE FUNCTION escrow.generate(it escrow.declared) RETURNS void
LANGUAGE plpgsql SET search_path = pg_catalog, pg_temp AS $$
DECLARE
	n integer := it.number;
	relation regclass := it.relation;
	proprietor text := (SELECT relowner::regrole FROM pg_class WHERE oid = it.relation);
	names name[] := ARRAY(SELECT (c->>'name')::name FROM jsonb_array_elements(it.columns) AS c);
	k name := it.key_name;
	-- As a cast writes it under any path of search. Other types have names that are words of the grammar.
	key_cast text := CASE WHEN it.key_type IN ('text', 'uuid') THEN 'pg_catalog.' || it.key_type ELSE it.key_type END;
	texts text[];   -- of the parts that repeat for each column
	may text;
	may_key text;
	may_each text[];
	may_note text;
	allowed text;
	meant text;
	former regprocedure;
	note_call text;
	direct_call text;
	own_call text;
	fold_text text;
	kind text;
	view_name text;
	plain_type text := regexp_replace(it.key_type, '\(.*\)', ''); -- without a size
BEGIN
	UPDATE escrow.declared AS d SET definition = '{}' WHERE d.number = n; -- the event trigger lets it alone
	texts := ARRAY[
		-- 1: the values that are written into the journal
		(SELECT string_agg(format('coalesce(changes[%s]::pg_catalog.numeric, 0)', i), ', ') FROM generate_subscripts(names, 1) AS i),
		-- 2: what a fold adds to a row
		(SELECT string_agg(format('OLD.%I OPERATOR(pg_catalog.+) coalesce(pg_catalog.sum(taken.change_%s), 0)', names[i], i), ', ') FROM generate_subscripts(names, 1) AS i),
		-- 3: what it sets, before the guard adds to it
		(SELECT string_agg(format('%1$I = t.%1$I', names[i]), ', ') FROM generate_subscripts(names, 1) AS i),
		-- 4: the same of changes that are numbers
		(SELECT string_agg(format('coalesce(changes[%s], 0)', i), ', ') FROM generate_subscripts(names, 1) AS i),
		-- 5: whether a row keeps its values
		(SELECT string_agg(format('OLD.%1$I OPERATOR(pg_catalog.=) NEW.%1$I', names[i]), ' AND ') FROM generate_subscripts(names, 1) AS i),
		-- 6: the columns of a new row
		(SELECT string_agg(format('NEW.%I', names[i]), ', ') FROM generate_subscripts(names, 1) AS i),
		-- 7: the columns with what is pending
		(SELECT string_agg(format('(t.%1$I + coalesce(j.change_%2$s, 0))::%3$s AS %1$I', names[i], i, it.columns->(i - 1)->>'type'), ', ')
			FROM generate_subscripts(names, 1) AS i),
		-- 8: sums of the journal
		(SELECT string_agg(format('sum(change_%1$s) AS change_%1$s', i), ', ') FROM generate_subscripts(names, 1) AS i),
		-- 9: values of a row
		(SELECT string_agg(format('t.%I::pg_catalog.text', names[i]), ', ') FROM generate_subscripts(names, 1) AS i),
		-- 10: columns of the journal
		(SELECT string_agg('change_' || i, ', ') FROM generate_subscripts(names, 1) AS i)];

	-- Rule 20: what an UPDATE needs is UPDATE and SELECT of the column, and SELECT of the key. A note changes some of the columns, and
	-- a fold all; the fold tells whether there is such a key, and no value.
	may := format('pg_catalog.has_column_privilege(%s::pg_catalog.oid, %%s::pg_catalog.int2, ''%%s'')', relation::oid);
	may_key := format(may, (SELECT attnum FROM pg_attribute WHERE attrelid = it.relation AND attname = k), 'SELECT');
	may_each := ARRAY(SELECT format(may, c->>'place', 'UPDATE') || ' AND ' || format(may, c->>'place', 'SELECT') FROM jsonb_array_elements(it.columns) AS c);
	may_note := (SELECT string_agg(CASE cardinality(names) WHEN 1 THEN e ELSE format('(($4::pg_catalog.numeric[])[%s] IS NULL OR %s)', place, e) END, ' AND ' ORDER BY place)
			FROM unnest(may_each) WITH ORDINALITY AS u (e, place)) || ' AND ' || may_key;
	allowed := (SELECT string_agg(e || ' AND ' || may_key, ', ' ORDER BY place) FROM unnest(may_each) WITH ORDINALITY AS u (e, place));
	-- The client's path of search decides what its name of the table means.
	meant := format('::pg_catalog.text)::pg_catalog.oid OPERATOR(pg_catalog.=) %s::pg_catalog.oid', relation::oid);
	note_call := format('SELECT escrow.note_%s($1, $2, $3, $4, $5, (%s) IS TRUE, (pg_catalog.to_regclass($6%s) IS TRUE)', n, may_note, meant);
	direct_call := format('SELECT escrow.direct_%s($1, $2, $3, $4, $5, (%s) IS TRUE, (pg_catalog.to_regclass($6%s) IS TRUE)', n, may_note, meant);
	own_call := format('SELECT escrow.own_%s($1, %s)', n, (SELECT string_agg(format(may, c->>'place', 'UPDATE') || ' AND ', '') FROM jsonb_array_elements(it.columns) AS c) || may_key);
	UPDATE escrow.declared AS d SET note_text = note_call, own_text = own_call, direct_text = direct_call,
		refusal_text = format('SELECT escrow.refuse_change(%s, $1, $2, $3, $4, $5, ARRAY[%s], pg_catalog.to_regclass($6%s)', n, allowed, meant),
		here_text = format('SELECT escrow.here_%s($1, $2, $3, $4, $5, ARRAY[%s], pg_catalog.to_regclass($6%s)', n, allowed, meant) WHERE d.number = n;
	-- Those of before took other arguments.
	FOR former IN SELECT f::regprocedure FROM escrow.functions(n) AS f JOIN pg_proc AS p ON p.oid = f WHERE p.proname ~ '^(note|direct|own|row)_' LOOP
		EXECUTE format('DROP FUNCTION %s', former);
	END LOOP;

	-- Functions that are called for each order set no path of search, where they can do without: that costs more than the rest
	-- of a call. Each name, type and operator in them says its schema.

	-- The note: rules 3, 4, 7, 10 and 17 to 20. Each function that an expression calls costs more before it runs than it does then,
	-- so there are few; what is passed has its type already. A direct note, of an UPDATE that is a transaction by itself, folds it at once,
	-- if it gets the row's lock, and in READ COMMITTED. RETURNING is evaluated behind the write (rule 7). They return the
	-- transaction's id, that of what wrote the row of the journal, and the half of the hash that the proxy has not sent; a
	-- direct note also whether it has folded.
	FOREACH kind IN ARRAY ARRAY['note', 'direct'] LOOP
	EXECUTE format($f$
		CREATE OR REPLACE FUNCTION escrow.%6$s_%1$s(epoch bigint, number bigint, key %4$s, changes numeric[], proof bytea, may_change boolean, is_meant boolean) RETURNS bytea
		LANGUAGE plpgsql SECURITY DEFINER STRICT AS $body$
		DECLARE
			hash pg_catalog.bytea;
			noted pg_catalog.bytea;
		BEGIN
			SELECT pg_catalog.sha512(pg_catalog.convert_to(pg_catalog.concat_ws('|', 'note|%1$s', %6$s_%1$s.epoch, pg_catalog.pg_backend_pid(), %6$s_%1$s.number, changes,
				%6$s_%1$s.key), 'UTF8') OPERATOR(pg_catalog.||) s.key) INTO hash FROM escrow.secret AS s;
			-- A number that is proved is used up, whatever comes then.
			IF (CASE WHEN proof OPERATOR(pg_catalog.=) pg_catalog.substr(hash, 1, 32) AND pg_catalog.current_query() OPERATOR(pg_catalog.=) %7$L
					AND %6$s_%1$s.number OPERATOR(pg_catalog.>) pg_catalog.currval('escrow.heard')
				THEN pg_catalog.setval('escrow.heard', %6$s_%1$s.number) END) IS NULL THEN
				RAISE EXCEPTION 'escrow.note is for escrowd-proxy' USING ERRCODE = 'insufficient_privilege';
			END IF;
			IF (is_meant AND may_change) IS NOT TRUE THEN
				PERFORM escrow.refuse_other(%2$L, is_meant);
				RAISE EXCEPTION 'permission denied for table %%', %2$L USING ERRCODE = 'insufficient_privilege';
			END IF;
			-- The epoch is nothing if it was never set, and if nobody holds its lock, this transaction gets it: rules 8 and 10. The
			-- other two locks are those of escrow.forbid_prepare; one key for all would have all wait for one of PostgreSQL's latches.
			INSERT INTO escrow.journal_%1$s (epoch, tag, number, key, %3$s)
			VALUES (%6$s_%1$s.epoch, %6$s_%1$s.number, %6$s_%1$s.number, %6$s_%1$s.key, %5$s)
			RETURNING CASE WHEN pg_catalog.pg_sequence_last_value('escrow.epoch') OPERATOR(pg_catalog.=) %6$s_%1$s.epoch
				AND NOT pg_catalog.pg_try_advisory_xact_lock_shared(%6$s_%1$s.epoch)
				AND (pg_catalog.pg_try_advisory_lock_shared(1702064994, pg_catalog.pg_backend_pid())
					AND pg_catalog.pg_try_advisory_xact_lock_shared(1702064994, pg_catalog.pg_backend_pid())) IS NOT NULL
				THEN pg_catalog.xid8send(pg_catalog.pg_current_xact_id()) OPERATOR(pg_catalog.||) pg_catalog.xidsend(xmin)
					OPERATOR(pg_catalog.||) pg_catalog.substr(hash, 33) END INTO noted;
			IF noted IS NULL THEN
				PERFORM escrow.refuse_stale();
			END IF;%8$s
			RETURN noted;
		END
		$body$
	$f$, n, (SELECT relname FROM pg_class WHERE oid = it.relation), texts[10], key_cast, texts[4], kind, CASE kind WHEN 'direct' THEN direct_call ELSE note_call END,
		CASE kind WHEN 'direct' THEN format('
			RETURN noted OPERATOR(pg_catalog.||) pg_catalog.boolsend(pg_catalog.current_setting(''transaction_isolation'') OPERATOR(pg_catalog.=) ''read committed''
				AND escrow.row_%1$s(direct_%1$s.key, true, true) IS NOT NULL);', n) END);
	EXECUTE format('ALTER FUNCTION escrow.%s_%s OWNER TO escrow_journal', kind, n);
	END LOOP;

	-- Rule 11. A fold locks the row, and the guard adds to it what it takes out of the journal. It runs with the rights of the
	-- table's owner, as triggers on the table do then, and with the usual path of search for these. Temporary tables of the client come
	-- last in it: otherwise they, with triggers of the client's, would stand for the tables that an owner's trigger names. No caller
	-- tells it what to change, so anybody's fold is harmless (rule 12). It returns the transaction or subtransaction that has written the
	-- row anew, or nothing if the row is locked or not there. It waits for the row's lock unless it skips it, and for the table's unless
	-- it has to have that at once. The text finds the row once, by its place. A row that somebody has written anew since the snapshot
	-- was taken has another place then, which the snapshot does not see: its fold is left to what comes behind.
	fold_text := format('UPDATE %1$s AS t SET %2$s WHERE t.ctid OPERATOR(pg_catalog.=)
				(SELECT s.ctid FROM %1$s AS s WHERE s.%3$I OPERATOR(pg_catalog.=) which FOR NO KEY UPDATE SKIP LOCKED)', relation, texts[3], k);
	EXECUTE format($f$
		CREATE OR REPLACE FUNCTION escrow.row_%1$s(which %2$s, skips boolean, at_once boolean DEFAULT false) RETURNS xid
		LANGUAGE plpgsql SECURITY DEFINER SET search_path = "$user", public, pg_temp SET escrow.fold = on AS $body$
		DECLARE
			writer pg_catalog.xid;
		BEGIN
			IF at_once THEN
				BEGIN
					LOCK TABLE %4$s IN ROW EXCLUSIVE MODE NOWAIT;
				EXCEPTION WHEN lock_not_available THEN
					RETURN NULL;
				END;
			END IF;
			IF skips THEN
				%3$s RETURNING t.xmin INTO writer;
			END IF;
			IF writer IS NULL AND escrow.lock_%1$s(which, skips) IS NOT NULL THEN
				UPDATE %4$s AS t SET %5$s WHERE t.%6$I OPERATOR(pg_catalog.=) which RETURNING t.xmin INTO writer;
				IF writer IS NULL THEN
					RAISE EXCEPTION 'a trigger has kept a change of %% away', %7$L USING ERRCODE = 'triggered_data_change_violation';
				END IF;
			END IF;
			-- A SET of a trigger's outlives this function's own. Its callers have other rights.
			PERFORM pg_catalog.set_config('search_path', 'pg_catalog, pg_temp', true);
			RETURN writer;
		END
		$body$
	$f$, n, it.key_type, fold_text, relation, texts[3], k, (SELECT relname FROM pg_class WHERE oid = it.relation));
	EXECUTE format($f$
		CREATE OR REPLACE FUNCTION escrow.lock_%1$s(which %2$s, skips boolean) RETURNS text[]
		LANGUAGE plpgsql SECURITY DEFINER AS $body$
		DECLARE
			olds pg_catalog.text[];
		BEGIN
			IF skips THEN
				SELECT ARRAY[%5$s] INTO olds FROM %3$s AS t WHERE t.%4$I OPERATOR(pg_catalog.=) which FOR NO KEY UPDATE SKIP LOCKED;
			ELSE
				SELECT ARRAY[%5$s] INTO olds FROM %3$s AS t WHERE t.%4$I OPERATOR(pg_catalog.=) which FOR NO KEY UPDATE;
			END IF;
			RETURN olds;
		END
		$body$
	$f$, n, it.key_type, relation, k, texts[9]);
	EXECUTE format($f$
		CREATE OR REPLACE FUNCTION escrow.value_%1$s(which %2$s) RETURNS text[]
		LANGUAGE plpgsql SECURITY DEFINER SET search_path = pg_catalog, pg_temp AS $body$
		BEGIN
			RETURN (SELECT ARRAY[%3$s] FROM %4$s AS t WHERE t.%5$I = which);
		END
		$body$
	$f$, n, it.key_type, texts[9], relation, k);
	-- Which transaction or subtransaction has written the row.
	EXECUTE format($f$
		CREATE OR REPLACE FUNCTION escrow.writer_%1$s(which %2$s) RETURNS xid
		LANGUAGE plpgsql SECURITY DEFINER SET search_path = pg_catalog, pg_temp AS $body$
		BEGIN
			RETURN (SELECT t.xmin FROM %3$s AS t WHERE t.%4$I = which);
		END
		$body$
	$f$, n, it.key_type, relation, k);
	FOREACH kind IN ARRAY ARRAY['row', 'lock', 'value', 'writer'] LOOP
		EXECUTE format('ALTER FUNCTION escrow.%1$s_%2$s OWNER TO %3$s; REVOKE ALL ON FUNCTION escrow.%1$s_%2$s FROM PUBLIC; GRANT EXECUTE ON FUNCTION escrow.%1$s_%2$s TO escrow_journal',
			kind, n, proprietor);
	END LOOP;
	-- Rule 13. It locks nothing that somebody else has, and never raises: if something fails, it has folded nothing. What it
	-- does not fold is the folder's. Returns whether it has folded all. The timeout, the shortest that there is, is for locks that are
	-- not skipped: that of the table, and what triggers and foreign keys wait for. OTHERS has neither a cancel nor a failed ASSERT.
	EXECUTE format($f$
		CREATE OR REPLACE FUNCTION escrow.own_%1$s(keys text[], may_change boolean) RETURNS boolean
		LANGUAGE plpgsql SECURITY DEFINER SET search_path = "$user", public, pg_temp SET escrow.fold = on SET lock_timeout = '1ms' AS $body$
		DECLARE
			which %4$s;
			are_all boolean := true;
		BEGIN
			IF (pg_catalog.current_query() OPERATOR(pg_catalog.=) %2$L AND may_change
				AND pg_catalog.current_setting('transaction_isolation') OPERATOR(pg_catalog.=) 'read committed') IS NOT TRUE THEN
				RETURN false;
			END IF;
			FOREACH which IN ARRAY keys::%4$s[] LOOP
				%3$s;
				are_all := FOUND AND are_all;
			END LOOP;
			RETURN are_all;
		EXCEPTION WHEN OTHERS OR query_canceled OR assert_failure THEN
			RETURN false;
		END
		$body$
	$f$, n, own_call, fold_text, key_cast);
	EXECUTE format('ALTER FUNCTION escrow.own_%s OWNER TO %s', n, proprietor);
	EXECUTE format($f$
		CREATE OR REPLACE FUNCTION escrow.fold_%1$s(keys text[]) RETURNS SETOF text
		LANGUAGE plpgsql SECURITY DEFINER SET search_path = pg_catalog, pg_temp AS $body$
		DECLARE
			which text;
		BEGIN
			IF current_setting('transaction_isolation') <> 'read committed' THEN
				RAISE EXCEPTION 'a fold needs READ COMMITTED' USING ERRCODE = 'invalid_transaction_state';
			END IF;
			FOREACH which IN ARRAY keys LOOP
				-- Nothing is left of a row that somebody else has folded, or that is deleted since.
				IF escrow.row_%1$s(which::%2$s, true) IS NOT NULL OR NOT EXISTS (SELECT FROM escrow.journal_%1$s AS j WHERE j.key = which::%2$s) THEN
					RETURN NEXT which;
				END IF;
			END LOOP;
		END
		$body$
	$f$, n, it.key_type);
	-- Rule 16. Changes a row that this transaction has locked, or that nobody has, if no proxy holds it. Returns whether it
	-- did, and null if this transaction sees no such row, as one that it has deleted itself. In REPEATABLE READ a mark or a row of the journal may be there unseen. If they came behind the snapshot, the row
	-- was written anew, and its lock raises 40001; with a mark from before it is left alone.
	EXECUTE format($f$
		CREATE OR REPLACE FUNCTION escrow.here_%1$s(epoch bigint, number bigint, key text, changes text[], proof bytea, allowed boolean[], is_meant boolean)
		RETURNS boolean
		LANGUAGE plpgsql SECURITY DEFINER SET search_path = pg_catalog, pg_temp AS $body$
		DECLARE
			which %2$s := key::%2$s;
		BEGIN
			IF current_query() IS DISTINCT FROM (SELECT here_text FROM escrow.declared AS d WHERE d.number = %1$s)
				OR proof IS DISTINCT FROM escrow.mac('here', '%1$s', epoch::text, pg_backend_pid()::text, number::text,
					octet_length(key)::text, key, array_to_string(changes, ',', ''))
				OR proof IS NULL OR escrow.is_fresh(number) IS NOT TRUE THEN
				RAISE EXCEPTION 'escrow.here is for escrowd-proxy' USING ERRCODE = 'insufficient_privilege';
			END IF;
			PERFORM escrow.refuse_other(%4$L, is_meant);
			FOR i IN 1 .. cardinality(changes) LOOP
				IF changes[i] IS NOT NULL AND allowed[i] IS NOT TRUE THEN
					RAISE EXCEPTION 'permission denied for table %%', %4$L USING ERRCODE = 'insufficient_privilege';
				END IF;
			END LOOP;
			IF escrow.lock_%1$s(which, true) IS NULL THEN
				RETURN CASE WHEN escrow.value_%1$s(which) IS NOT NULL THEN false END;
			END IF;
			-- Rules 7 and 10, as a note: a new owner looks for holders of the journal behind its epoch. Until they have ended,
			-- marks of the former epoch are those of rows that somebody may still have reserved.
			LOCK TABLE escrow.journal_%1$s IN ROW EXCLUSIVE MODE;
			IF here_%1$s.epoch IS DISTINCT FROM (SELECT last_value FROM escrow.epoch) OR NOT escrow.is_live(here_%1$s.epoch) THEN
				PERFORM escrow.refuse_stale();
			END IF;
			IF current_setting('transaction_isolation') = 'read committed' THEN
				IF EXISTS (SELECT FROM escrow.held_%1$s AS h WHERE h.key = which AND h.epoch = here_%1$s.epoch) OR escrow.is_held(%1$s, %6$s) THEN
					RETURN false;
				END IF;
			ELSIF EXISTS (SELECT FROM escrow.held_%1$s AS h WHERE h.key = which) OR EXISTS (SELECT FROM escrow.journal_%1$s AS j WHERE j.key = which) THEN
				RETURN false;
			END IF;
			INSERT INTO escrow.journal_%1$s (epoch, tag, number, key, %5$s) VALUES (here_%1$s.epoch, here_%1$s.number, here_%1$s.number, which, %3$s);
			-- It may wait for the table's lock. Only the fold has the CHECKs judge this change.
			PERFORM escrow.row_%1$s(which, false);
			PERFORM set_config('escrow.here', pg_current_xact_id()::text, true); -- for escrow.hold
			RETURN true;
		END
		$body$
	$f$, n, it.key_type, texts[1], (SELECT relname FROM pg_class WHERE oid = it.relation), texts[10], escrow.key_text(it.key_type, 'which'));
	EXECUTE format('ALTER FUNCTION escrow.here_%s OWNER TO escrow_journal', n);
	-- Rule 14. Returns the row's values, or nothing if there is no such row. A load that comes late, since its connection was
	-- lost, may find the mark of a later one, and leaves its number alone.
	EXECUTE format($f$
		CREATE OR REPLACE FUNCTION escrow.load_%1$s(epoch bigint, number bigint, which text) RETURNS text[]
		LANGUAGE plpgsql SECURITY DEFINER SET search_path = pg_catalog, pg_temp AS $body$
		BEGIN
			IF current_setting('transaction_isolation') <> 'read committed' THEN
				RAISE EXCEPTION 'a load needs READ COMMITTED' USING ERRCODE = 'invalid_transaction_state';
			END IF;
			-- A cast to a type with a size cuts a text, and rounds a number: then it would be another row's key.
			IF which::%3$s IS DISTINCT FROM which::%2$s OR escrow.row_%1$s(which::%2$s, false) IS NULL THEN
				RETURN NULL;
			END IF;
			INSERT INTO escrow.held_%1$s AS h (key, epoch, load) VALUES (which::%2$s, load_%1$s.epoch, load_%1$s.number)
			ON CONFLICT ON CONSTRAINT held_%1$s_pkey DO UPDATE SET epoch = excluded.epoch,
				load = CASE WHEN h.epoch = excluded.epoch THEN greatest(h.load, excluded.load) ELSE excluded.load END;
			IF load_%1$s.epoch IS DISTINCT FROM (SELECT last_value FROM escrow.epoch) THEN
				PERFORM escrow.refuse_stale();
			END IF;
			RETURN escrow.value_%1$s(which::%2$s);
		END
		$body$
	$f$, n, it.key_type, plain_type);
	-- Folds keys that were held in former epochs, at most so many, and removes their marks. It leaves out rows that are
	-- locked. Returns how many it has done, and -1 if all that are left are locked. The take locks the journal before the epoch
	-- is tested, so a new owner ends a sweep of the former one before it makes marks (rules 7 and 9).
	EXECUTE format($f$
		CREATE OR REPLACE FUNCTION escrow.sweep_%1$s(epoch bigint, most integer) RETURNS integer
		LANGUAGE plpgsql SECURITY DEFINER SET search_path = pg_catalog, pg_temp AS $body$
		DECLARE
			which %2$s;
			done integer := 0;
			is_locked boolean := false;
		BEGIN
			IF current_setting('transaction_isolation') <> 'read committed' THEN
				RAISE EXCEPTION 'a fold needs READ COMMITTED' USING ERRCODE = 'invalid_transaction_state';
			END IF;
			LOCK TABLE escrow.journal_%1$s IN ROW EXCLUSIVE MODE;
			IF sweep_%1$s.epoch IS DISTINCT FROM (SELECT last_value FROM escrow.epoch) THEN
				PERFORM escrow.refuse_stale();
			END IF;
			-- A mark stays while a hold of its row stands.
			FOR which IN SELECT h.key FROM escrow.held_%1$s AS h WHERE h.epoch <> sweep_%1$s.epoch
				AND (NOT EXISTS (SELECT FROM escrow.hold_lines AS l WHERE l."table" = %1$s AND l.key = %3$s AND l.stands)
					OR EXISTS (SELECT FROM escrow.journal_%1$s AS j WHERE j.key = h.key))
				ORDER BY h.key LIMIT most
			LOOP
				IF escrow.row_%1$s(which, true) IS NOT NULL THEN
					DELETE FROM escrow.held_%1$s AS h WHERE h.key = which AND h.epoch <> sweep_%1$s.epoch AND NOT escrow.is_held(%1$s, %3$s);
					done := done + 1;
				ELSE
					is_locked := true;
				END IF;
			END LOOP;
			RETURN CASE WHEN done = 0 AND is_locked THEN -1 ELSE done END;
		END
		$body$
	$f$, n, it.key_type, escrow.key_text(it.key_type, 'h.key'));
	-- The key is no longer held. The caller knows that nothing of it is open, but for holds: their mark stays. The epoch is tested as
	-- in a sweep; so a mark of another epoch is a former one's, of a row that was held while its hold stood. The connection of the
	-- caller may be lost before this runs, and the row loaded again: the mark of a load with a later number stays. Nothing is written
	-- of a row that has neither a mark nor anything pending.
	EXECUTE format($f$
		CREATE OR REPLACE FUNCTION escrow.leave_%1$s(epoch bigint, number bigint, which text) RETURNS boolean
		LANGUAGE plpgsql SECURITY DEFINER SET search_path = pg_catalog, pg_temp AS $body$
		BEGIN
			LOCK TABLE escrow.journal_%1$s IN ROW EXCLUSIVE MODE;
			IF leave_%1$s.epoch IS DISTINCT FROM (SELECT last_value FROM escrow.epoch) THEN
				PERFORM escrow.refuse_stale();
			END IF;
			-- As in a load: the text may be no key.
			IF which::%4$s IS DISTINCT FROM which::%2$s OR NOT EXISTS (SELECT FROM escrow.held_%1$s AS h WHERE h.key = which::%2$s)
				AND NOT EXISTS (SELECT FROM escrow.journal_%1$s AS j WHERE j.key = which::%2$s) THEN
				RETURN true;
			ELSIF escrow.row_%1$s(which::%2$s, true) IS NULL THEN
				RETURN false;
			END IF;
			DELETE FROM escrow.held_%1$s AS h WHERE h.key = which::%2$s AND (h.epoch <> leave_%1$s.epoch OR h.load < leave_%1$s.number)
				AND NOT escrow.is_held(%1$s, %3$s);
			RETURN true;
		END
		$body$
	$f$, n, it.key_type, escrow.key_text(it.key_type, 'h.key'), plain_type);
	FOREACH kind IN ARRAY ARRAY['fold', 'load', 'leave', 'sweep'] LOOP
		EXECUTE format('ALTER FUNCTION escrow.%1$s_%2$s OWNER TO escrow_journal; REVOKE ALL ON FUNCTION escrow.%1$s_%2$s FROM PUBLIC', kind, n);
	END LOOP;
	EXECUTE format('GRANT EXECUTE ON FUNCTION escrow.fold_%1$s, escrow.load_%1$s, escrow.leave_%1$s, escrow.sweep_%1$s TO escrow_proxy', n);

	-- Rules 11, 15 and 16. It fires last of all triggers before an UPDATE of a row, so what it decides stays. A statement that
	-- changes neither key nor reservable columns may ask it for a fold; then it takes all of the row's key out of the journal
	-- and adds it. A row that this transaction has written itself may be changed by its own UPDATE if nobody holds it; and so
	-- may the key of any row. A scan of the journal's index forgets dead entries, and other plans do not. It folds no other
	-- table: nobody may execute it, so nobody can make a trigger of it, and it asks for the name.
	EXECUTE (SELECT format($f$
		CREATE OR REPLACE FUNCTION escrow.guard_%1$s() RETURNS trigger
		LANGUAGE plpgsql SECURITY DEFINER SET plan_cache_mode = force_generic_plan SET enable_seqscan = off SET enable_bitmapscan = off AS $body$
		DECLARE
			folds boolean := (pg_catalog.current_setting('escrow.fold', true) OPERATOR(pg_catalog.=) 'on'
				AND TG_TABLE_NAME OPERATOR(pg_catalog.=) %7$L AND TG_TABLE_SCHEMA OPERATOR(pg_catalog.=) %8$L) IS TRUE;
		BEGIN
			IF OLD.%2$I OPERATOR(pg_catalog.=) NEW.%2$I AND %3$s THEN
				IF folds THEN
					WITH taken AS (DELETE FROM escrow.journal_%1$s AS j WHERE j.key OPERATOR(pg_catalog.=) OLD.%2$I RETURNING %4$s)
					SELECT %5$s INTO %6$s FROM taken;
				END IF;
				RETURN NEW;
			END IF;
			IF (OLD.%2$I OPERATOR(pg_catalog.=) NEW.%2$I AND %3$s) IS NULL THEN
				RETURN NEW; -- PostgreSQL refuses a NULL in these columns
			END IF;
			IF NOT (%3$s) AND (folds OR NOT escrow.is_own(OLD.xmin)) THEN
				RAISE EXCEPTION 'reservable columns of %% are changed by escrowd-proxy alone', TG_TABLE_NAME
					USING ERRCODE = 'feature_not_supported', SCHEMA = TG_TABLE_SCHEMA, TABLE = TG_TABLE_NAME,
						HINT = escrow.form();
			END IF;
			IF EXISTS (SELECT FROM escrow.held_%1$s AS h WHERE h.key OPERATOR(pg_catalog.=) OLD.%2$I)
				OR EXISTS (SELECT FROM escrow.journal_%1$s AS j WHERE j.key OPERATOR(pg_catalog.=) OLD.%2$I) THEN
				RAISE EXCEPTION 'the row of %% is held by escrowd-proxy', TG_TABLE_NAME
					USING ERRCODE = 'object_in_use', SCHEMA = TG_TABLE_SCHEMA, TABLE = TG_TABLE_NAME,
						DETAIL = pg_catalog.format('The key is %%s.', OLD.%2$I), HINT = CASE WHEN %3$s THEN 'Repeat it through escrowd-proxy, which leaves a row that nobody has reserved.'
							ELSE escrow.form() END;
			END IF;
			PERFORM pg_catalog.set_config('escrow.inserted', pg_catalog.pg_current_xact_id()::pg_catalog.text, true); -- for escrow.hold
			RETURN NEW;
		END
		$body$
	$f$, n, k, texts[5], texts[10], texts[2], texts[6], c.relname, s.nspname) FROM pg_class AS c JOIN pg_namespace AS s ON s.oid = c.relnamespace
		WHERE c.oid = it.relation);
	EXECUTE format($f$
		CREATE OR REPLACE FUNCTION escrow.keep_%1$s() RETURNS trigger
		LANGUAGE plpgsql SECURITY DEFINER SET search_path = pg_catalog, pg_temp AS $body$
		BEGIN
			IF EXISTS (SELECT FROM escrow.held_%1$s WHERE key = OLD.%2$I) OR EXISTS (SELECT FROM escrow.journal_%1$s WHERE key = OLD.%2$I) THEN
				RAISE EXCEPTION 'the row of %% is held by escrowd-proxy', TG_TABLE_NAME
					USING ERRCODE = 'object_in_use', SCHEMA = TG_TABLE_SCHEMA, TABLE = TG_TABLE_NAME,
						DETAIL = format('The key is %%s.', OLD.%2$I), HINT = 'Repeat it through escrowd-proxy, which leaves a row that nobody has reserved.';
			END IF;
			RETURN NULL;
		END
		$body$
	$f$, n, k);
	EXECUTE format('ALTER FUNCTION escrow.guard_%1$s OWNER TO escrow_journal; ALTER FUNCTION escrow.keep_%1$s OWNER TO escrow_journal', n);
	-- The guard has no condition, since PostgreSQL reads that anew for each statement.
	EXECUTE format($f$
		CREATE OR REPLACE TRIGGER "~escrow guard" BEFORE UPDATE ON %1$s FOR EACH ROW EXECUTE FUNCTION escrow.guard_%2$s();
		CREATE OR REPLACE TRIGGER "escrow delete" AFTER DELETE ON %1$s FOR EACH ROW EXECUTE FUNCTION escrow.keep_%2$s();
		CREATE OR REPLACE TRIGGER "escrow truncate" BEFORE TRUNCATE ON %1$s FOR EACH STATEMENT EXECUTE FUNCTION escrow.refuse_truncate()
	$f$, relation, n);
	EXECUTE (SELECT string_agg(format('ALTER TABLE %s ENABLE ALWAYS TRIGGER %I', relation, t), '; ')
		FROM unnest(ARRAY['~escrow guard', 'escrow delete', 'escrow truncate']) AS t);

	-- Key and reservable columns with what is pending, in one snapshot. Its owner may grant it. It has no other columns, so
	-- that these can be altered.
	view_name := format('escrow.%I', 'now_' || (SELECT relname FROM pg_class WHERE oid = it.relation));
	IF to_regclass(view_name) IS NOT NULL AND to_regclass(view_name) IS DISTINCT FROM escrow.now_view(n) THEN
		view_name := format('escrow.%I', 'now_' || n);
	END IF;
	EXECUTE format($f$
		CREATE OR REPLACE VIEW %1$s AS SELECT t.%6$I, %2$s FROM %3$s AS t
		LEFT JOIN LATERAL (SELECT %4$s FROM escrow.journal_%5$s AS j WHERE j.key = t.%6$I) AS j ON true
	$f$, view_name, texts[7], relation, texts[8], n, k);
	EXECUTE format('ALTER VIEW %1$s OWNER TO %2$s; COMMENT ON VIEW %1$s IS %3$L', view_name, proprietor, n);
	PERFORM escrow.generate_holds(it);
	PERFORM escrow.take_rights(format('^(journal|held|row|lock|value|writer|fold|load|leave|sweep|hold|apply|open|guard|keep)_%s$', n));
	EXECUTE format('GRANT SELECT ON escrow.journal_%s TO %s', n, proprietor); -- for the view
	UPDATE escrow.declared AS d SET definition = (escrow.describe(it.relation, names)).definition WHERE d.number = n;
END
$$;

-- HOLDS. A transaction moves its own rows of the journals into lines of a hold, and a later one moves them back. So a
-- journal has just what is committed, and a line what somebody may still commit. A line that has ended stays until the
-- owner has seen it: by it the owner knows what became of a note.

-- Whether a standing hold has a line of a row.
CREATE OR REPLACE FUNCTION escrow.is_held(table_number integer, which text) RETURNS boolean
LANGUAGE sql STABLE SET search_path = pg_catalog, pg_temp AS $$
	SELECT EXISTS (SELECT FROM escrow.hold_lines AS l WHERE l."table" = table_number AND l.key = which AND l.stands)
$$;
ALTER FUNCTION escrow.is_held OWNER TO escrow_journal;
REVOKE ALL ON FUNCTION escrow.is_held FROM PUBLIC;

-- Refuses a time that does not lie ahead. PostgreSQL compares intervals as if each month had 30 days.
CREATE OR REPLACE FUNCTION escrow.end_of_hold(lasting interval) RETURNS timestamptz LANGUAGE plpgsql SET search_path = pg_catalog, pg_temp AS $$
DECLARE
	clock timestamptz := clock_timestamp();
BEGIN
	IF (clock + lasting > clock) IS NOT TRUE THEN
		RAISE EXCEPTION 'a hold needs a time above 0' USING ERRCODE = 'invalid_parameter_value';
	END IF;
	RETURN clock + lasting;
END
$$;

-- Turns what its transaction has reserved so far into a hold. Returns until when it stands. The proxy asks for lines at the
-- end of a transaction only if this connection has sent the function's name.
CREATE OR REPLACE FUNCTION escrow.hold(name text, lasting interval) RETURNS timestamptz
LANGUAGE plpgsql SECURITY DEFINER SET search_path = pg_catalog, pg_temp AS $$
DECLARE
	made bigint;
	ends timestamptz := escrow.end_of_hold(lasting);
	n integer;
	moved integer;
	count integer := 0;
BEGIN
	IF (position('escrow.hold' IN lower(current_query() COLLATE "C")) > 0) IS NOT TRUE THEN
		RAISE EXCEPTION 'escrow.hold is not named in the statement of the client' USING ERRCODE = 'feature_not_supported',
			HINT = 'If a function calls it, name it in a comment: SELECT checkout() /* escrow.hold */.';
	ELSIF (octet_length(name) BETWEEN 1 AND 200) IS NOT TRUE THEN
		RAISE EXCEPTION 'the name of a hold has 1 to 200 bytes' USING ERRCODE = 'invalid_parameter_value';
	ELSIF current_setting('escrow.inserted', true) = pg_current_xact_id_if_assigned()::text THEN
		RAISE EXCEPTION 'this transaction has changed a row that it has inserted, and that cannot be held' USING ERRCODE = 'feature_not_supported';
	ELSIF current_setting('escrow.here', true) = pg_current_xact_id_if_assigned()::text THEN
		RAISE EXCEPTION 'this transaction has changed a row without a reservation, and that cannot be held' USING ERRCODE = 'serialization_failure',
			DETAIL = 'The row was locked, by this transaction or by another.', HINT = 'Repeat the transaction. Reserve before you lock the row.';
	END IF;
	PERFORM escrow.forbid_prepare();
	INSERT INTO escrow.hold_names (name, maker, since, until) VALUES (hold.name, escrow.caller(), clock_timestamp(), ends)
	ON CONFLICT DO NOTHING RETURNING number INTO made;
	IF made IS NULL THEN
		RAISE EXCEPTION 'hold "%" stands already', name USING ERRCODE = 'unique_violation';
	END IF;
	FOR n IN SELECT d.number FROM escrow.declared AS d ORDER BY d.number LOOP
		EXECUTE format('SELECT escrow.hold_%s($1)', n) INTO moved USING made;
		count := count + moved;
	END LOOP;
	IF count = 0 THEN
		RAISE EXCEPTION 'this transaction has reserved nothing that could be held' USING ERRCODE = 'object_not_in_prerequisite_state';
	END IF;
	RETURN ends;
END
$$;

-- Locks a standing hold, and returns it. Raises unless it stands and the caller may use it: as its maker, or as the owner
-- of one of its tables, if that is enough. Holds that have ended have codes of their own.
CREATE OR REPLACE FUNCTION escrow.standing(name text, may_own boolean) RETURNS escrow.hold_names
LANGUAGE plpgsql SET search_path = pg_catalog, pg_temp AS $$
DECLARE
	asker regrole := escrow.caller();
	it escrow.hold_names;
BEGIN
	-- Who had its lock may have taken it and held again under the same name. That hold came behind the snapshot.
	LOOP
		SELECT * INTO it FROM escrow.hold_names AS h WHERE h.name = standing.name AND h.state = 'standing' FOR UPDATE;
		EXIT WHEN it.number IS NOT NULL OR NOT EXISTS (SELECT FROM escrow.hold_names AS h WHERE h.name = standing.name AND h.state = 'standing');
	END LOOP;
	IF it.number IS NULL THEN
		SELECT * INTO it FROM escrow.hold_names AS h WHERE h.name = standing.name AND h.state <> 'standing' ORDER BY h.number DESC LIMIT 1;
	END IF;
	IF it.number IS NULL THEN
		RAISE EXCEPTION 'hold "%" does not exist', name USING ERRCODE = 'undefined_object';
	ELSIF NOT pg_has_role(asker, it.maker, 'USAGE') AND NOT (may_own AND EXISTS (
			SELECT FROM escrow.hold_lines AS l JOIN escrow.declared AS d ON d.number = l."table" JOIN pg_class AS c ON c.oid = d.relation
			WHERE l.hold = it.number AND pg_has_role(asker, c.relowner, 'USAGE'))) THEN
		RAISE EXCEPTION 'permission denied for hold "%"', name USING ERRCODE = 'insufficient_privilege', DETAIL = format('It is of the role %s.', it.maker);
	ELSIF it.state = 'taken' THEN
		RAISE EXCEPTION 'hold "%" was taken already', name USING ERRCODE = '55H01';
	ELSIF it.state = 'released' THEN
		RAISE EXCEPTION 'hold "%" was released', name USING ERRCODE = '55H02';
	ELSIF it.state = 'expired' OR it.until <= clock_timestamp() THEN
		RAISE EXCEPTION 'the time of hold "%" is over', name USING ERRCODE = '55H03';
	END IF;
	RETURN it;
END
$$;
ALTER FUNCTION escrow.standing OWNER TO escrow_journal;
REVOKE ALL ON FUNCTION escrow.standing FROM PUBLIC;

-- Ends the lines of a hold, and applies of each change so much, or all of it. Returns how many lines it were.
CREATE OR REPLACE FUNCTION escrow.take_hold(name text, part numeric) RETURNS integer
LANGUAGE plpgsql SET search_path = pg_catalog, pg_temp AS $$
DECLARE
	it escrow.hold_names := escrow.standing(name, false);
	asker regrole := escrow.caller();
	refused regclass;
	sizes integer;
	size numeric;
	digits integer;
	n integer;
	count integer;
BEGIN
	PERFORM escrow.forbid_prepare();
	SELECT min(d.relation::oid)::regclass INTO refused
	FROM escrow.hold_lines AS l JOIN escrow.declared AS d ON d.number = l."table"
	CROSS JOIN LATERAL jsonb_array_elements(d.columns) WITH ORDINALITY AS c (it, place)
	WHERE l.hold = it.number AND l.changes[c.place] <> 0
		AND NOT has_column_privilege(asker, d.relation, (c.it->>'place')::smallint, 'UPDATE');
	IF refused IS NOT NULL THEN
		RAISE EXCEPTION 'permission denied for table %', refused USING ERRCODE = 'insufficient_privilege';
	END IF;
	IF part IS NOT NULL THEN
		SELECT count(DISTINCT abs(l.changes[c.place])), max(abs(l.changes[c.place])), min((c.it->>'scale')::integer) INTO sizes, size, digits
		FROM escrow.hold_lines AS l JOIN escrow.declared AS d ON d.number = l."table"
		CROSS JOIN LATERAL jsonb_array_elements(d.columns) WITH ORDINALITY AS c (it, place)
		WHERE l.hold = it.number AND l.changes[c.place] <> 0;
		IF sizes <> 1 THEN
			RAISE EXCEPTION 'hold "%" has changes of several sizes, so no part of it can be taken', name USING ERRCODE = 'invalid_parameter_value';
		ELSIF NOT (part > 0 AND part <= size) OR scale(trim_scale(part)) > digits THEN
			RAISE EXCEPTION '% is no part of hold "%"', part, name USING ERRCODE = 'invalid_parameter_value',
				DETAIL = format('A part of it is above 0, at most %s, and has at most %s digits behind its point.', size, digits);
		END IF;
	END IF;
	UPDATE escrow.hold_names AS h SET state = 'taken', ended = clock_timestamp() WHERE h.number = it.number;
	UPDATE escrow.hold_lines AS l SET stands = false, taken = CASE WHEN part IS NULL THEN l.changes
		ELSE ARRAY(SELECT sign(c) * part FROM unnest(l.changes) WITH ORDINALITY AS u (c, place) ORDER BY place) END
	WHERE l.hold = it.number;
	GET DIAGNOSTICS count = ROW_COUNT;
	FOR n IN SELECT DISTINCT l."table" FROM escrow.hold_lines AS l WHERE l.hold = it.number ORDER BY 1 LOOP
		EXECUTE format('SELECT escrow.apply_%s($1)', n) USING it.number;
	END LOOP;
	RETURN count;
END
$$;
ALTER FUNCTION escrow.take_hold OWNER TO escrow_journal;
REVOKE ALL ON FUNCTION escrow.take_hold FROM PUBLIC;

-- Applies a hold with this transaction's COMMIT. Returns how many reservations it had.
CREATE OR REPLACE FUNCTION escrow.take(name text) RETURNS integer
LANGUAGE plpgsql SECURITY DEFINER SET search_path = pg_catalog, pg_temp AS $$
BEGIN
	RETURN escrow.take_hold(name, NULL);
END
$$;

-- Applies so much of each change of a hold, whose changes have one size. The rest is free at the COMMIT.
CREATE OR REPLACE FUNCTION escrow.take(name text, part numeric) RETURNS integer
LANGUAGE plpgsql SECURITY DEFINER SET search_path = pg_catalog, pg_temp AS $$
BEGIN
	IF part IS NULL THEN
		RAISE EXCEPTION 'the part of a hold is NULL' USING ERRCODE = 'null_value_not_allowed';
	END IF;
	RETURN escrow.take_hold(name, part);
END
$$;

-- Drops a hold. Returns false if it was released before, or its time was over.
CREATE OR REPLACE FUNCTION escrow.release(name text) RETURNS boolean
LANGUAGE plpgsql SECURITY DEFINER SET search_path = pg_catalog, pg_temp AS $$
DECLARE
	it escrow.hold_names;
BEGIN
	it := escrow.standing(name, true);
	UPDATE escrow.hold_names AS h SET state = 'released', ended = clock_timestamp() WHERE h.number = it.number;
	UPDATE escrow.hold_lines AS l SET stands = false WHERE l.hold = it.number;
	RETURN true;
EXCEPTION WHEN SQLSTATE '55H02' OR SQLSTATE '55H03' THEN
	RETURN false;
END
$$;

-- Lets a hold stand for so long from now, if it does not stand longer. Returns until when it stands.
CREATE OR REPLACE FUNCTION escrow.prolong(name text, lasting interval) RETURNS timestamptz
LANGUAGE plpgsql SECURITY DEFINER SET search_path = pg_catalog, pg_temp AS $$
DECLARE
	it escrow.hold_names := escrow.standing(name, false);
BEGIN
	UPDATE escrow.hold_names AS h SET until = greatest(h.until, escrow.end_of_hold(lasting)) WHERE h.number = it.number RETURNING h.until INTO it.until;
	RETURN it.until;
END
$$;
ALTER FUNCTION escrow.hold OWNER TO escrow_journal;
ALTER FUNCTION escrow.take(text) OWNER TO escrow_journal;
ALTER FUNCTION escrow.take(text, numeric) OWNER TO escrow_journal;
ALTER FUNCTION escrow.release OWNER TO escrow_journal;
ALTER FUNCTION escrow.prolong OWNER TO escrow_journal;

-- Holds that stand, one row for each change of a column: those of the caller's roles, or all for members of pg_monitor.
CREATE OR REPLACE VIEW escrow.holds WITH (security_barrier) AS
	SELECT h.name, d.relation, l.key, (c.it->>'name')::name AS "column", l.changes[c.place] AS change, h.since, h.until, h.maker
	FROM escrow.hold_names AS h JOIN escrow.hold_lines AS l ON l.hold = h.number JOIN escrow.declared AS d ON d.number = l."table"
	CROSS JOIN LATERAL jsonb_array_elements(d.columns) WITH ORDINALITY AS c (it, place)
	WHERE h.state = 'standing' AND l.changes[c.place] <> 0
		AND (pg_has_role(h.maker, 'USAGE') OR pg_has_role('pg_monitor', 'USAGE') OR pg_has_role('escrow_proxy', 'USAGE'));
ALTER VIEW escrow.holds OWNER TO escrow_journal;
GRANT SELECT ON escrow.holds TO PUBLIC;

-- What the owner looks at. It forgets these lines, which have ended, and ends holds whose time is over, as many as take little
-- time. Returns the lines of the notes of its epoch with these numbers, all of them, and others that have ended. It waits for
-- no lock for long (rule 21). It takes lines and holds one by one, since a plan for all at once may compare each with each.
CREATE OR REPLACE FUNCTION escrow.look(owner bigint, epochs bigint[], forgotten bigint[], numbers bigint[])
RETURNS TABLE (epoch bigint, number bigint, "table" integer, key text, stands boolean, taken text[])
LANGUAGE plpgsql SECURITY DEFINER SET search_path = pg_catalog, pg_temp SET lock_timeout = '100ms' AS $$
DECLARE
	clock timestamptz := clock_timestamp(); -- no index serves a comparison with the function
	over bigint;
	room integer := 2000;
	gone integer;
BEGIN
	IF owner IS DISTINCT FROM (SELECT last_value FROM escrow.epoch) THEN
		PERFORM escrow.refuse_stale();
	END IF;
	-- If one of these commits is lost, so is whatever came behind it.
	PERFORM set_config('synchronous_commit', 'off', true);
	FOR i IN 1 .. cardinality(forgotten) LOOP
		DELETE FROM escrow.hold_lines AS l WHERE l.number = forgotten[i] AND l.epoch = epochs[i] AND NOT l.stands;
	END LOOP;
	-- Nobody can take or prolong a hold whose time is over, so one of many lines may end in parts. Then its time is over by the clock of
	-- any standby too, which may be promoted and late.
	FOR over IN SELECT h.number FROM escrow.hold_names AS h WHERE h.state = 'standing' AND h.until <= clock
		ORDER BY h.until LIMIT room FOR UPDATE SKIP LOCKED
	LOOP
		UPDATE escrow.hold_lines AS l SET stands = false
		WHERE l.ctid = ANY (ARRAY(SELECT s.ctid FROM escrow.hold_lines AS s WHERE s.hold = over AND s.stands LIMIT room));
		GET DIAGNOSTICS gone = ROW_COUNT;
		room := room - gone;
		IF room = 0 THEN
			UPDATE escrow.hold_names AS h SET until = '-infinity' WHERE h.number = over;
			EXIT;
		END IF;
		UPDATE escrow.hold_names AS h SET state = 'expired', ended = clock WHERE h.number = over;
		EXIT WHEN clock_timestamp() > clock + interval '500 milliseconds';
	END LOOP;
	DELETE FROM escrow.hold_names AS h WHERE h.number IN (
		SELECT i.number FROM escrow.hold_names AS i WHERE i.state <> 'standing' AND i.ended < clock - interval '1 day' LIMIT 500);
	RETURN QUERY SELECT l.epoch, l.number, l."table", l.key, l.stands, l.taken::text[] FROM escrow.hold_lines AS l
		WHERE l.number = ANY (numbers) AND l.epoch = owner
		UNION ALL (SELECT l.epoch, l.number, l."table", l.key, l.stands, l.taken::text[] FROM escrow.hold_lines AS l
			WHERE NOT l.stands AND (l.epoch <> owner OR l.number <> ALL (numbers)) ORDER BY l.number LIMIT 2000);
END
$$;
ALTER FUNCTION escrow.look OWNER TO escrow_journal;
REVOKE ALL ON FUNCTION escrow.look FROM PUBLIC;
GRANT EXECUTE ON FUNCTION escrow.look TO escrow_proxy;

-- Creates or replaces what a declared table has for holds.
CREATE OR REPLACE FUNCTION escrow.generate_holds(it escrow.declared) RETURNS void
LANGUAGE plpgsql SET search_path = pg_catalog, pg_temp AS $$
DECLARE
	n integer := it.number;
	places integer[] := ARRAY(SELECT generate_series(1, jsonb_array_length(it.columns)));
	kind text;
BEGIN
	-- Moves the transaction's own rows of the journal into lines. Returns how many. A line that the transaction has taken
	-- gets the new hold.
	EXECUTE format($f$
		CREATE OR REPLACE FUNCTION escrow.hold_%1$s(hold bigint) RETURNS integer
		LANGUAGE plpgsql SECURITY DEFINER SET search_path = pg_catalog, pg_temp AS $body$
		DECLARE
			gone integer;
			held integer;
		BEGIN
			WITH gone AS (
				DELETE FROM escrow.journal_%1$s AS j WHERE age(j.xmin) <= 0 AND escrow.is_own(j.xmin) AND (%2$s)
				RETURNING j.epoch, j.number, %3$s AS key, ARRAY[%4$s] AS changes
			), held AS (
				INSERT INTO escrow.hold_lines AS l (epoch, number, hold, "table", key, changes)
				SELECT g.epoch, g.number, hold_%1$s.hold, %1$s, g.key, g.changes FROM gone AS g
				ON CONFLICT ON CONSTRAINT hold_lines_pkey DO UPDATE SET hold = excluded.hold, stands = true, taken = NULL
					WHERE l.changes = excluded.changes
				RETURNING 1
			)
			SELECT (SELECT count(*) FROM gone), (SELECT count(*) FROM held) INTO gone, held;
			IF gone <> held THEN
				RAISE EXCEPTION 'what this transaction has taken in part cannot be held again' USING ERRCODE = 'feature_not_supported';
			END IF;
			RETURN held;
		END
		$body$
	$f$, n, (SELECT string_agg(format('j.change_%s <> 0', i), ' OR ') FROM unnest(places) AS i), escrow.key_text(it.key_type, 'j.key'),
		(SELECT string_agg('j.change_' || i, ', ') FROM unnest(places) AS i));
	-- Moves what is taken of a hold into the journal.
	EXECUTE format($f$
		CREATE OR REPLACE FUNCTION escrow.apply_%1$s(hold bigint) RETURNS void
		LANGUAGE plpgsql SECURITY DEFINER SET search_path = pg_catalog, pg_temp AS $body$
		BEGIN
			INSERT INTO escrow.journal_%1$s (epoch, tag, number, key, %2$s)
			SELECT l.epoch, l.number, l.number, l.key::%3$s, %4$s FROM escrow.hold_lines AS l WHERE l.hold = apply_%1$s.hold AND l."table" = %1$s;
		END
		$body$
	$f$, n, (SELECT string_agg('change_' || i, ', ') FROM unnest(places) AS i), it.key_type,
		(SELECT string_agg(format('l.taken[%s]', i), ', ') FROM unnest(places) AS i));
	-- Loads a row with the lines of it that stand. What is in the journal by the snapshot that shows the lines counts in the
	-- row's values: so a hold that somebody takes meanwhile is a line or a part of the values, and never both.
	EXECUTE format($f$
		CREATE OR REPLACE FUNCTION escrow.open_%1$s(epoch bigint, number bigint, which text, OUT loaded text[], OUT epochs bigint[], OUT numbers bigint[], OUT changes text[])
		LANGUAGE plpgsql SECURITY DEFINER SET search_path = pg_catalog, pg_temp AS $body$
		BEGIN
			loaded := escrow.load_%1$s(epoch, open_%1$s.number, which);
			IF loaded IS NULL THEN
				RETURN;
			END IF;
			SELECT j.loaded, l.epochs, l.numbers, l.changes INTO loaded, epochs, numbers, changes
			FROM (SELECT ARRAY[%2$s] AS loaded FROM escrow.journal_%1$s AS j WHERE j.key = which::%3$s) AS j
			CROSS JOIN (SELECT array_agg(l.epoch ORDER BY l.number, l.epoch) AS epochs, array_agg(l.number ORDER BY l.number, l.epoch) AS numbers,
					array_agg(array_to_string(l.changes, ',') ORDER BY l.number, l.epoch) AS changes
				FROM escrow.hold_lines AS l WHERE l."table" = %1$s AND l.key = %4$s AND l.stands) AS l;
		END
		$body$
	$f$, n, (SELECT string_agg(format('(loaded[%1$s]::numeric + coalesce(sum(j.change_%1$s), 0))::%2$s::text', i, it.columns->(i - 1)->>'type'), ', ')
			FROM unnest(places) AS i), it.key_type, escrow.key_text(it.key_type, format('which::%s', it.key_type)));
	FOREACH kind IN ARRAY ARRAY['hold', 'apply', 'open'] LOOP
		EXECUTE format('ALTER FUNCTION escrow.%1$s_%2$s OWNER TO escrow_journal; REVOKE ALL ON FUNCTION escrow.%1$s_%2$s FROM PUBLIC', kind, n);
	END LOOP;
	EXECUTE format('GRANT EXECUTE ON FUNCTION escrow.open_%s TO escrow_proxy', n);
END
$$;

-- Declares numeric columns of a table reservable. The table's owner calls it. Returns the CHECKs as they were understood.
CREATE OR REPLACE FUNCTION escrow.reservable(relation regclass, VARIADIC reservable name[]) RETURNS SETOF text
LANGUAGE plpgsql SECURITY DEFINER SET search_path = pg_catalog, pg_temp SET standard_conforming_strings = on SET quote_all_identifiers = off AS $$
DECLARE
	it escrow.declared;
	proprietor oid := (SELECT relowner FROM pg_class WHERE oid = relation);
	key_column text;
	largest text;
BEGIN
	IF escrow.is_owners(proprietor) IS NOT TRUE THEN
		RAISE EXCEPTION 'must be owner of table %', relation USING ERRCODE = 'insufficient_privilege';
	END IF;
	-- Otherwise it would not see the CHECKs of who had the lock before.
	IF current_setting('transaction_isolation') <> 'read committed' THEN
		RAISE EXCEPTION 'escrow.reservable needs READ COMMITTED' USING ERRCODE = 'invalid_transaction_state';
	END IF;
	EXECUTE format('LOCK TABLE %s IN SHARE ROW EXCLUSIVE MODE', relation);
	IF EXISTS (SELECT FROM escrow.declared AS d WHERE d.relation = reservable.relation) THEN
		PERFORM escrow.refuse(relation, 'it is declared already', format('Call escrow.ordinary(%L) first.', relation));
	END IF;
	it := escrow.describe(relation, reservable);
	FOR i IN 1 .. cardinality(reservable) LOOP
		EXECUTE format('SELECT %1$I::text FROM %2$s WHERE abs(%1$I::numeric) > 999999999999999 LIMIT 1', reservable[i], relation) INTO largest;
		IF largest IS NOT NULL THEN
			PERFORM escrow.refuse(relation, format('the column %I has the value %s, of more than 15 digits', reservable[i], largest));
		END IF;
	END LOOP;
	INSERT INTO escrow.declared (relation, key_name, key_type, columns, checks, definition, note_text, own_text)
	VALUES (it.relation, it.key_name, it.key_type, it.columns, it.checks, '{}', '', '') RETURNING number INTO it.number;
	-- The tag is the number, too.
	key_column := it.key_type || escrow.collation_of(relation, it.key_name);
	EXECUTE format('CREATE TABLE escrow.journal_%s (epoch bigint NOT NULL, tag bigint NOT NULL, number bigint NOT NULL, key %s NOT NULL, %s)', it.number, key_column,
		(SELECT string_agg(format('change_%s numeric NOT NULL', i), ', ') FROM generate_subscripts(reservable, 1) AS i));
	EXECUTE format('CREATE INDEX ON escrow.journal_%s (key)', it.number);
	EXECUTE format('CREATE TABLE escrow.held_%s (key %s PRIMARY KEY, epoch bigint NOT NULL, load bigint NOT NULL)', it.number, key_column);
	-- A publication of all tables refuses a DELETE otherwise, and so each fold.
	EXECUTE format('ALTER TABLE escrow.journal_%1$s REPLICA IDENTITY FULL; ALTER TABLE escrow.journal_%1$s OWNER TO escrow_journal; '
		'ALTER TABLE escrow.held_%1$s OWNER TO escrow_journal', it.number);
	EXECUTE format('GRANT SELECT ON escrow.journal_%1$s, escrow.held_%1$s TO escrow_proxy', it.number);
	PERFORM escrow.generate(it);
	NOTIFY escrow_declared; -- the proxy looks anew
	RETURN QUERY SELECT format('%s: %s', condition->>'name', escrow.told(condition, reservable)) FROM jsonb_array_elements(it.checks) AS condition
		WHERE NOT condition ? 'range';
END
$$;

-- Makes a table ordinary again. It waits for open reservations, and folds what is pending. Of one that was dropped while the event
-- triggers were off it removes the rest, if who owns the schema calls it.
CREATE OR REPLACE FUNCTION escrow.ordinary(relation regclass) RETURNS void
LANGUAGE plpgsql SECURITY DEFINER SET search_path = pg_catalog, pg_temp SET standard_conforming_strings = on SET quote_all_identifiers = off AS $$
DECLARE
	n integer := (SELECT number FROM escrow.declared AS d WHERE d.relation = ordinary.relation);
	proprietor oid := (SELECT relowner FROM pg_class WHERE oid = relation);
	which text;
	view_name text;
	it record;
BEGIN
	IF n IS NULL THEN
		RAISE EXCEPTION '% is not declared reservable', relation USING ERRCODE = 'object_not_in_prerequisite_state';
	END IF;
	IF escrow.is_owners(coalesce(proprietor, (SELECT nspowner FROM pg_namespace WHERE nspname = 'escrow'))) IS NOT TRUE THEN
		RAISE EXCEPTION 'must be owner of table %', relation USING ERRCODE = 'insufficient_privilege';
	END IF;
	IF current_setting('transaction_isolation') <> 'read committed' THEN
		RAISE EXCEPTION 'escrow.ordinary needs READ COMMITTED' USING ERRCODE = 'invalid_transaction_state';
	END IF;
	EXECUTE format('LOCK TABLE escrow.journal_%s IN ACCESS EXCLUSIVE MODE', n);
	IF EXISTS (SELECT FROM escrow.hold_lines AS l WHERE l."table" = n AND l.stands) THEN
		RAISE EXCEPTION 'holds of % stand', relation USING ERRCODE = 'object_in_use', HINT = 'Release them first: escrow.holds shows them.';
	END IF;
	FOR which IN EXECUTE format('SELECT DISTINCT key::text FROM escrow.journal_%s WHERE $1', n) USING proprietor IS NOT NULL LOOP
		EXECUTE format('SELECT escrow.row_%s($1::%s, false)', n, (SELECT key_type FROM escrow.declared WHERE number = n)) USING which;
	END LOOP;
	view_name := escrow.now_view(n)::text;
	DELETE FROM escrow.declared WHERE number = n;
	FOR it IN SELECT tgname FROM pg_trigger WHERE tgrelid = relation AND tgname ~ '^~?escrow ' LOOP
		EXECUTE format('DROP TRIGGER %I ON %s', it.tgname, relation);
	END LOOP;
	IF view_name IS NOT NULL THEN
		EXECUTE format('DROP VIEW %s', view_name);
	END IF;
	FOR it IN SELECT f::regprocedure AS function FROM escrow.functions(n) AS f LOOP
		EXECUTE format('DROP FUNCTION %s', it.function);
	END LOOP;
	EXECUTE format('DROP TABLE escrow.journal_%1$s, escrow.held_%1$s', n);
	NOTIFY escrow_declared;
END
$$;

-- Keeps DDL away that would change what was declared. A function is known by its name, since it may have got another schema.
CREATE OR REPLACE FUNCTION escrow.keep_declared() RETURNS event_trigger
LANGUAGE plpgsql SECURITY DEFINER SET search_path = pg_catalog, pg_temp SET standard_conforming_strings = on SET quote_all_identifiers = off AS $$
DECLARE
	it escrow.declared;
	found escrow.declared;
	why text;
BEGIN
	-- A fold runs triggers with the rights of the table's owner. So nobody else makes any, whatever was granted.
	IF TG_TAG = 'CREATE TRIGGER' AND EXISTS (SELECT FROM pg_event_trigger_ddl_commands() AS command
			JOIN pg_trigger AS t ON command.classid = 'pg_trigger'::regclass AND t.oid = command.objid
			JOIN escrow.declared AS d ON d.relation = t.tgrelid JOIN pg_class AS c ON c.oid = t.tgrelid WHERE NOT escrow.is_owners(c.relowner)) THEN
		RAISE EXCEPTION 'must be owner of a declared table to create a trigger on it' USING ERRCODE = 'insufficient_privilege';
	END IF;
	-- Temporary tables, which applications make all the time, change nothing that is declared, unless one is a child.
	IF TG_EVENT = 'sql_drop' THEN
		IF NOT EXISTS (SELECT FROM pg_event_trigger_dropped_objects() AS dropped WHERE NOT dropped.is_temporary) THEN
			RETURN;
		END IF;
	ELSIF TG_TAG IN ('CREATE TABLE', 'ALTER TABLE', 'CREATE INDEX') AND EXISTS (SELECT FROM pg_event_trigger_ddl_commands())
		AND NOT EXISTS (SELECT FROM pg_event_trigger_ddl_commands() AS command WHERE command.schema_name IS DISTINCT FROM 'pg_temp')
		AND NOT EXISTS (SELECT FROM pg_inherits AS i JOIN escrow.declared AS d ON d.relation = i.inhparent) THEN
		RETURN;
	END IF;
	-- In REPEATABLE READ a table may have been declared behind the snapshot. Names are looked up as they are.
	IF current_setting('transaction_isolation') <> 'read committed' AND EXISTS (
			SELECT FROM generate_series(1, (SELECT last_value FROM escrow.declared_number_seq)) AS n
			WHERE NOT EXISTS (SELECT FROM escrow.declared AS d WHERE d.number = n) AND to_regclass('escrow.journal_' || n) IS NOT NULL) THEN
		RAISE EXCEPTION '% could not see which tables are declared reservable', TG_TAG
			USING ERRCODE = 'serialization_failure', HINT = 'Repeat the transaction.';
	END IF;
	FOR it IN SELECT * FROM escrow.declared AS d WHERE d.definition <> '{}' AND (TG_TAG NOT IN ('ALTER FUNCTION', 'ALTER ROUTINE')
		OR EXISTS (SELECT FROM pg_event_trigger_ddl_commands() AS command JOIN pg_proc AS p ON p.oid = command.objid WHERE p.proname LIKE '%\_' || d.number))
	LOOP
		BEGIN
			why := '';
			found := escrow.describe(it.relation, ARRAY(SELECT (c->>'name')::name FROM jsonb_array_elements(it.columns) AS c));
		EXCEPTION WHEN invalid_table_definition THEN
			found := NULL;
			why := SQLERRM;
		WHEN no_data_found THEN
			-- If not this command has dropped it, somebody did while this trigger was off. That is no reason to refuse all DDL.
			CONTINUE WHEN TG_EVENT <> 'sql_drop' OR NOT EXISTS (SELECT FROM pg_event_trigger_dropped_objects() AS dropped
				WHERE dropped.classid = 'pg_class'::regclass AND dropped.objid = it.relation);
			found := NULL;
		END;
		IF found.definition IS DISTINCT FROM it.definition THEN
			RAISE EXCEPTION '% would change what is declared reservable of %', TG_TAG, coalesce((SELECT relname FROM pg_class WHERE oid = it.relation), 'a table that was dropped')
				USING ERRCODE = 'object_in_use', DETAIL = why, HINT = format('Call escrow.ordinary(%L) first.', it.relation);
		END IF;
	END LOOP;
END
$$;

-- Rule 16: what its own transaction has written may be changed, and so all rows of a table that it has written anew. In REPEATABLE READ
-- it would not see marks that were made between its snapshot and its lock of the table.
CREATE OR REPLACE FUNCTION escrow.keep_rewritten() RETURNS event_trigger
LANGUAGE plpgsql SET search_path = pg_catalog, pg_temp AS $$
BEGIN
	IF current_setting('transaction_isolation') <> 'read committed'
		AND EXISTS (SELECT FROM escrow.declared AS d WHERE d.relation = pg_event_trigger_table_rewrite_oid()) THEN
		RAISE EXCEPTION '% would write a table with reservable columns anew, which needs READ COMMITTED', TG_TAG USING ERRCODE = 'invalid_transaction_state';
	END IF;
END
$$;
DROP EVENT TRIGGER IF EXISTS escrow_keep_altered;
CREATE EVENT TRIGGER escrow_keep_altered ON ddl_command_end
	WHEN TAG IN ('ALTER TABLE', 'ALTER FUNCTION', 'ALTER ROUTINE', 'CREATE INDEX', 'CREATE TRIGGER', 'CREATE RULE', 'ALTER TRIGGER', 'CREATE TABLE',
		'CREATE FOREIGN TABLE', 'ALTER FOREIGN TABLE', 'CREATE SCHEMA', 'ALTER SCHEMA',
		-- PostgreSQL takes these for a table too: they rename it, or a column, or give it another schema.
		'ALTER INDEX', 'ALTER VIEW', 'ALTER MATERIALIZED VIEW', 'ALTER TYPE', 'ALTER EXTENSION', 'CREATE PUBLICATION', 'ALTER PUBLICATION')
	EXECUTE FUNCTION escrow.keep_declared();
DROP EVENT TRIGGER IF EXISTS escrow_keep_dropped;
CREATE EVENT TRIGGER escrow_keep_dropped ON sql_drop EXECUTE FUNCTION escrow.keep_declared();
DROP EVENT TRIGGER IF EXISTS escrow_keep_rewritten;
CREATE EVENT TRIGGER escrow_keep_rewritten ON table_rewrite EXECUTE FUNCTION escrow.keep_rewritten();

-- Reads a CREATE INDEX CONCURRENTLY: the table's name, what is behind it, and whether the index is unique. Both texts are null if
-- it is not understood, and all is null if the text is another statement.
CREATE OR REPLACE FUNCTION escrow.concurrent_index(statement text, OUT name text, OUT rest text, OUT is_unique boolean)
LANGUAGE plpgsql IMMUTABLE SET search_path = pg_catalog, pg_temp AS $$
DECLARE
	identifier CONSTANT text := '(?:"(?:[^"]|"")+"|[^ "''().,;&]+)';
	found text[];
BEGIN
	-- Without comments, and with one blank between words.
	statement := (SELECT string_agg(m[1], ' ') FROM regexp_matches(statement,
			'(--[^\n]*|/\*(?:[^*]|\*+[^*/])*\*+/|"(?:[^"]|"")+"|''(?:[^'']|'''')*''|[^][:space:]"''().,;/-]+|[^[:space:]])', 'g') AS m
		WHERE m[1] !~ '^(--|/\*.)');
	IF statement !~* '^CREATE (UNIQUE )?INDEX CONCURRENTLY ' THEN
		RETURN;
	END IF;
	is_unique := statement ~* '^CREATE UNIQUE';
	found := regexp_match(statement, format('^CREATE (?:UNIQUE )?INDEX CONCURRENTLY (?:(?:IF NOT EXISTS )?%1$s )?ON (?:ONLY )?(%1$s(?: \. %1$s)*) ((?:USING|\().*)$', identifier), 'i');
	name := replace(found[1], ' . ', '.');
	rest := found[2];
END
$$;

-- CREATE INDEX CONCURRENTLY has committed an index before the trigger above hears of it, and each fold keeps that index up. So its
-- text is judged before it runs. It is the client's whole message, since PostgreSQL runs it in no block and no function.
CREATE OR REPLACE FUNCTION escrow.refuse_concurrent(tag text, statement text, relation regclass) RETURNS void
LANGUAGE plpgsql SET search_path = pg_catalog, pg_temp AS $$
DECLARE
	it record;
	of_index record;
BEGIN
	of_index := escrow.concurrent_index(statement);
	FOR it IN SELECT d.relation, c.relname, ARRAY(SELECT lower(x->>'name') FROM jsonb_array_elements(d.columns) AS x) || lower(c.relname) AS names
		FROM escrow.declared AS d JOIN pg_class AS c ON c.oid = d.relation
		WHERE CASE WHEN of_index.rest IS NULL THEN of_index.is_unique IS NOT NULL AND lower(statement) LIKE ANY (ARRAY['%u&%', '%' || lower(c.relname) || '%'])
			ELSE d.relation = refuse_concurrent.relation END
	LOOP
		-- A plain index may have any column.
		CONTINUE WHEN NOT of_index.is_unique AND of_index.rest ~* '^(USING [^ ]+ )?\([^()]*\)( INCLUDE \([^()]*\))?( WITH \([^()]*\))?( TABLESPACE [^ ]+)?[ ;]*$';
		CONTINUE WHEN NOT EXISTS (SELECT FROM unnest(it.names || 'u&'::text) AS name WHERE position(name IN lower(coalesce(of_index.rest, name))) > 0);
		RAISE EXCEPTION '% would change what is declared reservable of %', tag, it.relname
			USING ERRCODE = 'object_in_use', HINT = format('Create the index without CONCURRENTLY, if it has neither a reservable column nor the whole row. Otherwise call escrow.ordinary(%L) first.', it.relation);
	END LOOP;
END
$$;

-- The table's name is that of the client's path of search.
CREATE OR REPLACE FUNCTION escrow.keep_concurrent() RETURNS event_trigger
LANGUAGE plpgsql SET standard_conforming_strings = on SET quote_all_identifiers = off AS $$
BEGIN
	PERFORM escrow.refuse_concurrent(TG_TAG, pg_catalog.current_query(), (SELECT pg_catalog.to_regclass(name) FROM escrow.concurrent_index(pg_catalog.current_query())));
END
$$;
DROP EVENT TRIGGER IF EXISTS escrow_keep_concurrent;
CREATE EVENT TRIGGER escrow_keep_concurrent ON ddl_command_start WHEN TAG IN ('CREATE INDEX') EXECUTE FUNCTION escrow.keep_concurrent();

-- An upgrade makes the functions of declared tables anew, and reads columns and CHECKs again.
DO $do$
DECLARE
	it escrow.declared;
	found escrow.declared;
	old regprocedure;
BEGIN
	PERFORM escrow.take_rights('^(secret|declared|holds|hold_names|hold_lines|epoch|greeted|heard|.*_seq|mac|is_fresh|set_epoch|end_holders|end_owner|is_held|standing|take_hold|look)$');
	GRANT SELECT ON escrow.declared, escrow.holds TO PUBLIC;
	FOR it IN SELECT * FROM escrow.declared LOOP
		IF NOT EXISTS (SELECT FROM pg_class WHERE oid = it.relation) THEN
			RAISE WARNING 'declared table % was dropped', it.relation USING HINT = format('Call escrow.ordinary(%L).', it.relation);
			CONTINUE;
		END IF;
		-- Of before loads had numbers, and all tables could be published.
		EXECUTE format('ALTER TABLE escrow.held_%1$s ADD COLUMN IF NOT EXISTS load bigint NOT NULL DEFAULT 0; '
			'ALTER TABLE escrow.journal_%1$s REPLICA IDENTITY FULL', it.number);
		-- Of before these tables had the collation of the key.
		IF escrow.collation_of(it.relation, it.key_name) <> escrow.collation_of(format('escrow.held_%s', it.number)::regclass, 'key') THEN
			EXECUTE format('CREATE INDEX IF NOT EXISTS journal_%1$s_collated ON escrow.journal_%1$s (key%2$s); '
				'CREATE INDEX IF NOT EXISTS held_%1$s_collated ON escrow.held_%1$s (key%2$s)', it.number, escrow.collation_of(it.relation, it.key_name));
		END IF;
		FOR old IN SELECT p.oid FROM escrow.functions(it.number) AS f JOIN pg_proc AS p ON p.oid = f WHERE p.proname ~ '^(load|open|leave)_' LOOP
			EXECUTE format('DROP FUNCTION %s', old);
		END LOOP;
		found := escrow.describe(it.relation, ARRAY(SELECT (c->>'name')::name FROM jsonb_array_elements(it.columns) AS c));
		UPDATE escrow.declared AS d SET columns = found.columns, checks = found.checks WHERE d.number = it.number RETURNING d.* INTO it;
		PERFORM escrow.generate(it);
	END LOOP;
END
$do$;
