-- Removes schema escrow. A superuser runs it, in one transaction of READ COMMITTED, when no proxy runs. Tables stay as they
-- were before they were declared, with all changes that were committed.

-- Nothing of anybody else's stands for what PostgreSQL has: this runs as a superuser.
SET LOCAL search_path = pg_catalog, pg_temp;

DO $do$
DECLARE
	owner text := (SELECT r.rolname FROM pg_namespace AS n JOIN pg_roles AS r ON r.oid = n.nspowner
		WHERE n.nspname = 'escrow' AND NOT r.rolsuper AND r.rolname <> current_user);
BEGIN
	IF owner IS NOT NULL THEN
		RAISE EXCEPTION 'schema escrow belongs to the role %, which is no superuser', owner
			USING ERRCODE = 'object_not_in_prerequisite_state', HINT = 'It may have functions of anybody''s. Drop it.';
	END IF;
END
$do$;

DO $do$
DECLARE
	relation regclass;
	role text;
BEGIN
	IF escrow.is_live((SELECT nullif(last_value, 0) FROM escrow.epoch)) THEN
		RAISE EXCEPTION 'an escrowd-proxy is running' USING ERRCODE = 'object_in_use', HINT = 'Stop it first.';
	END IF;
	FOR relation IN SELECT d.relation FROM escrow.declared AS d LOOP
		PERFORM escrow.ordinary(relation);
	END LOOP;
	DROP EVENT TRIGGER escrow_keep_altered;
	DROP EVENT TRIGGER escrow_keep_dropped;
	DROP EVENT TRIGGER IF EXISTS escrow_keep_rewritten;
	DROP EVENT TRIGGER IF EXISTS escrow_keep_concurrent;
	DROP SCHEMA escrow CASCADE;
	FOREACH role IN ARRAY ARRAY['escrow_journal', 'escrow_proxy'] LOOP
		BEGIN
			EXECUTE format('DROP ROLE %I', role);
		EXCEPTION WHEN dependent_objects_still_exist THEN
			RAISE WARNING 'role % is used in another database, and stays', role;
		END;
	END LOOP;
END
$do$;
