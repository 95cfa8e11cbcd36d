-- The tables of a group. What an office published is only added to: a void, a later disposition, a withdrawn note is
-- another row. `n` counts an owner's rows of a table in a file, so that it tells nothing of other owners. Nothing is
-- derived of these rows and kept: what follows from them is asked.
CREATE SCHEMA hg;
REVOKE ALL ON SCHEMA public FROM PUBLIC;
SET search_path = hg, pg_catalog;

-- Who there is. The group's administrator writes these. `house` is the office whose own stock a company's lots are.
CREATE TABLE offices (office smallint PRIMARY KEY CHECK (office BETWEEN 1 AND 8191), name text NOT NULL UNIQUE,
  publisher name NOT NULL UNIQUE, gln text NOT NULL DEFAULT '');
CREATE TABLE companies (gid integer PRIMARY KEY CHECK (gid BETWEEN 1 AND 4194303), name text NOT NULL UNIQUE,
  role name UNIQUE, house smallint UNIQUE REFERENCES offices);
-- Which company an owner of an office is, from one of its files on: a later owner may have an earlier one's name.
CREATE TABLE members (office smallint REFERENCES offices, owner text, since smallint CHECK (since BETWEEN 1 AND 255),
  gid integer NOT NULL REFERENCES companies, PRIMARY KEY (office, owner, since));
-- A party of a company in one office is another office of the group.
CREATE TABLE parties (gid integer REFERENCES companies, office smallint REFERENCES offices, party text,
  other smallint NOT NULL REFERENCES offices, PRIMARY KEY (gid, office, party));
-- A lot of one office is a lot of another, as a person declared it; the lots may be of two companies.
CREATE TABLE joins (src bigint, dst bigint, reason text NOT NULL, who name NOT NULL DEFAULT session_user,
  at timestamptz NOT NULL DEFAULT now(), PRIMARY KEY (src, dst));

-- Who may ask the question service, and as which role it asks then, by the hash of a secret of random bytes that only
-- the person has.
CREATE TABLE logins (login text PRIMARY KEY, secret bytea NOT NULL, role name NOT NULL,
  at timestamptz NOT NULL DEFAULT now());

-- How far each office's rows are here, with the head of their chain of hashes. `looked` has when the office had nothing
-- more to send.
CREATE TABLE files (office smallint REFERENCES offices, file smallint, name text NOT NULL,
  epoch integer NOT NULL DEFAULT 1, PRIMARY KEY (office, file));
CREATE TABLE heads (office smallint, file smallint, gid integer, tbl "char", owner text NOT NULL, n integer NOT NULL,
  head bytea NOT NULL, at timestamptz NOT NULL DEFAULT now(), PRIMARY KEY (office, file, gid, tbl),
  FOREIGN KEY (office, file) REFERENCES files);
CREATE TABLE looked (office smallint PRIMARY KEY REFERENCES offices, at timestamptz NOT NULL);
-- Rows that an office no longer has, since an older state of it was restored or promoted, by the epoch that began then.
CREATE TABLE retracted (office smallint, file smallint, gid integer, tbl text, epoch integer NOT NULL,
  reason text NOT NULL, was jsonb NOT NULL, at timestamptz NOT NULL DEFAULT now());
CREATE INDEX retracted_by_office ON retracted (office, file, epoch);

-- An office's rows, word for word, with the numbers by which lots and batches are known in the group; 0 is no batch.
-- `came` is a row by which stock came over from an earlier file.
CREATE TABLE materials (gid integer, office smallint, file smallint, n integer, material text NOT NULL,
  measure text NOT NULL, PRIMARY KEY (gid, office, file, n));
CREATE UNIQUE INDEX materials_by_name ON materials (gid, office, file, material);
CREATE TABLE lots (gid integer, office smallint, file smallint, n integer, lot_id bigint NOT NULL, came boolean NOT NULL,
  owner text NOT NULL, lot text NOT NULL, material text NOT NULL, ord text NOT NULL, number integer NOT NULL,
  PRIMARY KEY (gid, office, file, n));
CREATE INDEX lots_by_name ON lots (gid, lot);
CREATE INDEX lots_by_id ON lots (lot_id);
CREATE TABLE moves (gid integer, office smallint, file smallint, n integer, lot_id bigint NOT NULL,
  batch_id bigint NOT NULL, came boolean NOT NULL, mkey text NOT NULL, kind smallint NOT NULL, lot_owner text NOT NULL,
  lot text NOT NULL, sublot text NOT NULL, target text NOT NULL, material text NOT NULL, ord text NOT NULL,
  number integer NOT NULL, segment integer NOT NULL, amount bigint NOT NULL, day integer NOT NULL,
  PRIMARY KEY (gid, office, file, n));
CREATE INDEX moves_by_lot ON moves (lot_id, kind);
CREATE INDEX moves_by_batch ON moves (batch_id, kind) WHERE batch_id <> 0;
CREATE UNIQUE INDEX moves_by_key ON moves (gid, office, file, mkey);
CREATE TABLE voids (gid integer, office smallint, file smallint, n integer, mkey text NOT NULL,
  PRIMARY KEY (gid, office, file, n));
CREATE UNIQUE INDEX voids_by_key ON voids (gid, office, file, mkey);
CREATE TABLE results (gid integer, office smallint, file smallint, n integer, lot_id bigint NOT NULL, lot text NOT NULL,
  test text NOT NULL, number integer NOT NULL, value bigint NOT NULL, day integer NOT NULL,
  PRIMARY KEY (gid, office, file, n));
CREATE INDEX results_by_lot ON results (lot_id);
CREATE TABLE notes (gid integer, office smallint, file smallint, n integer, note text NOT NULL, kind text NOT NULL,
  value text NOT NULL, PRIMARY KEY (gid, office, file, n));
CREATE INDEX notes_by_name ON notes (gid, office, file, note);

-- What an office says now of a thing: the last version counts. A disposition of -1 is a lot that is gone, `stands` of a
-- link whether it does, `fault` why a note doesn't stand, empty if it does.
CREATE TABLE states (gid integer, office smallint, lot_id bigint, v integer, disposition smallint NOT NULL,
  seen timestamptz NOT NULL DEFAULT now(), PRIMARY KEY (gid, office, lot_id, v));
CREATE TABLE facts (gid integer, office smallint, file smallint, mkey text, v integer, party text NOT NULL,
  supplier_lot text NOT NULL, document text NOT NULL, seen timestamptz NOT NULL DEFAULT now(),
  PRIMARY KEY (gid, office, file, mkey, v));
CREATE INDEX facts_by_lot ON facts (gid, supplier_lot) WHERE supplier_lot <> '';
CREATE INDEX facts_by_document ON facts (gid, document) WHERE document <> '';
CREATE INDEX facts_by_party ON facts (gid, office, party) WHERE party <> '';
CREATE TABLE links (gid integer, office smallint, src bigint, lot_id bigint, batch_id bigint, v integer,
  stands boolean NOT NULL, seen timestamptz NOT NULL DEFAULT now(),
  PRIMARY KEY (gid, office, src, lot_id, batch_id, v));
CREATE INDEX links_by_src ON links (src);
CREATE INDEX links_by_lot ON links (lot_id) WHERE lot_id <> 0;
CREATE INDEX links_by_batch ON links (batch_id) WHERE batch_id <> 0;
CREATE TABLE standing (gid integer, office smallint, file smallint, note text, v integer, fault text NOT NULL,
  seen timestamptz NOT NULL DEFAULT now(), PRIMARY KEY (gid, office, file, note, v));

-- Lots and batches that an office names are its own (0 is none), so that its rows say nothing of another office's.
DO $$
DECLARE t text; c text;
BEGIN
  FOR t, c IN SELECT r.relname, n.attname FROM pg_class AS r JOIN pg_attribute AS o ON o.attrelid = r.oid
      JOIN pg_attribute AS n ON n.attrelid = r.oid WHERE r.relnamespace = 'hg'::regnamespace AND r.relkind = 'r'
      AND o.attname = 'office' AND n.attname IN ('lot_id', 'batch_id', 'src') LOOP
    EXECUTE format('ALTER TABLE hg.%I ADD CHECK (%I = 0 OR %I >> 28 & 8191 = office)', t, c, c);
  END LOOP;
END $$;

-- The chain of hashes over rows as the office has them. chain(line, first) is the head behind all lines, in the order
-- of the aggregate.
CREATE FUNCTION chain_next(head bytea, line text, first bytea) RETURNS bytea LANGUAGE sql IMMUTABLE PARALLEL SAFE
  RETURN sha256(coalesce(head, first) || convert_to(line || E'\n', 'UTF8'));
CREATE AGGREGATE chain(text, bytea) (SFUNC = hg.chain_next, STYPE = bytea);
CREATE FUNCTION first_head(office text, file int, owner text, tbl "char") RETURNS bytea LANGUAGE sql STABLE PARALLEL SAFE
  RETURN sha256(convert_to(concat_ws(E'\t', 'hilpoven group 1', office, file, owner, tbl), 'UTF8'));

-- Who asks, by the role that logged in, which neither SET ROLE nor a function changes: a publisher is its office, a
-- company is itself, and a member of hg_reader sees all, as the superuser does. Whoever is none of them sees nothing.
CREATE FUNCTION own_office() RETURNS smallint LANGUAGE plpgsql STABLE SECURITY DEFINER
SET search_path = hg, pg_catalog, pg_temp AS $$
BEGIN
  RETURN (SELECT o.office FROM hg.offices AS o WHERE o.publisher = session_user);
END $$;
CREATE FUNCTION own_gid() RETURNS integer LANGUAGE plpgsql STABLE SECURITY DEFINER
SET search_path = hg, pg_catalog, pg_temp AS $$
BEGIN
  RETURN (SELECT c.gid FROM hg.companies AS c WHERE c.role = session_user);
END $$;
CREATE FUNCTION own_members() RETURNS integer[] LANGUAGE plpgsql STABLE SECURITY DEFINER
SET search_path = hg, pg_catalog, pg_temp AS $$
BEGIN
  RETURN (SELECT array_agg(DISTINCT m.gid) FROM hg.members AS m JOIN hg.offices AS o USING (office)
    WHERE o.publisher = session_user);
END $$;
CREATE FUNCTION sees_all() RETURNS boolean LANGUAGE plpgsql STABLE SECURITY DEFINER
SET search_path = hg, pg_catalog, pg_temp AS $$
BEGIN
  RETURN EXISTS (SELECT 1 FROM pg_catalog.pg_authid AS m WHERE m.rolname = session_user AND (m.rolsuper
    OR EXISTS (SELECT 1 FROM pg_catalog.pg_auth_members AS a JOIN pg_catalog.pg_authid AS g ON g.oid = a.roleid
      WHERE a.member = m.oid AND g.rolname = 'hg_reader')));
END $$;

-- As which role the service asks for a login with a secret; nothing if there is none such.
CREATE FUNCTION role_of(asked text, given bytea) RETURNS name LANGUAGE plpgsql STABLE SECURITY DEFINER
SET search_path = hg, pg_catalog, pg_temp AS $$
BEGIN
  RETURN (SELECT l.role FROM hg.logins AS l WHERE l.login = asked AND l.secret = sha256(given));
END $$;

-- Roles. hg_questions has the functions below and sees what whoever asks may see; nobody logs in as it, and nobody is a
-- member of it. Companies and readers have no rights on tables at all: they ask questions.
DO $$
DECLARE r text;
BEGIN
  FOREACH r IN ARRAY ARRAY['hg_questions', 'hg_publisher', 'hg_company', 'hg_reader'] LOOP
    IF NOT EXISTS (SELECT 1 FROM pg_roles WHERE rolname = r) THEN EXECUTE format('CREATE ROLE %I NOLOGIN', r); END IF;
  END LOOP;
  -- The question service looks logins up as hg_service, and asks for the group's quality people as hg_quality.
  FOREACH r IN ARRAY ARRAY['hg_service', 'hg_quality'] LOOP
    IF NOT EXISTS (SELECT 1 FROM pg_roles WHERE rolname = r) THEN EXECUTE format('CREATE ROLE %I LOGIN', r); END IF;
  END LOOP;
  GRANT hg_reader TO hg_quality;
END $$;
GRANT USAGE ON SCHEMA hg TO hg_questions, hg_publisher, hg_company, hg_reader, hg_service;
REVOKE ALL ON ALL FUNCTIONS IN SCHEMA hg FROM PUBLIC;
GRANT EXECUTE ON FUNCTION chain_next, chain, first_head TO hg_questions;
GRANT EXECUTE ON FUNCTION role_of TO hg_service;
GRANT EXECUTE ON FUNCTION own_office, own_gid, own_members, sees_all TO hg_questions, hg_publisher;

DO $$
DECLARE t text;
BEGIN
  FOR t IN SELECT c.relname FROM pg_class AS c WHERE c.relnamespace = 'hg'::regnamespace AND c.relkind = 'r' LOOP
    EXECUTE format('ALTER TABLE hg.%I ENABLE ROW LEVEL SECURITY', t);
    EXECUTE format('GRANT SELECT ON hg.%I TO hg_questions', t);
  END LOOP;
  FOREACH t IN ARRAY ARRAY['heads', 'materials', 'lots', 'moves', 'voids', 'results', 'notes', 'states', 'facts',
    'links', 'standing'] LOOP
    EXECUTE format('CREATE POLICY seen ON hg.%I FOR SELECT TO hg_questions USING ((SELECT hg.sees_all())
      OR gid = (SELECT hg.own_gid()) OR office = (SELECT hg.own_office()))', t);
    EXECUTE format('CREATE POLICY own_office ON hg.%I TO hg_publisher USING (office = (SELECT hg.own_office()))', t);
    EXECUTE format('CREATE POLICY own_members ON hg.%I AS RESTRICTIVE FOR INSERT TO hg_publisher
      WITH CHECK (gid = ANY ((SELECT hg.own_members())::integer[]))', t);
    EXECUTE format('GRANT SELECT, INSERT ON hg.%I TO hg_publisher', t);
  END LOOP;
  FOREACH t IN ARRAY ARRAY['files', 'looked'] LOOP
    EXECUTE format('CREATE POLICY own_office ON hg.%I TO hg_publisher USING (office = (SELECT hg.own_office()))', t);
    EXECUTE format('GRANT SELECT, INSERT ON hg.%I TO hg_publisher', t);
  END LOOP;
END $$;
CREATE POLICY own_office ON offices FOR SELECT TO hg_publisher USING (office = (SELECT hg.own_office()));
CREATE POLICY own_office ON members FOR SELECT TO hg_publisher USING (office = (SELECT hg.own_office()));
GRANT SELECT ON offices, members TO hg_publisher;
GRANT UPDATE (n, head, at) ON heads TO hg_publisher;
GRANT UPDATE (at) ON looked TO hg_publisher;
-- A company sees the offices and files that have rows of it.
CREATE POLICY seen ON offices FOR SELECT TO hg_questions USING ((SELECT hg.sees_all())
  OR office = (SELECT hg.own_office()) OR EXISTS (SELECT 1 FROM hg.heads AS h WHERE h.office = offices.office));
CREATE POLICY seen ON files FOR SELECT TO hg_questions USING ((SELECT hg.sees_all())
  OR EXISTS (SELECT 1 FROM hg.heads AS h WHERE h.office = files.office AND h.file = files.file));
CREATE POLICY seen ON looked FOR SELECT TO hg_questions USING ((SELECT hg.sees_all())
  OR EXISTS (SELECT 1 FROM hg.heads AS h WHERE h.office = looked.office));
CREATE POLICY seen ON companies FOR SELECT TO hg_questions USING ((SELECT hg.sees_all())
  OR gid = (SELECT hg.own_gid()));
CREATE POLICY seen ON members FOR SELECT TO hg_questions USING ((SELECT hg.sees_all())
  OR gid = (SELECT hg.own_gid()) OR office = (SELECT hg.own_office()));
CREATE POLICY seen ON parties FOR SELECT TO hg_questions USING ((SELECT hg.sees_all())
  OR gid = (SELECT hg.own_gid()) OR office = (SELECT hg.own_office()));
CREATE POLICY seen ON joins FOR SELECT TO hg_questions USING ((SELECT hg.sees_all())
  OR (src >> 41 = (SELECT hg.own_gid()) AND dst >> 41 = (SELECT hg.own_gid())));
CREATE POLICY nobody ON logins USING (false);
REVOKE ALL ON logins FROM hg_questions;
CREATE POLICY seen ON retracted FOR SELECT TO hg_questions USING ((SELECT hg.sees_all())
  OR gid = (SELECT hg.own_gid()) OR office = (SELECT hg.own_office()));

-- What of PostgreSQL itself tells how much others have, who they are and what they do.
DO $$
DECLARE f text;
BEGIN
  FOREACH f IN ARRAY ARRAY['pg_class', 'pg_statistic_ext', 'pg_roles', 'pg_auth_members', 'pg_group', 'pg_user',
    'pg_database', 'pg_stats', 'pg_stat_activity', 'pg_stat_replication', 'pg_locks', 'pg_prepared_xacts',
    'pg_stat_user_tables', 'pg_stat_all_tables', 'pg_statio_all_tables', 'pg_statio_user_tables',
    'pg_stat_xact_all_tables', 'pg_stat_xact_user_tables', 'pg_stat_all_indexes', 'pg_stat_user_indexes',
    'pg_statio_all_indexes', 'pg_statio_user_indexes', 'pg_stat_database', 'pg_stat_database_conflicts',
    'pg_stat_bgwriter', 'pg_stat_wal', 'pg_stat_slru', 'pg_stat_archiver', 'pg_stat_progress_copy',
    'pg_stat_progress_vacuum', 'pg_stat_progress_analyze', 'pg_replication_slots', 'pg_cursors', 'pg_shdepend',
    'pg_db_role_setting'] LOOP
    EXECUTE format('REVOKE SELECT ON pg_catalog.%I FROM PUBLIC', f);
  END LOOP;
  FOR f IN SELECT p.oid::regprocedure::text FROM pg_proc AS p WHERE p.pronamespace = 'pg_catalog'::regnamespace
    AND (p.proname LIKE 'pg\_stat\_get%' OR p.proname LIKE 'pg\_%\_size' OR p.proname LIKE 'pg\_advisory%'
      OR p.proname LIKE 'pg\_try\_advisory%' OR p.proname LIKE 'lo\_%' OR p.proname LIKE 'txid\_%'
      OR p.proname LIKE '%\_to\_xml%' OR p.proname LIKE 'pg\_current\_xact%' OR p.proname LIKE 'pg\_current\_snapshot'
      OR p.proname LIKE 'pg\_current\_wal%' OR p.proname LIKE 'pg\_last\_%' OR p.proname LIKE 'pg\_wal%'
      OR p.proname LIKE 'pg\_control\_%' OR p.proname LIKE 'pg\_%blocking\_pids' OR p.oid = 'age(xid)'::regprocedure
      OR p.proname IN ('mxid_age', 'pg_isolation_test_session_is_blocked', 'pg_relation_filepath', 'pg_tablespace_databases',
        'pg_lock_status', 'pg_notify', 'pg_database_size', 'pg_xact_status', 'pg_relation_filenode',
        'pg_export_snapshot', 'pg_get_replication_slots', 'pg_show_all_file_settings', 'pg_prepared_xact')) LOOP
    EXECUTE format('REVOKE EXECUTE ON FUNCTION %s FROM PUBLIC', f);
  END LOOP;
END $$;
GRANT SELECT ON pg_catalog.pg_roles, pg_catalog.pg_auth_members TO hg_publisher;
GRANT EXECUTE ON FUNCTION pg_catalog.pg_current_wal_lsn(), pg_catalog.pg_walfile_name(pg_lsn) TO hg_publisher;

-- An office was set back (a restore, a promotion of a standby) and a person accepted it: what it no longer has moves to
-- `retracted`, with what hangs on it, and the head goes back to what both have. An office says so of itself alone.
CREATE FUNCTION new_epoch(of_file smallint) RETURNS void LANGUAGE sql SECURITY DEFINER SET search_path = hg, pg_catalog, pg_temp
AS $$ UPDATE hg.files SET epoch = epoch + 1 WHERE office = hg.own_office() AND file = of_file $$;
CREATE FUNCTION retract(of_file smallint, of_gid integer, mark "char", keep integer, keep_head bytea, why text)
RETURNS integer LANGUAGE plpgsql SECURITY DEFINER SET search_path = hg, pg_catalog, pg_temp AS $$
DECLARE
  own smallint := hg.own_office();
  now_epoch integer := (SELECT f.epoch FROM hg.files AS f WHERE f.office = own AND f.file = of_file);
  its text := CASE mark WHEN 'a' THEN 'materials' WHEN 'l' THEN 'lots' WHEN 'm' THEN 'moves' WHEN 'v' THEN 'voids'
    WHEN 'r' THEN 'results' WHEN 'n' THEN 'notes' END;
  gone bigint[];
  keys text[];
  count integer;
  hanging text;
  condition text;
BEGIN
  IF own IS NULL OR now_epoch IS NULL OR its IS NULL THEN
    RAISE EXCEPTION 'no file of an office of yours' USING ERRCODE = 'insufficient_privilege';
  END IF;
  EXECUTE format('WITH gone AS (DELETE FROM hg.%I AS x WHERE x.gid = $1 AND x.office = $2 AND x.file = $3 AND x.n > $4
      RETURNING to_jsonb(x) AS was)
    INSERT INTO hg.retracted (office, file, gid, tbl, epoch, reason, was) SELECT $2, $3, $1, %L, $5, $6, g.was
    FROM gone AS g', its, its) USING of_gid, own, of_file, keep, now_epoch, why;
  GET DIAGNOSTICS count = ROW_COUNT;
  UPDATE hg.heads SET n = keep, head = keep_head, at = now()
    WHERE office = own AND file = of_file AND gid = of_gid AND tbl = mark;
  -- Another lot may get the number of one that is gone, and another movement its key.
  SELECT array_agg((r.was->>'lot_id')::bigint) FILTER (WHERE its = 'lots' AND NOT (r.was->>'came')::boolean),
    array_agg(coalesce(r.was->>'mkey', r.was->>'note')) INTO gone, keys FROM hg.retracted AS r
    WHERE r.office = own AND r.file = of_file AND r.gid = of_gid AND r.tbl = its AND r.epoch = now_epoch;
  FOR hanging, condition IN SELECT h.name, h.condition FROM (VALUES
      ('lots', 'states', 'x.office = $1 AND x.lot_id = ANY ($4)'),
      ('lots', 'links', 'x.office = $1 AND (x.src = ANY ($4) OR x.lot_id = ANY ($4))'),
      ('lots', 'joins', 'x.src = ANY ($4) OR x.dst = ANY ($4)'),
      ('moves', 'facts', 'x.office = $1 AND x.gid = $3 AND x.file = $2 AND x.mkey = ANY ($5)'),
      ('notes', 'standing', 'x.office = $1 AND x.gid = $3 AND x.file = $2 AND x.note = ANY ($5)'))
      AS h (of_table, name, condition) WHERE h.of_table = its LOOP
    EXECUTE format('WITH gone AS (DELETE FROM hg.%I AS x WHERE %s RETURNING to_jsonb(x) AS was)
      INSERT INTO hg.retracted (office, file, gid, tbl, epoch, reason, was) SELECT $1, $2, $3, %L, $6, $7, g.was
      FROM gone AS g', hanging, condition, hanging) USING own, of_file, of_gid, gone, keys, now_epoch, why;
  END LOOP;
  RETURN count;
END $$;
REVOKE ALL ON FUNCTION new_epoch, retract FROM PUBLIC;
GRANT EXECUTE ON FUNCTION new_epoch, retract TO hg_publisher;
