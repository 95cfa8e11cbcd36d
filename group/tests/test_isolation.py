"""What a company's role learns of others: nothing by any question, and nothing by SQL that an injection would bring."""
import contextlib
import io
import re

import psycopg2
import pytest
from group_of_plants import SHIP
from hilpoven.model.genealogy import BACK, FORWARD
from hilpoven_group import database, recalls
from hilpoven_group.questions import FUNCTIONS

TABLES = """companies logins members offices parties joins files heads looked retracted materials lots moves voids results notes states facts links
    standing""".split()
VIEWS = "standing_moves current_states current_facts current_links current_standing matched".split()
SECRET = "B-SECRET"


@pytest.fixture
def two(group):
    """An office of two companies, of which the second has a secret lot."""
    plant = group.plant("NORTH")
    with plant.writing() as base:
        plant.receive(base, "HOUSE", "W-1", 100)
        plant.receive(base, "ACME", "S-1")
        plant.receive(base, "BOLT", "S-1")
        plant.batch(base, "ACME", "O-1", 1, {"S-1": 1, ("HOUSE", "W-1"): 1}, {"B-1": 1})
        plant.batch(base, "BOLT", "O-1", 1, {"S-1": 1, ("HOUSE", "W-1"): 1}, {SECRET: 1})
        key = plant.move(base, "BOLT", SHIP, SECRET, 10)
    plant.note_movement("BOLT", key, party="SECRETSHOP")
    plant.publish()
    return group


def role_of(group, name: str) -> str:
    """The role of a company."""
    return group.rows(f"SELECT role FROM hg.companies WHERE name = '{name}'")[0][0]


def open_tables(group) -> list[str]:
    """Tables and partitions that have no row security or no policy."""
    sql = """SELECT c.relname FROM pg_class AS c WHERE c.relnamespace = 'hg'::regnamespace AND c.relkind IN ('r', 'p', 'm', 'f')
        AND NOT (c.relrowsecurity AND EXISTS (SELECT 1 FROM pg_policy AS p WHERE p.polrelid = c.oid))"""
    return [row[0] for row in group.rows(sql)]


def test_each_table_has_row_security_and_a_policy(two):
    """A new table without a policy fails here."""
    assert open_tables(two) == []
    tables = two.rows("SELECT relname, relkind FROM pg_class WHERE relnamespace = 'hg'::regnamespace AND relkind IN ('r', 'p')")
    assert sorted(tables) == sorted((name, "r") for name in TABLES)  # no table has partitions, which have policies of their own
    two.rows("CREATE TABLE hg.later (gid integer); CREATE TABLE hg.halfway (gid integer); ALTER TABLE hg.halfway ENABLE ROW LEVEL SECURITY; SELECT 1")
    assert sorted(open_tables(two)) == ["halfway", "later"]
    two.rows("DROP TABLE hg.later, hg.halfway; SELECT 1")
    owners = two.rows("SELECT c.relname FROM pg_class AS c WHERE c.relnamespace = 'hg'::regnamespace AND c.relkind = 'v' AND c.relowner = 'hg_questions'::regrole")
    assert sorted(row[0] for row in owners) == sorted(VIEWS)


def test_functions_are_for_roles_alone_and_have_a_path(two):
    functions = two.rows("SELECT p.proname, p.prosecdef, coalesce(p.proconfig::text, ''), coalesce(p.proacl::text, '') FROM pg_proc AS p WHERE p.pronamespace = 'hg'::regnamespace")
    for name, is_definer, config, rights in functions:
        assert re.search(r"[{,]=X", rights) is None and rights, name  # `=X` would be everybody's
        assert name not in FUNCTIONS or {"jit=off", "plan_cache_mode=force_generic_plan", "client_min_messages=error"} <= set(config.strip("{}").replace('"', "").split(",")), name
        assert not is_definer or "search_path=hg, pg_catalog, pg_temp" in config, name
    for role in ("hg_company", "hg_reader", "hg_questions", "hg_publisher"):
        assert two.rows(f"SELECT rolsuper OR rolbypassrls OR rolcanlogin OR rolcreaterole FROM pg_roles WHERE rolname = '{role}'") == [(False,)]
    assert two.rows("SELECT count(*) FROM pg_auth_members WHERE roleid = 'hg_questions'::regrole") == [(0,)]


def attempts(other_lot: int, other_gid: int, house_lot: int) -> list[str]:
    """SQL that an injection could bring into a company's session."""
    tables = [f"SELECT count(*) FROM hg.{name}" for name in (*TABLES, *VIEWS)]
    return [
        *tables,
        *(f"EXPLAIN SELECT 1 FROM hg.{name}" for name in ("moves", "lots", "facts", "companies")),
        *(f"EXPLAIN ANALYZE SELECT 1 FROM hg.{name}" for name in ("moves", "matched")),
        *(f"COPY hg.{name} TO STDOUT" for name in ("moves", "lots", "companies")),
        *(f"COPY (SELECT 1 FROM hg.{name}) TO STDOUT" for name in ("moves", "lots")),
        "COPY (SELECT 1) TO PROGRAM 'id'",
        "COPY hg.lots FROM '/etc/passwd'",
        *(f"SELECT 1 / (CASE WHEN lot = '{SECRET}' THEN 0 ELSE 1 END) FROM hg.{name}" for name in ("lots", "moves")),
        "SELECT (CASE WHEN gid <> 1 THEN mkey ELSE '1' END)::int FROM hg.moves",
        f"SELECT lot_id FROM hg.lots_of(ARRAY[{other_lot}]::bigint[])",
        f"SELECT dst FROM hg.onward(ARRAY[{other_lot}]::bigint[])",
        f"SELECT dst FROM hg.back(ARRAY[{other_lot}]::bigint[])",
        f"SELECT lot FROM hg.shipments_of(ARRAY[{other_lot}]::bigint[])",
        f"SELECT dst FROM hg.onward(ARRAY[{house_lot}]::bigint[]) WHERE dst >> 41 = {other_gid}",
        f"SELECT lot_id FROM hg.find_lot('NORTH', 'BOLT', '{SECRET}')",
        f"SELECT lot_id FROM hg.find_lot('NORTH', 'BOLT', '{SECRET}') WHERE 1 / (lot_id - lot_id) = 1",
        "SELECT lot_id FROM hg.find_lot('NORTH', 'HOUSE', 'W-1')",
        "SELECT owner FROM hg.computed_heads(NULL) WHERE owner <> 'ACME'",
        "SELECT lot FROM hg.ends() WHERE owner <> 'ACME'",
        f"SELECT lot_id FROM hg.ambiguous(ARRAY[{other_lot}]::bigint[])",
        "SELECT hg.own_office(), hg.own_gid()",
        "SELECT hg.sees_all()",
        "SELECT hg.own_members()",
        "SELECT hg.chain('x', 'x')",
        "SELECT hg.new_epoch(1::smallint)",
        "SELECT hg.retract(1::smallint, 1, 'm', 0, '', '')",
        *(f"SET ROLE {role}" for role in ("admin", "hg_reader", "hg_questions", "hg_publisher", '"hg_publisher_NORTH"', f"hg_company_{other_gid}")),
        *(f"SET SESSION AUTHORIZATION {role}" for role in ("admin", "hg_questions", f"hg_company_{other_gid}")),
        *(f"SELECT set_config('{name}', '{role}', false)" for name in ("role", "session_authorization") for role in ("admin", "hg_reader")),
        f"SELECT lot_id FROM hg.find_lot('NORTH', 'ACME', ''); SET ROLE hg_reader; SELECT lot_id FROM hg.find_lot('NORTH', 'BOLT', '{SECRET}')",
        "SET LOCAL ROLE hg_company; SELECT count(*) FROM hg.lots",
        f"SELECT (SELECT string_agg(lot || owner, ',') FROM hg.lots_of(ARRAY[{other_lot}]::bigint[]))::int",
        f"SELECT 1 / (SELECT count(*) FROM hg.lots_of(ARRAY[{other_lot}]::bigint[]))",
        f"SELECT value FROM hg.descriptions(ARRAY[{other_gid}, 1000001])",
        f"SELECT mkey FROM hg.events_of(ARRAY[{other_lot}]::bigint[], false)",
        f"SELECT mkey FROM hg.events_of(ARRAY[{house_lot}]::bigint[], false) WHERE gid <> 1",
        f"SELECT query_to_xml('SELECT lot FROM hg.lots_of(ARRAY[{other_lot}])', true, true, '')",
        "CREATE TABLE hg.part PARTITION OF hg.moves DEFAULT",
        "CREATE TEMP TABLE heir () INHERITS (hg.moves)",
        "SELECT count(*) FROM ONLY hg.moves",
        "SELECT relid FROM pg_partition_tree('hg.moves')",
        "SELECT inhrelid FROM pg_inherits WHERE inhparent = 'hg.moves'::regclass",
        "CREATE STATISTICS hg.s ON lot, owner FROM hg.lots",
        "SELECT stxdndistinct FROM pg_statistic_ext_data",
        "SELECT n_distinct FROM pg_stats_ext WHERE schemaname = 'hg'",
        "SELECT most_common_vals FROM pg_stats_ext_exprs",
        "SELECT calls FROM pg_stat_statements",
        "SELECT calls FROM pg_stat_user_functions",
        "SELECT idx_scan FROM pg_stat_user_indexes",
        "RESET ROLE; SELECT count(*) FROM hg.lots",
        "SET LOCAL session_authorization = 'admin'; SELECT count(*) FROM hg.lots",
        "SET search_path = pg_temp; SELECT count(*) FROM hg.lots",
        "SET row_security = off; SELECT count(*) FROM hg.lots",
        f"SET row_security = off; SELECT lot_id FROM hg.lots_of(ARRAY[{other_lot}]::bigint[])",
        "CREATE FUNCTION pg_temp.tell(text) RETURNS bool LANGUAGE plpgsql COST 0.0000001 AS $$ BEGIN RAISE NOTICE '%', $1; RETURN true; END $$",
        "CREATE FUNCTION public.tell(text) RETURNS bool LANGUAGE sql AS 'SELECT true'",
        "CREATE FUNCTION hg.tell() RETURNS bool LANGUAGE sql AS 'SELECT true'",
        "CREATE OPERATOR public.= (FUNCTION = int4eq, LEFTARG = int4, RIGHTARG = int4)",
        "DO $$ BEGIN PERFORM 1 FROM hg.moves; END $$",
        "CREATE TABLE t (x int)",
        "CREATE TEMP TABLE t (x int)",
        "CREATE VIEW v AS SELECT 1",
        "CREATE SCHEMA s",
        "CREATE ROLE r",
        "CREATE DATABASE d",
        "CREATE EXTENSION dblink",
        "ALTER TABLE hg.moves DISABLE ROW LEVEL SECURITY",
        "ALTER FUNCTION hg.onward OWNER TO CURRENT_USER",
        "DROP POLICY seen ON hg.lots",
        "GRANT SELECT ON hg.lots TO PUBLIC",
        "INSERT INTO hg.lots DEFAULT VALUES",
        "UPDATE hg.moves SET amount = 0",
        "DELETE FROM hg.moves",
        "TRUNCATE hg.moves",
        "LOCK TABLE hg.moves IN EXCLUSIVE MODE",
        "SELECT reltuples, relpages FROM pg_class WHERE relname = 'moves'",
        "SELECT n_tup_ins FROM pg_stat_user_tables",
        "SELECT n_tup_ins FROM pg_stat_all_tables",
        "SELECT seq_scan FROM pg_stat_xact_all_tables",
        "SELECT pg_stat_get_tuples_inserted('hg.moves'::regclass)",
        "SELECT pg_stat_get_live_tuples(1)",
        "SELECT pg_relation_size('hg.moves')",
        "SELECT pg_total_relation_size('hg.moves')",
        "SELECT pg_table_size('hg.moves')",
        "SELECT pg_database_size(current_database())",
        "SELECT most_common_vals FROM pg_stats WHERE schemaname = 'hg'",
        "SELECT stavalues1 FROM pg_statistic",
        "SELECT rolname FROM pg_roles WHERE rolname LIKE 'hg%'",
        "SELECT rolname FROM pg_authid",
        "SELECT member FROM pg_auth_members",
        "SELECT usename FROM pg_user",
        "SELECT usename FROM pg_stat_activity WHERE usename <> current_user",
        "SELECT pid FROM pg_locks",
        "SELECT datname FROM pg_database",
        "SELECT xact_commit FROM pg_stat_database",
        "SELECT pg_current_wal_lsn()",
        "SELECT txid_current()",
        "SELECT pg_current_xact_id()",
        "SELECT pg_current_snapshot()",
        "SELECT age('3'::xid)",
        "SELECT min(age(xmin)) FROM pg_namespace",
        "SELECT mxid_age('3'::xid)",
        "SELECT next_xid FROM pg_control_checkpoint()",
        "SELECT pg_control_system()",
        "SELECT pg_blocking_pids(1)",
        "SELECT pg_safe_snapshot_blocking_pids(1)",
        "SELECT pg_isolation_test_session_is_blocked(1, '{}')",
        "SELECT pg_relation_filepath('hg.moves')",
        "SELECT pg_tablespace_databases(1663)",
        "SELECT refobjid FROM pg_shdepend",
        "SELECT setrole FROM pg_db_role_setting",
        "SELECT grantee FROM information_schema.role_table_grants",
        "SELECT count(*) FROM pg_stat_ssl",
        "SELECT pg_current_logfile()",
        "SELECT pg_describe_object('pg_authid'::regclass, 16390, 0)",
        "DECLARE c CURSOR WITH HOLD FOR SELECT lot FROM hg.lots",
        "PREPARE p AS SELECT lot FROM hg.lots; EXECUTE p",
        "SELECT pg_export_snapshot()",
        "SELECT pg_advisory_lock(1)",
        "SELECT pg_try_advisory_lock(1)",
        "SELECT pg_advisory_xact_lock(1)",
        "SELECT pg_notify('x', 'y')",
        "SELECT lo_import('/etc/passwd')",
        "SELECT lo_create(0)",
        "SELECT pg_read_file('postgresql.conf')",
        "SELECT pg_ls_dir('.')",
        "SELECT pg_terminate_backend(1)",
        "SELECT pg_reload_conf()",
        "SELECT query_to_xml('SELECT 1 FROM hg.moves', true, true, '')",
        "SELECT table_to_xml('hg.moves', true, true, '')",
        "SELECT dblink('', '')",
        "ALTER SYSTEM SET jit = on",
        "LOAD 'auto_explain'",
        "SET session_preload_libraries = 'auto_explain'",
        "PREPARE TRANSACTION 'x'",
        "VACUUM hg.moves",
        "ANALYZE hg.moves",
        "REINDEX TABLE hg.moves",
        "CLUSTER hg.moves USING moves_pkey",
        "REFRESH MATERIALIZED VIEW hg.matched",
        "COMMENT ON TABLE hg.moves IS 'x'",
        "SECURITY LABEL ON TABLE hg.moves IS 'x'",
    ]


def answer_of(base, sql: str) -> object:
    """What SQL gives: its rows, or the kind of its error, whose text has nothing of others."""
    with base.cursor() as cursor:
        try:
            cursor.execute(sql)
            return cursor.fetchall() if cursor.description else cursor.statusmessage
        except psycopg2.Error as error:
            assert SECRET not in str(error) and "SECRETSHOP" not in str(error)
            return error.pgcode


NOTHING = ([], [(None, None)], [(None,)], [(False,)], "VACUUM", "ANALYZE", "ROLLBACK")
HARMLESS = {
    "SET search_path = pg_temp; SELECT count(*) FROM hg.lots",
    "SELECT hg.own_office(), hg.own_gid()",
    "SELECT hg.sees_all()",
    "SELECT hg.own_members()",
}


def test_a_company_learns_nothing_of_others(two):
    ((other, gid),) = two.rows(f"SELECT lot_id, gid FROM hg.lots WHERE lot = '{SECRET}'")
    ((house,),) = two.rows("SELECT lot_id FROM hg.lots WHERE lot = 'W-1'")
    tries = attempts(other, gid, house)
    assert len(tries) > 120
    learned = []
    with contextlib.closing(two.cluster.connect(two.name, role_of(two, "ACME"))) as base:
        for sql in tries:
            given = answer_of(base, sql)
            is_refused = isinstance(given, str) and len(given) == 5 or given in NOTHING
            if not is_refused and sql not in HARMLESS:
                learned.append((sql, given))
            answer_of(base, "ROLLBACK")
            answer_of(base, "RESET ALL")
    assert not learned
    assert two.rows(f"SELECT count(*) FROM hg.lots WHERE lot = '{SECRET}'") == [(1,)]


ARGUMENTS = {"bigint[]": "ARRAY[{}]::bigint[]", "integer[]": "ARRAY[2, 1000001]", "boolean": "false", "text": "'NORTH'"}
SCANS = re.compile("SEQSCAN|INDEXSCAN|INDEXONLYSCAN|BITMAP|HASHJOIN|MERGEJOIN|NESTLOOP|internal sort")


def test_messages_of_the_server_tell_no_plan(two):
    ((other,),) = two.rows(f"SELECT lot_id FROM hg.lots WHERE lot = '{SECRET}'")
    with contextlib.closing(two.cluster.connect(two.name, role_of(two, "ACME"))) as base:
        for name in ("debug_print_parse", "debug_print_rewritten", "debug_print_plan", "trace_sort"):
            answer_of(base, f"SET {name} = on; SET client_min_messages = debug5")
        for name, (values, columns, _) in FUNCTIONS.items():
            words = [ARGUMENTS[value.split()[-1]].format(other) for value in values.split(", ") if value]
            del base.notices[:]
            answer_of(base, f"SELECT {columns.split()[0]} FROM hg.{name}({', '.join(words)})")
            messages = "".join(base.notices)
            assert "FUNCTIONSCAN" in messages and not SCANS.findall(messages), name  # the function is all of the query


def work_of(base, sql: str) -> int:
    """How many pages PostgreSQL looks at for a query, once its plan is kept: what the time follows that it takes."""
    for _ in range(8):
        plan = database.rows(base, f"EXPLAIN (ANALYZE, BUFFERS, TIMING OFF, SUMMARY OFF) {sql}")
    return sum(map(int, re.findall(r"(?:hit|read)=([0-9]+)", "\n".join(row[0] for row in plan[:3]))))


def test_a_name_of_another_takes_no_other_work_than_a_name_of_nobody(two):
    ((other,),) = two.rows(f"SELECT lot_id FROM hg.lots WHERE lot = '{SECRET}'")
    with contextlib.closing(two.cluster.connect(two.name, role_of(two, "ACME"))) as base:
        for known, unknown in (
            (f"SELECT lot_id FROM hg.find_lot('NORTH', 'BOLT', '{SECRET}')", "SELECT lot_id FROM hg.find_lot('NORTH', 'BOLT', 'NOBODYS')"),
            ("SELECT lot_id FROM hg.find_lot('NORTH', 'BOLT', 'S-1')", "SELECT lot_id FROM hg.find_lot('NORTH', 'NOBODY', 'S-1')"),
        ):
            assert work_of(base, known) == work_of(base, unknown), known
        with base.cursor() as cursor:
            copied = io.StringIO()
            cursor.copy_expert(f"COPY (SELECT lot FROM hg.lots_of(ARRAY[{other}]::bigint[])) TO STDOUT", copied)
            assert copied.getvalue() == ""


def test_a_company_sees_its_own_and_what_it_used_of_the_plants(two):
    with contextlib.closing(two.cluster.connect(two.name, role_of(two, "ACME"))) as base:
        ((start,),) = [row[:1] for row in database.rows(base, "SELECT lot_id, file FROM hg.find_lot('NORTH', 'ACME', 'B-1')")]
        reached = [row[0] for row in database.rows(base, "SELECT dst FROM hg.back(ARRAY[%s]::bigint[])", (start,))]
        lots = database.rows(base, "SELECT owner, lot, on_hand FROM hg.lots_of(%s::bigint[]) ORDER BY 1", (reached,))
        assert lots == [("ACME", "S-1", 999), ("HOUSE", "W-1", None)]  # how much is left of the plant's isn't told
        onward = database.rows(base, "SELECT DISTINCT dst FROM hg.onward(%s::bigint[])", (reached,))
        assert onward == [(start,)]
        assert [row[0] for row in database.rows(base, "SELECT office FROM hg.ages()")] == ["NORTH"]


def reached(two, role: str, owner: str) -> dict[str, dict[int, int]]:
    """What is told a role of recalls of an owner's lots, both ways, by their names."""
    lots = two.rows(f"SELECT lot, lot_id FROM hg.lots WHERE owner = '{owner}' ORDER BY 1")
    with contextlib.closing(two.cluster.connect(two.name, role)) as base:
        return {f"{lot} {way}": recalls.trace(base, number, way).steps for lot, number in lots for way in (FORWARD, BACK)}


def test_a_link_between_owners_is_the_plants_alone(two):
    plant, roles = two.plants["NORTH"], {owner: role_of(two, owner) for owner in ("ACME", "BOLT")}
    before = {owner: reached(two, role, owner) for owner, role in roles.items()}
    between = {"kind": "plant-link", "spread": "residue", "day": 261127}
    plant.note({**between, "owner": "ACME", "lot": "B-1", "of_owner": "BOLT", "of_lot": SECRET, "tells": True})
    plant.note({**between, "owner": "BOLT", "order": "O-1", "batch": 1, "of_owner": "ACME", "of_order": "O-1", "of_batch": 1})
    assert plant.publish() > 0 and plant.differences() == []
    assert {owner: reached(two, role, owner) for owner, role in roles.items()} == before
    ((used, product, secret),) = two.rows(f"""SELECT min(lot_id) FILTER (WHERE lot = 'S-1'), min(lot_id) FILTER (WHERE lot = 'B-1'),
        (SELECT lot_id FROM hg.lots WHERE lot = '{SECRET}') FROM hg.lots WHERE owner = 'ACME'""")
    quality = reached(two, "hg_quality", "ACME")
    assert quality["S-1 forward"] == {used: 0, product: 1, secret: 1}  # the batch that took it was contained, too
    assert quality["B-1 back"][secret] == 1 and quality["B-1 forward"] == {product: 0, secret: 1}
    assert SECRET not in str(two.rows("SELECT value FROM hg.notes WHERE gid = 1"))


def test_a_reader_sees_all_and_changes_nothing(two):
    two.rows("CREATE ROLE jane LOGIN; GRANT hg_reader TO jane; SELECT 1")
    try:
        with contextlib.closing(two.cluster.connect(two.name, "jane")) as base:
            assert len(database.rows(base, "SELECT lot_id FROM hg.find_lot('NORTH', 'BOLT', %s)", (SECRET,))) == 1
            assert answer_of(base, "SELECT count(*) FROM hg.lots") == "42501" and answer_of(base, "DELETE FROM hg.joins") == "42501"
    finally:
        two.rows("DROP OWNED BY jane; DROP ROLE jane; SELECT 1")


def test_a_publisher_writes_rows_of_its_own_office_and_members_alone(two):
    south = two.plant("SOUTH")
    assert south.publish() is not None
    before = two.content()
    row = "VALUES ({}, {}, 1, 999, 'K-9')"
    with contextlib.closing(two.cluster.connect(two.name, "hg_publisher_SOUTH")) as base:
        assert answer_of(base, "SELECT count(*) FROM hg.moves WHERE office = 1") == [(0,)]
        for sql in (
            "INSERT INTO hg.voids (gid, office, file, n, mkey) " + row.format(1, 1),
            "INSERT INTO hg.voids (gid, office, file, n, mkey) " + row.format(1_000_001, 2),
            "DELETE FROM hg.moves", "UPDATE hg.moves SET amount = 0", "TRUNCATE hg.moves", "UPDATE hg.heads SET office = 1",
            "UPDATE hg.heads SET owner = 'X'", "SELECT hg.retract(7::smallint, 1, 'm', 0, '', '')", "INSERT INTO hg.joins (src, dst, reason) VALUES (1, 2, '')",
            "SELECT count(*) FROM hg.joins", "COPY hg.voids FROM STDIN", "INSERT INTO hg.looked VALUES (1, now())",
        ):
            given = answer_of(base, sql)
            assert isinstance(given, str) and len(given) == 5 or given == "UPDATE 0", (sql, given)
        assert answer_of(base, "UPDATE hg.heads SET n = 0 WHERE office = 1") == "UPDATE 0"
    assert two.content() == before


def test_a_publisher_says_nothing_of_the_lots_of_another_office(two):
    """Its rows count by the numbers of lots and batches, which are of its own office."""
    ((lot, batch),) = two.rows("SELECT lot_id, batch_id FROM hg.moves WHERE lot = 'B-1' AND kind = 5")
    south = two.plant("SOUTH")
    with south.writing() as base:
        south.receive(base, "ACME", "R-1")
    assert south.publish() > 0
    before = two.content()
    move = "INSERT INTO hg.moves (gid, office, file, n, lot_id, batch_id, came, mkey, kind, lot_owner, lot, sublot, target, material, ord, number, segment, amount, day)"
    with contextlib.closing(two.cluster.connect(two.name, "hg_publisher_SOUTH")) as base:
        ((mine,),) = database.rows(base, "SELECT lot_id FROM hg.lots WHERE lot = 'R-1'")
        for sql in (
            f"{move} VALUES (1, 2, 1, 99, {lot}, 0, false, 'K-9', 2, 'ACME', 'B-1', 'A', '', 'END', '', 0, 0, 7, 261101)",
            f"{move} VALUES (1, 2, 1, 99, {mine}, {batch}, false, 'K-9', 4, 'ACME', 'R-1', 'A', '', 'RAW', 'O-1', 1, 1, 7, 261101)",
            f"INSERT INTO hg.lots (gid, office, file, n, lot_id, came, owner, lot, material, ord, number) VALUES (1, 2, 1, 99, {lot}, false, 'ACME', 'X', 'END', '', 0)",
            f"INSERT INTO hg.results (gid, office, file, n, lot_id, lot, test, number, value, day) VALUES (1, 2, 1, 99, {lot}, 'B-1', 'PH', 1, 7, 261101)",
            f"INSERT INTO hg.states (gid, office, lot_id, v, disposition) VALUES (1, 2, {lot}, 9, 1)",
            f"INSERT INTO hg.links (gid, office, src, lot_id, batch_id, v, stands) VALUES (1, 2, {lot}, {mine}, 0, 1, true)",
            f"INSERT INTO hg.links (gid, office, src, lot_id, batch_id, v, stands) VALUES (1, 2, {mine}, {lot}, 0, 1, true)",
            f"INSERT INTO hg.links (gid, office, src, lot_id, batch_id, v, stands) VALUES (1, 2, {mine}, 0, {batch}, 1, true)",
        ):
            assert answer_of(base, sql) == "23514", sql  # a check is violated
    assert two.content() == before


def test_a_member_of_the_group_hilpoven_gives_none_of_these_words(two, monkeypatch):
    from hilpoven.cli import caller

    monkeypatch.setattr(caller, "STARTED_AS", 1)
    monkeypatch.setenv("SUDO_UID", "4711")
    for words in (["publish", "--once"], ["publish", "status"], ["publish", "verify"], ["publish", "digest", "ACME"], ["group", "status"], ["group", "init"],
                  ["group", "recall", "NORTH", "ACME", "S-1"], ["group", "office", "add", "EVIL"]):
        answer = two.run(*words, office=two.plants["NORTH"] if words[0] == "publish" else None)
        assert answer.exit_code == 2 and answer.stdout == "", words


def test_hostile_words(two):
    for name in ("", "A B", "x" * 33, "../x", '"', "'; DROP TABLE hg.lots; --", "-x", "\u202e"):
        assert two.run("group", "office", "add", "--", name).exit_code == 2, name
    for name in ("", "\n", "x" * 61, "\x1b[31m"):
        assert two.run("group", "company", "add", "--", name).exit_code == 2, name
    two.ok("group", "company", "add", "O'Neil \"and\" Sons; --")
    for words in (["recall", "'", "'", "'"], ["recall", "NORTH", "ACME", "%"], ["verify", "'; --"], ["join", "'", "'", "'", "'", "'", "'", "--reason", "x"]):
        assert two.run("group", *words).exit_code == 1, words
    for gln in ("4012345000001", "401234500000", "abcdefghijklm"):
        assert two.run("group", "office", "add", "GLN", "--gln", gln).exit_code == 2
    two.ok("group", "office", "add", "GLN", "--gln", "4012345000009")
    assert two.run("group", "office", "add", "GLN").exit_code == 1
    assert two.run("group", "member", "add", "NORTH", "acme!", "ACME").exit_code == 2
    assert two.run("group", "party", "NORTH", "ACME", "SELF", "NORTH").exit_code == 2
