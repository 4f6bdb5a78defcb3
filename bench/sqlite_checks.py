"""The questions of `bench/checks`, asked of SQLite: one prepared statement for each kind of question.

The table is one B-tree in the order of the tuples' parts: object, relation, subject. The subject's relation stands by
itself, so that no statement takes a text apart. Users come last among the subjects of a node (group, organization,
team, user), so `subject < 'user:'` is the range of the others.
"""
import sqlite3
import time

TABLE = (
    "CREATE TABLE tuple (object TEXT NOT NULL, relation TEXT NOT NULL, subject TEXT NOT NULL, "
    "subject_relation TEXT NOT NULL, PRIMARY KEY (object, relation, subject, subject_relation)) STRICT, WITHOUT ROWID"
)

SPANS = (
    "CREATE TABLE tuple (object TEXT NOT NULL, relation TEXT NOT NULL, subject TEXT NOT NULL, "
    "subject_relation TEXT NOT NULL, added INTEGER NOT NULL, removed INTEGER NOT NULL, "
    "PRIMARY KEY (object, relation, subject, subject_relation, added)) STRICT, WITHOUT ROWID"
)

# Breadth first; the end is looked for in each group as it is reached.
IN_GROUP = """
WITH RECURSIVE reached(object) AS (
    SELECT ?1
    UNION
    SELECT t.subject FROM reached r CROSS JOIN tuple t
        ON t.object = r.object AND t.relation = 'member' AND t.subject < 'user:'
)
SELECT EXISTS (SELECT 1 FROM reached r CROSS JOIN tuple t
    ON t.object = r.object AND t.relation = 'member' AND t.subject = ?2 AND t.subject_relation = '')
"""

# What bans (0) is gone to before the folders above (1), and these before what gives (2): so the first row that is the
# user decides. A ban anywhere above counts, since a ban is inherited as far as a share is.
IN_FOLDERS = """
WITH RECURSIVE reached(turn, object) AS (
    SELECT 1, ?1
    UNION
    SELECT CASE t.relation WHEN 'parent' THEN 1 WHEN 'banned' THEN 0 WHEN 'member' THEN r.turn ELSE 2 END, t.subject
        FROM reached r CROSS JOIN tuple t ON t.object = r.object
        WHERE (t.subject < 'user:' OR t.subject = ?2){shown}
    ORDER BY 1
)
SELECT turn = 2 FROM reached WHERE object = ?2 LIMIT 1
"""

SHOWN_THEN = " AND t.added <= ?3 AND (t.removed = 0 OR t.removed > ?3)"

IN_ORGANISATION = """
WITH RECURSIVE reached(object, relation) AS (
    SELECT ?1, column1 FROM (VALUES {roles})
    UNION
    SELECT t.subject, d.column1 FROM tuple t CROSS JOIN (VALUES {defaults}) d
        WHERE t.object = ?1 AND t.relation = 'owner'
    UNION
    SELECT t.subject, t.subject_relation FROM reached r CROSS JOIN tuple t
        ON t.object = r.object AND t.relation = r.relation AND t.subject < 'user:'
    UNION
    SELECT object, 'owner' FROM reached WHERE relation = 'member' AND object < 'team:'
)
SELECT EXISTS (SELECT 1 FROM reached r CROSS JOIN tuple t
    ON t.object = r.object AND t.relation = r.relation AND t.subject = ?2 AND t.subject_relation = '')
"""

# Each role takes in those before it, and the organisation's default where it has one.
ROLES = {"admin": "repo_admin", "maintainer": None, "writer": "repo_writer", "triager": None, "reader": "repo_reader"}


def in_organisation(role):
    roles = list(ROLES)[: list(ROLES).index(role) + 1]
    defaults = [ROLES[each] for each in roles if ROLES[each]]
    listed = [", ".join(f"('{each}')" for each in names) for names in (roles, defaults)]
    return IN_ORGANISATION.format(roles=listed[0], defaults=listed[1])


def statement_for(namespace, relation):
    if namespace == "group":
        return IN_GROUP
    if namespace == "repo":
        return in_organisation(relation)
    return IN_FOLDERS.format(shown="")


def row(parts):
    namespace, object_id, relation, subject_namespace, subject, subject_relation = parts
    return f"{namespace}:{object_id}", relation, f"{subject_namespace}:{subject}", subject_relation


def opened(schema):
    base = sqlite3.connect(":memory:", isolation_level=None)
    base.execute(schema)
    return base


def with_tuples(tuples):
    base = opened(TABLE)
    base.executemany("INSERT INTO tuple VALUES (?, ?, ?, ?)", map(row, tuples))
    return base


def with_spans(tuples, later):
    """Spans of revisions: the tuples are there from revision 1 on, and each later commit makes the next revision."""
    base = opened(SPANS)
    base.executemany("INSERT INTO tuple VALUES (?, ?, ?, ?, 1, 0)", map(row, tuples))
    for rev, operations in enumerate(later, 2):
        for parts, kind in operations:
            if kind == "insert":
                base.execute("INSERT INTO tuple VALUES (?, ?, ?, ?, ?, 0)", (*row(parts), rev))
            else:
                base.execute(
                    "UPDATE tuple SET removed = ? WHERE (object, relation, subject, subject_relation) = (?, ?, ?, ?) "
                    "AND removed = 0",
                    (rev, *row(parts)),
                )
    return base


def asked(base, prepared):
    """The answers, and the seconds and the seconds of a processor that they took."""
    execute = base.cursor().execute
    begun, used = time.monotonic(), time.process_time()
    found = [execute(statement, words).fetchone() for statement, words in prepared]
    seconds, processor = time.monotonic() - begun, time.process_time() - used
    return [bool(found and found[0]) for found in found], seconds, processor


def questions_of(batch):
    statements = {}
    prepared = []
    for namespace, object_id, relation, user in batch:
        kind = (namespace, relation)
        if kind not in statements:
            statements[kind] = statement_for(namespace, relation)
        prepared.append((statements[kind], (f"{namespace}:{object_id}", f"user:{user}")))
    return prepared


def questions_then(batch):
    """The same questions at revision 1, of a table of spans."""
    statement = IN_FOLDERS.format(shown=SHOWN_THEN)
    return [(statement, (*words, 1)) for _, words in questions_of(batch)]
