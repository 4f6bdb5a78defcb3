PRAGMA integrity_check;
SELECT namespace || ':' || object || '#' || relation || '@' || subject, added, removed FROM row ORDER BY namespace, object, relation, subject, added;
SELECT rev, text FROM config ORDER BY rev;
SELECT key, value FROM state ORDER BY key;
