PRAGMA integrity_check;
SELECT name FROM sqlite_schema WHERE type = 'table' ORDER BY name;
SELECT key, value FROM state ORDER BY key;
