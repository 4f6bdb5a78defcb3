SELECT name, sql FROM sqlite_schema;
SELECT namespace FROM row;
