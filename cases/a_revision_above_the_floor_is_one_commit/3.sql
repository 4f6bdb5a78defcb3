SELECT subject, added, removed FROM row ORDER BY subject, added;
