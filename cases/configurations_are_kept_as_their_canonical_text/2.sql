SELECT rev, text FROM config ORDER BY rev;
