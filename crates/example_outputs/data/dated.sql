@a SELECT date FROM dolt_log;
