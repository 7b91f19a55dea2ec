-- For each logger the readings that count, with their sum, and those that wait.
SELECT logger, standing, readings, total
FROM (
    SELECT logger, 'counts' AS standing, COUNT(*) AS readings, SUM(counts) AS total FROM corrected GROUP BY logger
    UNION ALL
    SELECT logger, 'waits' AS standing, COUNT(*) AS readings, 0 AS total FROM waiting GROUP BY logger
) AS told
ORDER BY logger, standing;
