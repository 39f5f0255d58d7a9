-- For head office: how full each caller is, the fullest first: accepted commands, and a branch's copies, those that it sent or scrapped counted. Caller 0 is head
-- office. At 80 of 100 it is time to act (docs/RUNNING.md, "How much a branch can hold").
-- Asked: nothing.
-- Units: rows, of 1,000,000 at most; `percent` is rounded down.
-- sqlite3 -readonly -bail -box COPY < reports/limits.sql
SELECT caller, CASE kind WHEN 1 THEN 'copies' ELSE 'commands' END AS kind, last AS count, 1000000 AS most, last / 10000 AS percent,
    CASE WHEN last >= 1000000 THEN 'full' WHEN last >= 800000 THEN 'act now' ELSE '' END AS note
FROM counter
WHERE kind IN (1, 4)
ORDER BY last DESC, caller, kind;
