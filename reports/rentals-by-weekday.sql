-- How many copies of a branch went out on each day of the week.
-- Asked: @branch, the branch's number; @since and @until, the first and the last moment that count, which are the calendar's own where none are set.
-- Units: rentals; `weekday` is 1 for Monday.
-- sqlite3 -readonly -bail -box -cmd ".parameter set @branch 1" -cmd ".parameter set @since 2026-03-01T00:00:00" -cmd ".parameter set @until 2026-03-31T23:59:59" COPY < reports/rentals-by-weekday.sql
.parameter init
INSERT OR IGNORE INTO temp.sqlite_parameters VALUES ('@since', '1970-01-01T00:00:00'), ('@until', '9999-12-31T23:59:59');
CREATE TEMP TABLE asked (branch, since, until,
    CONSTRAINT "@branch is a branch's number" CHECK (typeof(branch) = 'integer'),
    CONSTRAINT "@since is a moment" CHECK (since GLOB '????-??-??T??:??:??'),
    CONSTRAINT "@until is a moment" CHECK (until GLOB '????-??-??T??:??:??'));
INSERT INTO asked VALUES (@branch, @since, @until);
WITH
week (weekday, day) AS (VALUES (1, 'Monday'), (2, 'Tuesday'), (3, 'Wednesday'), (4, 'Thursday'), (5, 'Friday'), (6, 'Saturday'), (7, 'Sunday')),
rented AS (
    SELECT (CAST(strftime('%w', r.moment) AS INTEGER) + 6) % 7 + 1 AS weekday
    FROM temp.asked AS a JOIN rental AS r ON r.branch = a.branch AND r.moment BETWEEN a.since AND a.until
)
SELECT w.weekday, w.day, count(r.weekday) AS rentals
FROM week AS w LEFT JOIN rented AS r ON r.weekday = w.weekday
GROUP BY w.weekday
ORDER BY w.weekday;
