-- A branch's accepted commands, by their moments: who gave each, what it asked for, the reply, and its key. Refused commands aren't kept, so none is shown. Nor is the
-- order of commands with one moment: they are by their keys.
-- Asked: @branch, the branch's number; @since and @until, the first and the last moment that count, which are the calendar's own where none are set.
-- Units: dollars. A stock file is shown with blanks for its line ends.
-- sqlite3 -readonly -bail -box -cmd ".parameter set @branch 1" -cmd ".parameter set @since 2026-03-01T00:00:00" -cmd ".parameter set @until 2026-03-31T23:59:59" COPY < reports/history.sql
.parameter init
INSERT OR IGNORE INTO temp.sqlite_parameters VALUES ('@since', '1970-01-01T00:00:00'), ('@until', '9999-12-31T23:59:59');
CREATE TEMP TABLE asked (branch, since, until,
    CONSTRAINT "@branch is a branch's number" CHECK (typeof(branch) = 'integer'),
    CONSTRAINT "@since is a moment" CHECK (since GLOB '????-??-??T??:??:??'),
    CONSTRAINT "@until is a moment" CHECK (until GLOB '????-??-??T??:??:??'));
INSERT INTO asked VALUES (@branch, @since, @until);
WITH RECURSIVE
-- where the eight hexadecimal digits of a number's four bytes are, the least byte first, and by how much each counts
digit (at, shift) AS (VALUES (1, 4), (2, 0), (3, 12), (4, 8), (5, 20), (6, 16), (7, 28), (8, 24)),
command AS (
    -- the act's parts begin after 24 bytes: `bytes` has them in hexadecimal, and `a` to `d` are the first four numbers there
    SELECT k.key, k.reply, CAST(substr(k.command, 5, 19) AS TEXT) AS moment, hex(substr(k.command, 24, 1)) AS act, hex(substr(k.command, 25)) AS bytes,
        (SELECT sum(instr('123456789ABCDEF', substr(hex(substr(k.command, 1, 4)), at, 1)) << shift) FROM digit) AS staff,
        (SELECT sum(instr('123456789ABCDEF', substr(hex(substr(k.command, 25, 4)), at, 1)) << shift) FROM digit) AS a,
        (SELECT sum(instr('123456789ABCDEF', substr(hex(substr(k.command, 29, 4)), at, 1)) << shift) FROM digit) AS b,
        (SELECT sum(instr('123456789ABCDEF', substr(hex(substr(k.command, 33, 4)), at, 1)) << shift) FROM digit) AS c,
        (SELECT sum(instr('123456789ABCDEF', substr(hex(substr(k.command, 37, 4)), at, 1)) << shift) FROM digit) AS d,
        substr(k.command, 25) AS parts
    FROM temp.asked AS q
    JOIN kept AS k ON k.caller = q.branch AND CAST(substr(k.command, 5, 19) AS TEXT) BETWEEN q.since AND q.until
),
piece AS (
    -- the texts of a customer (01) and an import (06), each after its length; after a customer's five texts comes the city, read as a sixth length
    SELECT key, bytes, parts, 1 AS place, 0 AS begins, a AS length FROM command WHERE act IN ('01', '06')
    UNION ALL
    SELECT key, bytes, parts, place + 1, begins + 4 + length,
        (SELECT sum(instr('123456789ABCDEF', substr(bytes, 2 * (begins + 4 + length) + at, 1)) << shift) FROM digit)
    FROM piece WHERE place < 6 AND 2 * (begins + 4 + length) < length(bytes)
),
texts AS (
    SELECT key, max(text) FILTER (WHERE place = 1) AS first, max(text) FILTER (WHERE place = 2) AS last, max(text) FILTER (WHERE place = 3) AS address,
        max(text) FILTER (WHERE place = 4) AS postal, max(text) FILTER (WHERE place = 5) AS phone, max(length) FILTER (WHERE place = 6) AS city
    FROM (SELECT key, place, length, CAST(substr(parts, begins + 5, length) AS TEXT) AS text FROM piece) GROUP BY key
),
item AS (
    -- the lists of a dispatch (07), after its addressee, and of a receipt (08), after the consignment's sender and number
    SELECT key, bytes, CASE act WHEN '07' THEN 8 ELSE 12 END AS begins, CASE act WHEN '07' THEN b ELSE c END AS count, 0 AS place, NULL AS number
    FROM command WHERE act IN ('07', '08')
    UNION ALL
    SELECT key, bytes, begins, count, place + 1,
        (SELECT sum(instr('123456789ABCDEF', substr(bytes, 2 * (begins + 4 * place) + at, 1)) << shift) FROM digit)
    FROM item WHERE place < count
),
lists AS (SELECT key, group_concat(number, ', ') AS numbers FROM (SELECT key, number FROM item WHERE place > 0 ORDER BY key, place) GROUP BY key)
SELECT c.moment, c.staff, s.first || ' ' || s.last AS name,
    CASE c.act
        WHEN '01' THEN 'customer: ' || t.first || ' ' || t.last || ', ' || t.address || ', ' || t.postal || ', ' || t.phone || ', city ' || t.city
        WHEN '02' THEN 'customer-active: customer ' || c.a || CASE substr(c.bytes, 9, 2) WHEN '01' THEN ' may rent' ELSE ' may not rent' END
        WHEN '03' THEN 'rent: copy ' || c.b || ' to customer ' || c.a
        WHEN '04' THEN 'return: rental ' || c.a
        WHEN '05' THEN 'pay: customer ' || c.a || CASE c.b WHEN 0 THEN printf(', no rental, $%d.%02d', c.c / 100, c.c % 100) ELSE printf(', rental %d, $%d.%02d', c.c, c.d / 100, c.d % 100) END
        WHEN '06' THEN 'import: lot ' || t.first || ', ' || trim(replace(replace(t.last, char(13), ''), char(10), ' '))
        WHEN '07' THEN 'dispatch: copies ' || l.numbers || ' to branch ' || c.a
        WHEN '08' THEN 'receive: consignment ' || c.b || ' of branch ' || c.a || coalesce(' without lines ' || l.numbers, '')
        WHEN '09' THEN 'scrap: copy ' || c.a
        ELSE 'an act that this report does not know: ' || c.act
    END AS command, c.reply, c.key
FROM command AS c
LEFT JOIN staff AS s ON s.number = c.staff
LEFT JOIN texts AS t ON t.key = c.key
LEFT JOIN lists AS l ON l.key = c.key
ORDER BY c.moment, c.key;
