-- For head office: the consignments that aren't received, as its word `transit`, with when they were sent and their age at a moment.
-- Asked: @at, a moment, or else now in the time of @zone; @zone, an offset as -07:00, or else UTC.
-- Units: `days` are those of the sender's calendar. `films` are the lines' films by their numbers.
-- sqlite3 -readonly -bail -box -cmd ".parameter set @at 2026-03-31T18:00:00" COPY < reports/transit.sql
.parameter init
INSERT OR IGNORE INTO temp.sqlite_parameters VALUES ('@zone', '+00:00');
INSERT OR IGNORE INTO temp.sqlite_parameters VALUES ('@at', strftime('%Y-%m-%dT%H:%M:%S', 'now', @zone));
CREATE TEMP TABLE asked (zone, at,
    CONSTRAINT "@zone is an offset, as -07:00" CHECK (zone GLOB '[+-][0-9][0-9]:[0-9][0-9]'),
    CONSTRAINT "@at is a moment" CHECK (coalesce(at, '') GLOB '????-??-??T??:??:??'));
INSERT INTO asked VALUES (@zone, @at);
WITH sent AS (
    -- the moment of a dispatch is in its kept command: after four bytes the moment, then a 7
    SELECT k.caller AS source, json_extract(k.reply, '$.to') AS addressee, json_extract(k.reply, '$.consignment') AS number,
        CAST(substr(k.command, 5, 19) AS TEXT) AS moment
    FROM kept AS k
    WHERE k.caller > 0 AND substr(k.command, 24, 1) = x'07'
)
SELECT c.source AS "from", c.addressee AS "to", c.number, (SELECT '[' || group_concat(film) || ']' FROM (
        SELECT film FROM consignment_line WHERE source = c.source AND addressee = c.addressee AND number = c.number ORDER BY line)) AS films, s.moment AS sent,
    CAST(julianday(date(a.at)) - julianday(date(s.moment)) AS INTEGER) AS days
FROM temp.asked AS a
JOIN consignment AS c ON c.received = 0
LEFT JOIN sent AS s ON s.source = c.source AND s.addressee = c.addressee AND s.number = c.number
ORDER BY c.source, c.addressee, c.number;
