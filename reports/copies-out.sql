-- What is out: each copy that a customer of a branch has, with the rental, the customer and the last day of its period.
-- Asked: @branch, the branch's number; @at, a moment, or else now in the time of @zone; @zone, an offset as -07:00, or else UTC.
-- Units: `late` is the days by which the moment is past that day, whether or not anything is charged for them.
-- sqlite3 -readonly -bail -box -cmd ".parameter set @branch 1" -cmd ".parameter set @at 2026-03-31T18:00:00" COPY < reports/copies-out.sql
.parameter init
INSERT OR IGNORE INTO temp.sqlite_parameters VALUES ('@zone', '+00:00');
INSERT OR IGNORE INTO temp.sqlite_parameters VALUES ('@at', strftime('%Y-%m-%dT%H:%M:%S', 'now', @zone));
CREATE TEMP TABLE asked (branch, zone, at,
    CONSTRAINT "@branch is a branch's number" CHECK (typeof(branch) = 'integer'),
    CONSTRAINT "@zone is an offset, as -07:00" CHECK (zone GLOB '[+-][0-9][0-9]:[0-9][0-9]'),
    CONSTRAINT "@at is a moment" CHECK (coalesce(at, '') GLOB '????-??-??T??:??:??'));
INSERT INTO asked VALUES (@branch, @zone, @at);
SELECT o.rental, o.copy, c.film, f.title, r.customer, cu.last || ', ' || cu.first AS name, cu.phone, r.moment AS rented,
    date(r.moment, '+' || t.period || ' days') AS due,
    max(0, CAST(julianday(date(a.at)) - julianday(date(r.moment)) AS INTEGER) - t.period) AS late
FROM temp.asked AS a
JOIN out_copy AS o ON o.branch = a.branch
JOIN rental AS r ON r.branch = o.branch AND r.number = o.rental
JOIN rental_terms AS t ON t.branch = o.branch AND t.rental = o.rental
JOIN customer AS cu ON cu.branch = o.branch AND cu.number = r.customer
JOIN copy AS c ON c.branch = o.branch AND c.number = o.copy
JOIN film AS f ON f.number = c.film
ORDER BY o.rental;
