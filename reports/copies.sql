-- A branch's copies, one by one: the film of each, its place, and who has it. A copy that was sent has the branch to which it went; whether it arrived isn't shown.
-- Asked: @branch, the branch's number.
-- Units: `due` is the last day of the rental's period.
-- sqlite3 -readonly -bail -box -cmd ".parameter set @branch 1" COPY < reports/copies.sql
CREATE TEMP TABLE asked (branch,
    CONSTRAINT "@branch is a branch's number" CHECK (typeof(branch) = 'integer'));
INSERT INTO asked VALUES (@branch);
WITH
sent AS (
    -- a copy that came back under a new number and was sent again is the next line of its mark
    SELECT l.origin_branch, l.origin_copy, l.addressee, row_number() OVER (PARTITION BY l.origin_branch, l.origin_copy ORDER BY c.place) AS turn
    FROM temp.asked AS a
    JOIN consignment AS c ON c.source = a.branch
    JOIN consignment_line AS l ON l.source = c.source AND l.addressee = c.addressee AND l.number = c.number
),
gone AS (
    SELECT c.number, c.origin_branch, c.origin_copy, row_number() OVER (PARTITION BY c.origin_branch, c.origin_copy ORDER BY c.number) AS turn
    FROM temp.asked AS a JOIN copy AS c ON c.branch = a.branch AND c.state = 1
)
SELECT c.number AS copy, c.film, f.title,
    CASE WHEN o.rental IS NOT NULL THEN 'out' WHEN c.state = 0 THEN 'shop' WHEN c.state = 1 THEN 'sent' ELSE 'scrapped' END AS place,
    s.addressee AS "to", o.rental, r.customer, cu.last || ', ' || cu.first AS name, cu.phone, r.moment AS rented,
    date(r.moment, '+' || t.period || ' days') AS due
FROM temp.asked AS a
JOIN copy AS c ON c.branch = a.branch
JOIN film AS f ON f.number = c.film
LEFT JOIN gone AS g ON g.number = c.number
LEFT JOIN sent AS s ON s.origin_branch = g.origin_branch AND s.origin_copy = g.origin_copy AND s.turn = g.turn
LEFT JOIN out_copy AS o ON o.branch = c.branch AND o.copy = c.number
LEFT JOIN rental AS r ON r.branch = o.branch AND r.number = o.rental
LEFT JOIN rental_terms AS t ON t.branch = o.branch AND t.rental = o.rental
LEFT JOIN customer AS cu ON cu.branch = r.branch AND cu.number = r.customer
ORDER BY c.number;
