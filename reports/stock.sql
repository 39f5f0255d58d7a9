-- A branch's copies by film and state. `in_shop` and `out` are the two lists of a film, `sent` and `scrapped` are gone from here, and count
-- against the branch's limit all the same.
-- Asked: @branch, the branch's number.
-- Units: copies.
-- sqlite3 -readonly -bail -box -cmd ".parameter set @branch 1" COPY < reports/stock.sql
CREATE TEMP TABLE asked (branch,
    CONSTRAINT "@branch is a branch's number" CHECK (typeof(branch) = 'integer'));
INSERT INTO asked VALUES (@branch);
SELECT c.film, f.title, f.withdrawn,
    count(*) FILTER (WHERE c.state = 0 AND o.rental IS NULL) AS in_shop,
    count(*) FILTER (WHERE c.state = 0 AND o.rental IS NOT NULL) AS out,
    count(*) FILTER (WHERE c.state = 1) AS sent,
    count(*) FILTER (WHERE c.state = 2) AS scrapped,
    count(*) AS copies
FROM temp.asked AS a
JOIN copy AS c ON c.branch = a.branch
JOIN film AS f ON f.number = c.film
LEFT JOIN out_copy AS o ON o.branch = c.branch AND o.copy = c.number
GROUP BY c.film
ORDER BY c.film;
