-- A branch's price list for the wall: each film that isn't withdrawn and has a copy at the branch, in the shop or out, by title.
-- Asked: @branch, the branch's number.
-- Units: dollars for `price`, days for `days`, minutes for `minutes`. A late day costs $1.00 more.
-- sqlite3 -readonly -bail -box -cmd ".parameter set @branch 1" COPY < reports/price-list.sql
CREATE TEMP TABLE asked (branch,
    CONSTRAINT "@branch is a branch's number" CHECK (typeof(branch) = 'integer'));
INSERT INTO asked VALUES (@branch);
SELECT f.title, k.name AS category, f.rating, f.length AS minutes, f.period AS days, printf('$%d.%02d', f.rate / 100, f.rate % 100) AS price
FROM temp.asked AS a
JOIN film AS f ON f.withdrawn = 0 AND EXISTS (SELECT * FROM copy AS c WHERE c.branch = a.branch AND c.film = f.number AND c.state = 0)
JOIN category AS k ON k.number = f.category
ORDER BY f.title, f.number;
