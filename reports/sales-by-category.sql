-- What a branch took for rentals by the category of the rental's film, the greatest first, as `GET /views/sales_by_film_category`.
-- Asked: @branch, the branch's number.
-- Units: cents.
-- sqlite3 -readonly -bail -box -cmd ".parameter set @branch 1" COPY < reports/sales-by-category.sql
CREATE TEMP TABLE asked (branch,
    CONSTRAINT "@branch is a branch's number" CHECK (typeof(branch) = 'integer'));
INSERT INTO asked VALUES (@branch);
SELECT k.name AS category, sum(p.amount) AS total
FROM temp.asked AS a
JOIN payment AS p ON p.branch = a.branch
JOIN rental AS r ON r.branch = p.branch AND r.number = p.rental
JOIN copy AS c ON c.branch = r.branch AND c.number = r.copy
JOIN film AS f ON f.number = c.film
JOIN category AS k ON k.number = f.category
GROUP BY k.number
ORDER BY total DESC, k.name;
