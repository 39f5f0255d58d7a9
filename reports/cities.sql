-- The numbers of cities, with their countries.
-- Asked: nothing.
-- Units: none.
-- sqlite3 -readonly -bail -box COPY < reports/cities.sql
SELECT ci.number, ci.name, co.name AS country FROM city AS ci JOIN country AS co ON co.number = ci.country ORDER BY ci.number;
