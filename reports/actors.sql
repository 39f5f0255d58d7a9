-- The numbers of actors. Two may have one name.
-- Asked: nothing.
-- Units: none.
-- sqlite3 -readonly -bail -box COPY < reports/actors.sql
SELECT number, first, last FROM actor ORDER BY number;
