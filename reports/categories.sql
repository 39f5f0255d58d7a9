-- The numbers of categories.
-- Asked: nothing.
-- Units: none.
-- sqlite3 -readonly -bail -box COPY < reports/categories.sql
SELECT number, name FROM category ORDER BY number;
