-- For head office: the catalogue, withdrawn films too, with how many actors each has. `ops/prices` takes its columns `film`, `title`, `rate` and `withdrawn`.
-- Asked: nothing.
-- Units: cents for `rate` and `replacement`, days for `period`, minutes for `length`; a film has one category.
-- sqlite3 -readonly -bail -box COPY < reports/films.sql
SELECT f.number AS film, f.title, l.name AS language, k.name AS category, f.rating, f.length, f.period, f.rate, f.replacement, f.features,
    (SELECT count(*) FROM film_actor AS fa WHERE fa.film = f.number) AS actors, f.withdrawn
FROM film AS f
JOIN language AS l ON l.number = f.language
JOIN category AS k ON k.number = f.category
ORDER BY f.number;
