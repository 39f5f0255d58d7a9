-- What a branch sent, in the order of dispatch, as `GET /sent`, with the moments. Whether it was received isn't the sender's to know.
-- Asked: @branch, the branch's number.
-- Units: `films` are the lines' films by their numbers.
-- sqlite3 -readonly -bail -box -cmd ".parameter set @branch 1" COPY < reports/sent.sql
CREATE TEMP TABLE asked (branch,
    CONSTRAINT "@branch is a branch's number" CHECK (typeof(branch) = 'integer'));
INSERT INTO asked VALUES (@branch);
WITH sent AS (
    -- the moment of a dispatch is in its kept command: after four bytes the moment, then a 7
    SELECT k.caller AS source, json_extract(k.reply, '$.to') AS addressee, json_extract(k.reply, '$.consignment') AS number,
        CAST(substr(k.command, 5, 19) AS TEXT) AS moment
    FROM temp.asked AS a JOIN kept AS k ON k.caller = a.branch
    WHERE substr(k.command, 24, 1) = x'07'
)
SELECT c.addressee AS "to", c.number, (SELECT '[' || group_concat(film) || ']' FROM (
        SELECT film FROM consignment_line WHERE source = c.source AND addressee = c.addressee AND number = c.number ORDER BY line)) AS films, s.moment AS sent
FROM temp.asked AS a
JOIN consignment AS c ON c.source = a.branch
LEFT JOIN sent AS s ON s.source = c.source AND s.addressee = c.addressee AND s.number = c.number
ORDER BY c.place;
