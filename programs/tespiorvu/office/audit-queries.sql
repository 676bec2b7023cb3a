-- What an auditor asks of a bank's file first. Each query lists what it is named for; in an honest month all are empty. Those that are
-- marked "red" have no innocent row; the others list what is worth a question.
--
--     sqlite3 -batch -readonly COPY ".read audit-queries.sql"
--
-- The office makes them on its page of controls, where settings.toml says what must not meet in one hand.
-- There `:runs` is the user of runs, whose sums no row has; sqlite3 lists these, too.
.headers on
.mode column
CREATE TEMP TABLE apart (one TEXT NOT NULL, other TEXT NOT NULL);
INSERT INTO apart VALUES ('post', 'release'), ('transfer', 'release'), ('correct', 'release'), ('drawer-on', 'close-day'), ('new-account', 'transfer');
.print 1 above-limit: entries above what their user may today, without a release that was used for them (the limit was higher then)
SELECT branch, number AS entry, day, datetime(moment, 'unixepoch', 'localtime') AS time, user_no, account, amount,
    (SELECT max(ceiling) FROM grants WHERE grants.user_no = done.user_no AND procedure = form) AS limit_today
FROM (SELECT *, abs(delta) AS amount FROM entries WHERE partner = 0 OR partner > number) AS done
WHERE NOT EXISTS (SELECT 1 FROM grants JOIN members USING (set_no) WHERE grants.user_no = done.user_no AND procedure = form
        AND ceiling >= amount AND kind = 1 AND account BETWEEN low AND high)
    AND NOT EXISTS (SELECT 1 FROM releases WHERE releases.user_no = done.user_no AND used = 1 AND releases.branch = done.branch
        AND releases.day = done.day AND releases.form = done.form
        AND amount = abs(CASE releases.form WHEN 1 THEN member4 WHEN 2 THEN member5 ELSE member6 END));
.print 2 late-corrections: corrections a day or more after the entry
SELECT late.branch, late.day, late.number AS correction, late.undoes AS entry, made.user_no AS made_by, late.user_no AS corrected_by,
    late.account, late.delta, (late.moment - made.moment) / 3600 AS hours
FROM entries AS late JOIN entries AS made ON made.branch = late.branch AND made.number = late.undoes
WHERE late.undoes != 0 AND late.moment - made.moment >= 86400 AND (late.partner = 0 OR late.partner > late.number);
.print 3 correction-pairs: three or more corrections on a day of one user's entries by the same colleague
SELECT fix.branch, fix.day, made.user_no AS made_by, fix.user_no AS corrected_by, count(*) AS corrections
FROM entries AS fix JOIN entries AS made ON made.branch = fix.branch AND made.number = fix.undoes
WHERE fix.undoes != 0 AND (fix.partner = 0 OR fix.partner > fix.number) GROUP BY 1, 2, 3, 4 HAVING corrections >= 3;
.print 4 woken: withdrawals from accounts that had no entry for 180 days
SELECT branch, number AS entry, day, account, delta, user_no, days FROM (
    SELECT *, (moment - coalesce(lag(moment) OVER (PARTITION BY account ORDER BY turn), (SELECT min(moment) FROM entries))) / 86400 AS days
    FROM entries) WHERE days >= 180 AND delta < 0;
.print 5 structuring: three or more cash entries of one sign at an account on a day, each from 90 to 100 percent of the user's limit
SELECT branch, day, account, user_no, count(*) AS entries, sum(delta) AS sum
FROM entries JOIN (SELECT user_no, max(ceiling) AS most FROM grants WHERE procedure = 1 GROUP BY 1) USING (user_no)
WHERE form = 1 AND abs(delta) < 999999 AND abs(delta) * 10 BETWEEN most * 9 AND most * 10
GROUP BY branch, day, account, user_no, delta > 0 HAVING count(*) >= 3;
.print 6 round-sums: users of whose 20 or more cash entries more than nine in ten are whole hundreds
SELECT user_no, count(*) AS entries, sum(delta % 10000 = 0) AS round FROM entries WHERE form = 1
GROUP BY 1 HAVING entries >= 20 AND round * 10 > entries * 9;
.print 7 differences: a user's differences at a drawer: three or more of one sign, each of 10.00 or more, or one of 100.00 or more
SELECT branch, place AS drawer, user_no, count(*) AS differences, sum(amount) AS sum, max(abs(amount)) AS largest FROM lines
WHERE form = 5 AND abs(amount) >= 1000 GROUP BY branch, place, user_no, amount > 0 HAVING count(*) >= 3 OR max(abs(amount)) >= 10000;
.print 8 first-digits: users of 300 or more cash entries whose first digits differ from Benford's law (chi square above 20.09)
WITH law (digit, share) AS (VALUES (1, 0.30103), (2, 0.17609), (3, 0.12494), (4, 0.09691), (5, 0.07918), (6, 0.06695), (7, 0.05799), (8, 0.05115), (9, 0.04576)),
    first AS (SELECT user_no, CAST(substr(abs(delta), 1, 1) AS INTEGER) AS digit, count(*) AS n FROM entries WHERE form = 1 AND delta != 0 GROUP BY 1, 2),
    whole AS (SELECT user_no, sum(n) AS total FROM first GROUP BY 1 HAVING total >= 300)
SELECT user_no, total AS entries, round(sum((coalesce(n, 0) - total * share) * (coalesce(n, 0) - total * share) / (total * share)), 1) AS chi_square
FROM whole CROSS JOIN law LEFT JOIN first USING (user_no, digit) GROUP BY 1, 2 HAVING chi_square > 20.09;
.print 9 in-and-out: more than 5,000.00 cash in and out at an account on a day, of which less than a tenth stays
SELECT branch, day, account, count(*) AS entries, sum(abs(delta)) AS turnover, sum(delta) AS stays FROM entries WHERE form = 1
GROUP BY 1, 2, 3 HAVING turnover > 500000 AND abs(stays) * 10 < turnover;
.print 10 mutual-releases: users who released for each other
SELECT one.user_no AS one_user, one.giver AS other_user, count(DISTINCT one.number) AS releases, count(DISTINCT back.number) AS releases_back
FROM releases AS one JOIN releases AS back ON back.user_no = one.giver AND back.giver = one.user_no
WHERE one.user_no < one.giver GROUP BY 1, 2;
.print 11 clock-back, red: entries earlier than the one before them
SELECT late.branch, late.number AS entry, late.day, datetime(late.moment, 'unixepoch', 'localtime') AS time, made.moment - late.moment AS seconds_back
FROM entries AS late JOIN entries AS made ON made.branch = late.branch AND made.number = late.number - 1 WHERE late.moment < made.moment;
.print 12 long-days: days of a branch whose rows are more than a day apart
SELECT branch, day, datetime(min(moment), 'unixepoch', 'localtime') AS first_row, datetime(max(moment), 'unixepoch', 'localtime') AS last_row
FROM (SELECT branch, day, moment FROM entries UNION ALL SELECT branch, day, moment FROM lines)
GROUP BY 1, 2 HAVING max(moment) - min(moment) > 86400;
.print 13 in-one-hand, red: users with triples for what must not meet in one hand
WITH names (procedure, name) AS (VALUES (1, 'post'), (2, 'transfer'), (3, 'correct'), (4, 'drawer-on'), (5, 'drawer-off'), (6, 'move-cash'),
    (7, 'new-account'), (8, 'release'), (9, 'balance'), (10, 'statement'), (11, 'accounts'), (12, 'proof'), (13, 'close-day')),
    may AS (SELECT DISTINCT user_no, name FROM grants JOIN names USING (procedure))
SELECT a.user_no, users.name, a.name AS one_of_the_pair, b.name AS other_of_the_pair
FROM may AS a JOIN may AS b USING (user_no) JOIN apart ON apart.one = a.name AND apart.other = b.name JOIN users USING (user_no)
ORDER BY 1, 3, 4;
.print 19 sums-above-limit: sums of a user's day at an account above the limit
WITH own AS (SELECT *, abs(delta) AS amount, delta > 0 AS is_in,
        row_number() OVER (PARTITION BY branch, day, user_no, form, account, delta ORDER BY number) AS place,
        (SELECT max(ceiling) FROM grants JOIN members USING (set_no) WHERE grants.user_no = done.user_no
            AND procedure = form AND kind = 1 AND account BETWEEN low AND high) AS most
    FROM entries AS done WHERE form < 3 AND user_no IS NOT :runs)
SELECT branch, day, account, user_no, count(*) AS entries, sum(amount) AS sum, max(most) AS limit_today FROM own
WHERE amount <= most AND most < 999999
    AND NOT EXISTS (SELECT 1 FROM entries AS it WHERE it.branch = own.branch AND it.undoes = own.number)
    AND place > (SELECT count(*) FROM releases AS it
        WHERE (it.user_no, it.branch, it.day, it.form) = (own.user_no, own.branch, own.day, own.form) AND used = 1
        AND CASE own.form WHEN 1 THEN (member1, member4) = (account, delta)
            ELSE (CASE WHEN is_in THEN member2 ELSE member1 END, member5) = (account, amount) END)
GROUP BY branch, day, account, user_no, is_in HAVING sum(amount) > max(most);
