-- Joins what a bank's file has with the audit trail of its front, both ways. bank-audit runs it, over
--
-- - bank, the file, and before, the same of an earlier time, or the year before, or one without a row;
-- - line, a table of the trail's lines; badges, the list of badges; period, with the moments from which on a line may be
--   of it, and surely is, its last moment, and whether there is a file before: without one, what has no moment is not counted.
--
-- An act is what one request does: an entry or the two legs of a transfer, the lines of a drawer or of cash moved, an account, a
-- release, a closing, a command of the policy. Reads leave nothing, and are not joined. An entry and a line of cash bear the user and the
-- moment; a line of the trail has the badge, and from when to when the request was under way. If it has a slip, the bank keeps the slip,
-- with its reply. What has no moment is counted between the two files.
--
-- The last SELECTs are what no line explains, and what was answered 200 and is not there: after a restore, what is to be done again.

CREATE TABLE torn AS SELECT count(*) AS number FROM line WHERE NOT json_valid(line);
DELETE FROM line WHERE NOT json_valid(line);
CREATE TABLE kinds AS SELECT column1 AS path, column2 AS form, column3 AS has_moment, column4 AS has_user FROM (VALUES
    ('/do/post', 1, 1, 1), ('/do/transfer', 2, 1, 1), ('/do/correct', 3, 1, 1), ('/do/drawer-on', 4, 1, 1), ('/do/drawer-off', 5, 1, 1),
    ('/do/move-cash', 6, 1, 1), ('/do/new-account', 7, 0, 0), ('/do/release', 8, 0, 1), ('/do/close-day', 13, 0, 0), ('/policy/', 14, 0, 0));
-- What was asked for: whether it was surely carried out within the period, or perhaps, as what got no reply may be. (The clock of the
-- bank has seconds, so `begun` has.)
CREATE TABLE asked AS SELECT form, has_moment, iif(has_user, user_no, 0) AS counted_user, user_no, badge, certificate, slip, begun, ended, time, asked_path AS path,
    status, status = '200' AND began > surely_from AND ended < last AS is_sure,
    may_act AND ended >= first AND began <= last AS is_possible, may_act
    FROM (SELECT CAST(user AS INTEGER) AS user_no, line ->> 'badge' AS badge, line ->> 'certificate' AS certificate,
        CAST(line ->> 'slip' AS INTEGER) AS slip, (line ->> 'ended') - (line ->> 'seconds') AS began,
        CAST((line ->> 'ended') - (line ->> 'seconds') AS INTEGER) AS begun, line ->> 'ended' AS ended,
        line ->> 'status' = '200' OR CAST(line ->> 'status' AS INTEGER) >= 499 AS may_act, line ->> 'time' AS time, line ->> 'path' AS asked_path, line ->> 'status' AS status
        FROM line JOIN badges ON badges.badge = line ->> 'badge' WHERE line ->> 'verified' = 'SUCCESS' AND line ->> 'method' = 'POST') AS lines
    JOIN kinds ON asked_path = kinds.path OR kinds.form = 14 AND asked_path GLOB '/policy/*' JOIN period;
CREATE INDEX asked_by_user ON asked (user_no, form, begun);

-- What is new since the file before.
CREATE TABLE new_entries AS SELECT branch, number, account, delta, moment, user_no, form, partner FROM bank.entries
    EXCEPT SELECT branch, number, account, delta, moment, user_no, form, partner FROM before.entries;
CREATE TABLE new_lines AS SELECT branch, number, place, amount, form, moment, user_no FROM bank.lines
    EXCEPT SELECT branch, number, place, amount, form, moment, user_no FROM before.lines;
CREATE TABLE new_slips AS SELECT user_no, slip, form, CAST(reply AS TEXT) AS reply FROM bank.slips WHERE (user_no, slip) IN
    (SELECT user_no, slip FROM bank.slips EXCEPT SELECT user_no, slip FROM before.slips);
-- What each row is of an act: of a drawer put off there are two lines and a difference, of the other lines two.
CREATE TABLE acts AS
    SELECT form, user_no, moment, 'entry' AS what, branch, number, iif(partner = 0, 1, 0.5) AS share FROM new_entries
    UNION ALL SELECT iif(form = 5, 5, form + 2), user_no, moment, 'cash line', branch, number, iif(form = 3, 0.25, 0.5) FROM new_lines WHERE form != 1
    UNION ALL SELECT 7, 0, NULL, 'account', home, account, 1 FROM (SELECT account, home FROM bank.accounts EXCEPT SELECT account, home FROM before.accounts)
    UNION ALL SELECT 8, giver, NULL, 'release', branch, number, 1
        FROM (SELECT user_no, number, giver, branch FROM bank.releases EXCEPT SELECT user_no, number, giver, branch FROM before.releases)
    UNION ALL SELECT 13, 0, NULL, 'closing', branch, day, 1 FROM (SELECT branch, day FROM bank.proofs EXCEPT SELECT branch, day FROM before.proofs);
CREATE INDEX acts_by_user ON acts (user_no, form, moment);

-- The entries that a slip made, by the reply that is kept of it: one of a post, two of a transfer.
CREATE TABLE slipped AS SELECT user_no, slip, form, reply ->> 'branch' AS branch, entry.value AS number
    FROM new_slips, json_each(new_slips.reply) AS entry WHERE form IN (1, 2, 3) AND entry.key IN ('entry', 'first', 'second');
CREATE INDEX slipped_by_slip ON slipped (user_no, slip);
CREATE INDEX slipped_by_entry ON slipped (branch, number);

CREATE TABLE joined AS SELECT entries.branch, entries.number, entries.account, entries.delta, entries.user_no, asked.time,
    asked.badge, asked.certificate, asked.slip, asked.path, asked.status
    FROM new_entries AS entries JOIN asked ON asked.user_no = entries.user_no AND asked.form = entries.form AND entries.moment BETWEEN asked.begun AND asked.ended
    JOIN period WHERE may_act AND CASE asked.slip WHEN 0 THEN NOT has_before OR NOT EXISTS (SELECT 1 FROM slipped WHERE (slipped.branch, slipped.number) = (entries.branch, entries.number))
        ELSE EXISTS (SELECT 1 FROM slipped WHERE (slipped.user_no, slipped.slip, slipped.branch, slipped.number)
            = (asked.user_no, asked.slip, entries.branch, entries.number)) END;
CREATE INDEX joined_by_entry ON joined (branch, number);

-- One request per slip, however often it was sent; none of a slip that was taken before.
CREATE TABLE requests AS SELECT form, counted_user AS user_no, max(is_sure) AS is_sure FROM asked
    WHERE is_possible AND (slip = 0 OR (user_no, slip) NOT IN (SELECT user_no, slip FROM before.slips)) GROUP BY form, counted_user, user_no, iif(slip = 0, -asked.rowid, slip);
CREATE TABLE counted AS SELECT form, user_no, sum(is_sure) AS sure, sum(is_possible) AS possible, sum(acts) AS acts FROM (
    SELECT form, user_no, is_sure, 1 AS is_possible, 0 AS acts FROM requests
    UNION ALL SELECT form, user_no, 0, 0, share FROM acts
    UNION ALL SELECT 14, 0, 0, 0, (SELECT policy FROM bank.bank) - coalesce((SELECT policy FROM before.bank), 0)) GROUP BY form, user_no;

CREATE VIEW entry_of_request AS
    SELECT 'entry', branch, number, 'account', account, 'amount', delta, 'at', time, 'by', badge, certificate, 'slip', iif(slip = 0, '-', slip), path, status
    FROM joined ORDER BY branch, number;

SELECT 'no line explains', what, branch, number, 'of user', user_no FROM acts WHERE what = 'cash line'
    AND NOT EXISTS (SELECT 1 FROM asked WHERE (asked.user_no, asked.form) = (acts.user_no, acts.form) AND may_act AND acts.moment BETWEEN begun AND ended)
    ORDER BY branch, number;
SELECT 'no line explains entry', branch, number, 'of user', user_no FROM new_entries AS it
    WHERE NOT EXISTS (SELECT 1 FROM joined WHERE (joined.branch, joined.number) = (it.branch, it.number)) ORDER BY branch, number;
-- An act that a line names by its slip, or by its moment, and that is not there.
SELECT 'nothing is there for line', time, badge, path, status, 'slip', iif(slip = 0, '-', slip) FROM asked WHERE is_sure AND CASE
    WHEN form = 14 THEN 0
    WHEN slip != 0 THEN NOT EXISTS (SELECT 1 FROM bank.slips WHERE (slips.user_no, slips.slip, slips.form) = (asked.user_no, asked.slip, asked.form))
        OR EXISTS (SELECT 1 FROM slipped WHERE (slipped.user_no, slipped.slip) = (asked.user_no, asked.slip)
            AND NOT EXISTS (SELECT 1 FROM new_entries AS it WHERE (it.branch, it.number) = (slipped.branch, slipped.number)))
    WHEN has_moment THEN NOT EXISTS (SELECT 1 FROM acts WHERE (acts.user_no, acts.form) = (asked.user_no, asked.form) AND acts.moment BETWEEN begun AND ended) END
    ORDER BY ended;
-- Several within one second, and what has no moment: how many there are.
SELECT iif(acts < sure, 'fewer', 'more') || ' than were asked for:', path, iif(user_no = 0, 'of all', 'of user ' || user_no), 'are', printf('%g', acts),
    'and requests', iif(acts < sure, sure, possible) FROM counted JOIN kinds USING (form) JOIN period
    WHERE acts NOT BETWEEN sure AND possible AND (has_before OR has_moment) ORDER BY form, user_no;
SELECT 'perhaps not there: line', time, badge, path, status, 'slip', '-' FROM asked JOIN counted
    ON (counted.form, counted.user_no) = (asked.form, asked.counted_user) JOIN period WHERE has_before AND NOT has_moment AND slip = 0 AND is_sure AND acts < sure ORDER BY ended;
SELECT 'lines that are no JSON', number FROM torn WHERE number > 0;
SELECT 'lines that had no room', sum(line ->> 'lost') FROM line HAVING sum(line ->> 'lost') > 0;
