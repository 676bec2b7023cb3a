-- Who changed what and when: a row as it was and as it is, or nothing. Each change follows from the one before by its sum, so none is
-- altered or removed without that it shows. The texts and their salt are dropped where a holder is forgotten.
CREATE TABLE IF NOT EXISTS changes (
    change INTEGER PRIMARY KEY, moment INTEGER NOT NULL, badge TEXT NOT NULL, what TEXT NOT NULL, row TEXT NOT NULL,
    old TEXT, new TEXT, salt TEXT, digest TEXT NOT NULL, sum TEXT NOT NULL
) STRICT;
CREATE INDEX IF NOT EXISTS changes_by_row ON changes (what, row);
CREATE TRIGGER IF NOT EXISTS changes_stay BEFORE UPDATE OF change, moment, badge, what, row, digest, sum ON changes
    BEGIN SELECT RAISE(ABORT, 'a change is never changed'); END;
CREATE TRIGGER IF NOT EXISTS texts_stay BEFORE UPDATE OF old, new, salt ON changes
    WHEN NEW.old IS NOT NULL OR NEW.new IS NOT NULL OR NEW.salt IS NOT NULL
    BEGIN SELECT RAISE(ABORT, 'a change is never changed'); END;
CREATE TRIGGER IF NOT EXISTS changes_are_kept BEFORE DELETE ON changes BEGIN SELECT RAISE(ABORT, 'a change is never removed'); END;
