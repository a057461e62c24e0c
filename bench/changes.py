"""Changes of a library's tables by hand, each of which breaks a rule of the library.

A change is picked by one row, by its rowid, and is one statement. `why` is the rule that it breaks, whatever else the library has. Left out is what breaks no
rule: another text of a card that a line can have, another order of the cards of sets, a common deck for a deck, NOPROP, a stored run or a mark that is lost,
a mark that is lowered but not to 0, other bytes of a run, and other bytes in the middle of a reply.

A change is found with status 1, or with 3 where a row can't be read as a row of a library, or where the tables are not those of the schema.
"""

from collections import namedtuple

# table: the table that changes; what: the change in words; picks: the rows that it can be made at, as `FROM ..`; sql: the statement, with the rowid as ?1;
# status: the exit status that is expected; why: the rule that it breaks.
Change = namedtuple("Change", "table what picks sql status why")

LIVE = "EXISTS (SELECT 1 FROM states s WHERE s.ident = t.ident AND s.num = t.num AND s.active = 1)"
LAST_OF = "(SELECT max(ord) FROM {0} o WHERE o.ident = t.ident AND o.num = t.num)"
HAS_CARDS = "EXISTS (SELECT 1 FROM cards c WHERE c.ident = t.name)"
NOT_LAST = "t.pos < (SELECT max(pos) FROM cards c WHERE c.deck = t.deck)"
OTHER_DECK = "(SELECT age FROM idents i WHERE i.held = 1 AND i.kind <> 0 AND i.age <> {0}.deck ORDER BY age LIMIT 1)"
OTHER_HELD = "(SELECT age FROM idents i WHERE i.held = 1 AND i.age <> {0}.who ORDER BY age LIMIT 1)"
YOUNGEST = "(SELECT max(age) FROM idents WHERE held = 1)"
UNSETTLED = "site NOT IN (SELECT site FROM settled)"

UNREADABLE = "a number, a kind or a name that no row has"
APART = "held names differ"
CARD_OF = "entries, targets and statuses are those of cards that are there"
NO_HOLES = "places are 0, 1, .. without a gap"
OWN_STATUS = "each card has the one status that the histories give it"
OWN_COUNT = "each target of a live yank card has its count, and no other has one"
ABOVE_MARK = "stored runs are above their site's mark"
OWN_REPLY = "a stored reply begins and ends as one to its run"
OF_A_LINE = "the text of a card has at most 80 bytes, printable ASCII or tabs"
OWN_SITE = "a site is 1 to 8 of A-Z and 0-9"
OWN_NUMBER = "a run's number is 1 to 999,999,999"
OWN_ORDER = "a deck's own cards are numbered 1, 2, .. in order"
IN_ORDER = "the entries behind a card's first are in order of their idents"
IS_OWN = "{0}.ident = (SELECT name FROM idents i WHERE i.age = {0}.deck)"

META = [
    Change("meta", "a newer version", "FROM meta t", "UPDATE meta SET v = 4 WHERE rowid = ?1", 3, "the schema is the third"),
    Change("meta", "an older version", "FROM meta t", "UPDATE meta SET v = 2 WHERE rowid = ?1", 3, "the schema is the third"),
    Change("meta", "a negative version", "FROM meta t", "UPDATE meta SET v = -1 WHERE rowid = ?1", 3, "the schema is the third"),
    Change("meta", "another key", "FROM meta t", "UPDATE meta SET k = 'other' WHERE rowid = ?1", 3, "there is a version"),
    Change("meta", "no version", "FROM meta t", "DELETE FROM meta WHERE rowid = ?1", 3, "there is a version"),
    Change("meta", "a row added", "FROM meta t", "INSERT INTO meta VALUES ('x', 1)", 3, "there is no row but the version"),
    Change("meta", "a row added with the same number", "FROM meta t", "INSERT INTO meta SELECT 'other', v FROM meta WHERE rowid = ?1", 3,
           "there is no row but the version"),
]

IDENTS = [
    Change("idents", "a serial after a gap", "FROM idents t", "UPDATE idents SET age = age + 100000 WHERE rowid = ?1", 1, "serials are 1, 2, .."),
    Change("idents", "the serial 0", "FROM idents t", "UPDATE idents SET age = 0 WHERE rowid = ?1", 1, "serials are 1, 2, .."),
    Change("idents", "a negative serial", "FROM idents t", "UPDATE idents SET age = -age WHERE rowid = ?1", 3, UNREADABLE),
    Change("idents", "the name of another", "FROM idents t WHERE held = 1 AND (SELECT count(*) FROM idents WHERE held = 1) > 1",
           "UPDATE idents SET name = (SELECT name FROM idents WHERE held = 1 AND rowid <> ?1 LIMIT 1) WHERE rowid = ?1", 1, APART),
    Change("idents", "the name YANK$$$", "FROM idents t WHERE held = 1", "UPDATE idents SET name = 'YANK$$$' WHERE rowid = ?1", 1,
           "no held name is that of YANK$$$"),
    Change("idents", "a name of none of its cards", f"FROM idents t WHERE held = 1 AND {HAS_CARDS}", "UPDATE idents SET name = 'NOBODY99' WHERE rowid = ?1", 1,
           "cards are named by held idents"),
    Change("idents", "held by 2", "FROM idents t", "UPDATE idents SET held = 2 WHERE rowid = ?1", 3, UNREADABLE),
    Change("idents", "NOPROP by -1", "FROM idents t", "UPDATE idents SET noprop = -1 WHERE rowid = ?1", 3, UNREADABLE),
    Change("idents", "a name with a blank", "FROM idents t", "UPDATE idents SET name = 'A B' WHERE rowid = ?1", 3, UNREADABLE),
    Change("idents", "a set made a deck", "FROM idents t WHERE held = 1 AND kind = 0", "UPDATE idents SET kind = 1 WHERE rowid = ?1", 1,
           "a held deck has cards, the first of them its own"),
    Change("idents", "a deck made a set", "FROM idents t WHERE held = 1 AND kind <> 0", "UPDATE idents SET kind = 0 WHERE rowid = ?1", 1,
           "the cards of a deck are of a held deck"),
    Change("idents", "the kind 3", "FROM idents t", "UPDATE idents SET kind = 3 WHERE rowid = ?1", 3, UNREADABLE),
    Change("idents", "a purged deck made held", "FROM idents t WHERE held = 0 AND kind <> 0", "UPDATE idents SET held = 1 WHERE rowid = ?1", 1,
           "a held deck has cards"),
    Change("idents", "one with cards made purged", f"FROM idents t WHERE held = 1 AND {HAS_CARDS}", "UPDATE idents SET held = 0 WHERE rowid = ?1", 1,
           "the ident of a card is held"),
    Change("idents", "a row lost before others", "FROM idents t WHERE age < (SELECT max(age) FROM idents)", "DELETE FROM idents WHERE rowid = ?1", 1,
           "serials are 1, 2, .."),
    Change("idents", "a row with cards lost", f"FROM idents t WHERE held = 1 AND {HAS_CARDS}", "DELETE FROM idents WHERE rowid = ?1", 1,
           "the ident of a card is held"),
    Change("idents", "a row added after a gap", "FROM idents t LIMIT 1", "INSERT INTO idents SELECT max(age) + 2, 'NOBODY99', 0, 0, 1 FROM idents", 1,
           "serials are 1, 2, .."),
    Change("idents", "a row added with a name that is there", "FROM idents t WHERE held = 1",
           "INSERT INTO idents SELECT (SELECT max(age) + 1 FROM idents), name, 0, 0, 1 FROM idents WHERE rowid = ?1", 1, APART),
]

CARDS = [
    Change("cards", "another number", "FROM cards t", "UPDATE cards SET num = num + 100000 WHERE rowid = ?1", 1, CARD_OF),
    Change("cards", "the number 0", "FROM cards t", "UPDATE cards SET num = 0 WHERE rowid = ?1", 1, CARD_OF),
    Change("cards", "a negative number", "FROM cards t", "UPDATE cards SET num = -num WHERE rowid = ?1", 3, UNREADABLE),
    Change("cards", "another name", "FROM cards t", "UPDATE cards SET ident = 'NOBODY99' WHERE rowid = ?1", 1, "cards are named by held idents"),
    Change("cards", "another deck", f"FROM cards t WHERE deck <> 0 AND {NOT_LAST} AND {OTHER_DECK.format('t')} > 0",
           f"UPDATE cards SET deck = {OTHER_DECK.format('cards')} WHERE rowid = ?1", 1, NO_HOLES),
    Change("cards", "a place in YANK$$$", f"FROM cards t WHERE deck <> 0 AND {NOT_LAST}", "UPDATE cards SET deck = 0 WHERE rowid = ?1", 1, NO_HOLES),
    Change("cards", "no deck", "FROM cards t", "UPDATE cards SET deck = 99999 WHERE rowid = ?1", 1, "the deck of a card is held"),
    Change("cards", "a place after a gap", "FROM cards t", "UPDATE cards SET pos = pos + 100000 WHERE rowid = ?1", 1, NO_HOLES),
    Change("cards", "the place of the card before it", "FROM cards t WHERE pos > 0", "UPDATE cards SET pos = pos - 1 WHERE rowid = ?1", 1, NO_HOLES),
    Change("cards", "the first place for the second card", f"FROM cards t WHERE deck <> 0 AND pos = 0 AND {NOT_LAST}",
           "UPDATE cards SET pos = 1 - pos WHERE pos < 2 AND deck = (SELECT deck FROM cards WHERE rowid = ?1)", 1, "the first card of a deck is its own"),
    Change("cards", "a text of 81 bytes", "FROM cards t", "UPDATE cards SET body = printf('%081d', 0) WHERE rowid = ?1", 1, OF_A_LINE),
    Change("cards", "a text with a byte that is not ASCII", "FROM cards t", "UPDATE cards SET body = 'CAF\u00c9' WHERE rowid = ?1", 1, OF_A_LINE),
    Change("cards", "a text with a line end", "FROM cards t", "UPDATE cards SET body = 'ONE' || char(10) || 'TWO' WHERE rowid = ?1", 1, OF_A_LINE),
    Change("cards", "a row lost", "FROM cards t", "DELETE FROM cards WHERE rowid = ?1", 1, CARD_OF),
    Change("cards", "the place of the next card of its deck", f"FROM cards t JOIN cards c ON c.deck = t.deck AND c.pos = t.pos + 1 WHERE t.pos > 0 AND "
           f"{IS_OWN.format('t')} AND {IS_OWN.format('c')}", "UPDATE cards SET pos = 2 * (SELECT pos FROM cards WHERE rowid = ?1) + 1 - pos WHERE deck = "
           "(SELECT deck FROM cards WHERE rowid = ?1) AND pos - (SELECT pos FROM cards WHERE rowid = ?1) IN (0, 1)", 1, OWN_ORDER),
    Change("cards", "a row added", "FROM cards t", "INSERT INTO cards SELECT ident, num + 100000, deck, "
           "(SELECT max(pos) + 1 FROM cards c WHERE c.deck = cards.deck), body FROM cards WHERE rowid = ?1", 1, "each card has a history"),
]

ENTRIES = [
    Change("entries", "a place after a gap", f"FROM entries t WHERE ord = {LAST_OF.format('entries')}",
           "UPDATE entries SET ord = ord + 1 WHERE rowid = ?1", 1, NO_HOLES),
    Change("entries", "the first one lost", "FROM entries t WHERE ord = 0", "DELETE FROM entries WHERE rowid = ?1", 1, "each history has a first entry"),
    Change("entries", "one between others lost", f"FROM entries t WHERE ord > 0 AND ord < {LAST_OF.format('entries')}",
           "DELETE FROM entries WHERE rowid = ?1", 1, NO_HOLES),
    Change("entries", "the first one of another ident", f"FROM entries t WHERE ord = 0 AND {OTHER_HELD.format('t')} > 0",
           f"UPDATE entries SET who = {OTHER_HELD.format('entries')} WHERE rowid = ?1", 1, "a history begins with the card's own ident"),
    Change("entries", "on by 2", "FROM entries t", "UPDATE entries SET active = 2 WHERE rowid = ?1", 3, UNREADABLE),
    Change("entries", "the first one off", "FROM entries t WHERE ord = 0", "UPDATE entries SET active = 0 WHERE rowid = ?1", 1, "a history begins with on"),
    Change("entries", "an ident that is not there", "FROM entries t", "UPDATE entries SET who = 99999 WHERE rowid = ?1", 1, "the ident of an entry is held"),
    Change("entries", "a purged ident", "FROM entries t WHERE EXISTS (SELECT 1 FROM idents WHERE held = 0)",
           "UPDATE entries SET who = (SELECT age FROM idents WHERE held = 0 LIMIT 1) WHERE rowid = ?1", 1, "the ident of an entry is held"),
    Change("entries", "a negative ident", "FROM entries t", "UPDATE entries SET who = -who WHERE rowid = ?1", 3, UNREADABLE),
    Change("entries", "another card's name", "FROM entries t", "UPDATE entries SET ident = 'NOBODY99' WHERE rowid = ?1", 1, CARD_OF),
    Change("entries", "another card's number", "FROM entries t", "UPDATE entries SET num = num + 100000 WHERE rowid = ?1", 1, CARD_OF),
    Change("entries", "a row added for no card", "FROM entries t",
           "INSERT INTO entries SELECT 'NOBODY99', num, ord, who, active FROM entries WHERE rowid = ?1", 1, CARD_OF),
    Change("entries", "a row added after a gap", "FROM entries t",
           "INSERT INTO entries SELECT ident, num, ord + 100000, who, active FROM entries WHERE rowid = ?1", 1, NO_HOLES),
    Change("entries", "a row added to a first card", "FROM entries t JOIN cards c ON c.ident = t.ident AND c.num = t.num WHERE c.pos = 0 AND c.deck <> 0",
           "INSERT INTO entries SELECT ident, num, ord + 1, who, active FROM entries WHERE rowid = ?1", 1, "no run switches a deck's first card"),
    Change("entries", "one between others of the youngest ident", f"FROM entries t WHERE ord > 0 AND ord < {LAST_OF.format('entries')} AND "
           f"(SELECT who FROM entries o WHERE o.ident = t.ident AND o.num = t.num AND o.ord = t.ord + 1) < {YOUNGEST}",
           f"UPDATE entries SET who = {YOUNGEST} WHERE rowid = ?1", 1, IN_ORDER),
    Change("entries", "the last one switched, without yanks",
           f"FROM entries t WHERE ord > 0 AND ord = {LAST_OF.format('entries')} AND NOT EXISTS (SELECT 1 FROM targets)",
           "UPDATE entries SET active = 1 - active WHERE rowid = ?1", 1, OWN_STATUS),
]

TARGETS = [
    Change("targets", "a place after a gap", f"FROM targets t WHERE ord = {LAST_OF.format('targets')}",
           "UPDATE targets SET ord = ord + 1 WHERE rowid = ?1", 1, NO_HOLES),
    Change("targets", "one of a live card lost", f"FROM targets t WHERE {LIVE}", "DELETE FROM targets WHERE rowid = ?1", 1, OWN_COUNT),
    Change("targets", "another ident on a live card", f"FROM targets t WHERE kind = 0 AND target > 1 AND {LIVE}",
           "UPDATE targets SET target = target - 1 WHERE rowid = ?1", 1, OWN_COUNT),
    Change("targets", "an ident that is not older", "FROM targets t", "UPDATE targets SET target = 99999 WHERE rowid = ?1", 1,
           "targets are older than their card"),
    Change("targets", "a deck for a set on a live card", f"FROM targets t WHERE kind = 0 AND {LIVE}", "UPDATE targets SET kind = 2 WHERE rowid = ?1", 1,
           OWN_COUNT),
    Change("targets", "the kind 3", "FROM targets t", "UPDATE targets SET kind = 3 WHERE rowid = ?1", 3, UNREADABLE),
    Change("targets", "a deck beside a set", "FROM targets t WHERE kind = 0", "UPDATE targets SET deck = 1 WHERE rowid = ?1", 3, UNREADABLE),
    Change("targets", "another card's number", "FROM targets t", "UPDATE targets SET num = num + 100000 WHERE rowid = ?1", 1, CARD_OF),
    Change("targets", "a row added twice", "FROM targets t", "INSERT INTO targets SELECT ident, num, (SELECT max(ord) + 1 FROM targets o "
           "WHERE o.ident = targets.ident AND o.num = targets.num), kind, target, deck FROM targets WHERE rowid = ?1", 1, "no yank card has a target twice"),
    Change("targets", "a row added for a card of a deck", "FROM cards t WHERE deck <> 0",
           "INSERT INTO targets SELECT ident, num, 0, 0, 1, 0 FROM cards WHERE rowid = ?1", 1, "only yank cards have targets"),
    Change("targets", "a row added for no card", "FROM idents t LIMIT 1", "INSERT INTO targets VALUES ('NOBODY99', 1, 0, 0, 1, 0)", 1, CARD_OF),
]

RUNS = [
    Change("runs", "another number", "FROM runs t", "UPDATE runs SET num = num + 100000 WHERE rowid = ?1", 1, OWN_REPLY),
    Change("runs", "accepted by 2", "FROM runs t", "UPDATE runs SET accepted = 2 WHERE rowid = ?1", 3, UNREADABLE),
    Change("runs", "a negative number", "FROM runs t", "UPDATE runs SET num = -num WHERE rowid = ?1", 3, UNREADABLE),
    Change("runs", "another site", "FROM runs t", "UPDATE runs SET site = 'NOBODY' WHERE rowid = ?1", 1, OWN_REPLY),
    Change("runs", "a site in small letters", "FROM runs t", "UPDATE runs SET site = lower(site) WHERE rowid = ?1", 1, OWN_SITE),
    Change("runs", "a site in small letters, in the reply too", "FROM runs t",
           "UPDATE runs SET site = 'lyon', reply = CAST(replace(CAST(reply AS TEXT), '\"site\":\"' || site || '\"', '\"site\":\"lyon\"') AS BLOB) "
           "WHERE rowid = ?1", 1, OWN_SITE),
    Change("runs", "a number that is too great", "FROM runs t", "UPDATE runs SET num = 1000000000 WHERE rowid = ?1", 1, OWN_NUMBER),
    Change("runs", "a number that is too great, in the reply too", "FROM runs t",
           "UPDATE runs SET num = 1000000000, reply = CAST(replace(CAST(reply AS TEXT), '\"run\":' || num || ',', '\"run\":1000000000,') AS BLOB) "
           "WHERE rowid = ?1", 1, OWN_NUMBER),
    Change("runs", "another mode", "FROM runs t WHERE accepted = 1", "UPDATE runs SET mode = (mode + 1) % 3 WHERE rowid = ?1", 1, OWN_REPLY),
    Change("runs", "the mode 3", "FROM runs t", "UPDATE runs SET mode = 3 WHERE rowid = ?1", 1, "a mode is 0, 1 or 2"),
    Change("runs", "another outcome", "FROM runs t", "UPDATE runs SET accepted = 1 - accepted WHERE rowid = ?1", 1, OWN_REPLY),
    Change("runs", "a reply without its first byte", "FROM runs t", "UPDATE runs SET reply = substr(reply, 2) WHERE rowid = ?1", 1, OWN_REPLY),
    Change("runs", "a reply without its last byte", "FROM runs t",
           "UPDATE runs SET reply = substr(reply, 1, length(reply) - 1) WHERE rowid = ?1", 1, OWN_REPLY),
    Change("runs", "no reply", "FROM runs t", "UPDATE runs SET reply = x'' WHERE rowid = ?1", 1, OWN_REPLY),
    Change("runs", "the reply to another run", "FROM runs t WHERE (SELECT count(*) FROM runs) > 1",
           "UPDATE runs SET reply = (SELECT reply FROM runs WHERE rowid <> ?1 LIMIT 1) WHERE rowid = ?1", 1, OWN_REPLY),
    Change("runs", "a row added", "FROM runs t",
           "INSERT INTO runs SELECT site, num + 100000, mode, body, accepted, reply FROM runs WHERE rowid = ?1", 1, OWN_REPLY),
]

STATES = [
    Change("states", "active by 7", "FROM states t", "UPDATE states SET active = 7 WHERE rowid = ?1", 3, UNREADABLE),
    Change("states", "another status", "FROM states t", "UPDATE states SET active = 1 - active WHERE rowid = ?1", 1, OWN_STATUS),
    Change("states", "a row lost", "FROM states t", "DELETE FROM states WHERE rowid = ?1", 1, OWN_STATUS),
    Change("states", "another number", "FROM states t", "UPDATE states SET num = num + 100000 WHERE rowid = ?1", 1, OWN_STATUS),
    Change("states", "another name", "FROM states t", "UPDATE states SET ident = 'NOBODY99' WHERE rowid = ?1", 1, OWN_STATUS),
    Change("states", "a negative number", "FROM states t", "UPDATE states SET num = -num WHERE rowid = ?1", 3, UNREADABLE),
    Change("states", "a row added", "FROM states t", "INSERT INTO states SELECT ident, num + 100000, active FROM states WHERE rowid = ?1", 1, CARD_OF),
]

COUNTS = [
    Change("counts", "one more", "FROM counts t", "UPDATE counts SET n = n + 1 WHERE rowid = ?1", 1, OWN_COUNT),
    Change("counts", "none", "FROM counts t", "UPDATE counts SET n = 0 WHERE rowid = ?1", 1, OWN_COUNT),
    Change("counts", "a negative number", "FROM counts t", "UPDATE counts SET n = -n WHERE rowid = ?1", 3, UNREADABLE),
    Change("counts", "a row lost", "FROM counts t", "DELETE FROM counts WHERE rowid = ?1", 1, OWN_COUNT),
    Change("counts", "another target", "FROM counts t", "UPDATE counts SET target = target + 100000 WHERE rowid = ?1", 1, OWN_COUNT),
    Change("counts", "a set in a deck for a set", "FROM counts t WHERE kind = 0", "UPDATE counts SET kind = 1, deck = 99999 WHERE rowid = ?1", 1, OWN_COUNT),
    Change("counts", "the kind 3", "FROM counts t", "UPDATE counts SET kind = 3 WHERE rowid = ?1", 3, UNREADABLE),
    Change("counts", "a row added", "FROM idents t LIMIT 1", "INSERT INTO counts VALUES (0, 99999, 0, 1)", 1, OWN_COUNT),
]

SETTLED = [
    Change("settled", "a mark at a stored run", "FROM settled t WHERE EXISTS (SELECT 1 FROM runs r WHERE r.site = t.site)",
           "UPDATE settled SET mark = (SELECT max(num) FROM runs r WHERE r.site = settled.site) WHERE rowid = ?1", 1, ABOVE_MARK),
    Change("settled", "a row added at a stored run", f"FROM runs t WHERE {UNSETTLED}", "INSERT INTO settled SELECT site, num FROM runs WHERE rowid = ?1", 1,
           ABOVE_MARK),
    Change("settled", "the site of stored runs", f"FROM settled t WHERE EXISTS (SELECT 1 FROM runs r WHERE r.{UNSETTLED} AND r.num <= t.mark)",
           f"UPDATE settled SET site = (SELECT site FROM runs r WHERE r.{UNSETTLED} AND r.num <= settled.mark LIMIT 1) WHERE rowid = ?1", 1,
           ABOVE_MARK),
    Change("settled", "a site in small letters", "FROM settled t", "UPDATE settled SET site = lower(site) WHERE rowid = ?1", 1, OWN_SITE),
    Change("settled", "a mark of 0", "FROM settled t", "UPDATE settled SET mark = 0 WHERE rowid = ?1", 1, OWN_NUMBER),
    Change("settled", "a mark that is too great", "FROM settled t", "UPDATE settled SET mark = 1000000000 WHERE rowid = ?1", 1, OWN_NUMBER),
    Change("settled", "a negative mark", "FROM settled t", "UPDATE settled SET mark = -1 - mark WHERE rowid = ?1", 3, UNREADABLE),
]

TABLES = ["meta", "idents", "cards", "entries", "targets", "runs", "states", "counts", "settled"]

SCHEMA = [Change("schema", f"{table} dropped", "FROM meta t", f"DROP TABLE {table}", 3, "the nine tables are there") for table in TABLES] + [
    Change("schema", "a column more", "FROM meta t", "ALTER TABLE cards ADD COLUMN note TEXT", 3, "the tables are those of the schema"),
    Change("schema", "a column renamed", "FROM meta t", "ALTER TABLE runs RENAME COLUMN num TO number", 3, "the tables are those of the schema"),
    Change("schema", "a table more", "FROM meta t", "CREATE TABLE other (k TEXT NOT NULL, PRIMARY KEY (k)) STRICT", 3, "there is no other table"),
    Change("schema", "an index", "FROM meta t", "CREATE INDEX other ON cards (deck)", 3, "there is no other index"),
]

CHANGES = META + IDENTS + CARDS + ENTRIES + TARGETS + RUNS + STATES + COUNTS + SETTLED + SCHEMA
