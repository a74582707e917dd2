-- The database that examples/archive makes. A hand is known by its file and the line on which its header stands there. In the tables
-- money is in units: hundredths where the hand is for money, and else chips; `unit` of a hand says which. In the views it is in the
-- hand's own measure, 12.5 or 350. What the text doesn't tell, or the scripts can't read of it, is NULL.
PRAGMA journal_mode = OFF;
PRAGMA synchronous = OFF;

-- the form of this database: one of another form is made anew
PRAGMA user_version = 3;

-- which program judged: the checksum of its file, and the version of the repository beside it
CREATE TABLE programs (sha256 TEXT, version TEXT);

-- path under the folder that was audited; stamp: the time of change of what was loaded; audited is 0 where the program failed
CREATE TABLE files (file INTEGER PRIMARY KEY, path TEXT UNIQUE, stamp TEXT, audited INTEGER);

-- number: as the header has it. A rejected hand has no game, unit, rake or twice; collected: what all players got of an accepted one.
-- What stands after them is what the text says beside the rules: the header's clock, and a second one where it tells two; the table,
-- the tournament with its buy-in, the stakes as numbers, the betting limit, the word or sign of the currency; the seat whose cards it
-- shows from the start; the boards; whether somebody cashed out. again: 1 where another hand of this number is first_told
CREATE TABLE hands (
    file INTEGER, line INTEGER, number TEXT, verdict TEXT, game TEXT, unit TEXT, rake INTEGER, twice INTEGER, collected INTEGER,
    day TEXT, second TEXT, zone TEXT, day2 TEXT, second2 TEXT, zone2 TEXT, place TEXT, tournament TEXT, buyin TEXT,
    small NUMERIC, big NUMERIC, betting TEXT, currency TEXT, hero INTEGER, board TEXT, board2 TEXT, cashed INTEGER,
    again INTEGER, PRIMARY KEY (file, line)
) WITHOUT ROWID;
CREATE INDEX hands_by_number ON hands (number);

-- each player of an accepted hand: the chips of his seat line, what he put in and got, what he netted, and what he would have netted
-- with even luck, NULL where that isn't known; the cards that the text gives of him; by_count: 1 where even luck goes by a count
CREATE TABLE players (
    file INTEGER, line INTEGER, seat INTEGER, name TEXT, had INTEGER, put INTEGER, got INTEGER, net INTEGER, even INTEGER,
    cards TEXT, by_count INTEGER
);
CREATE INDEX players_of_hands ON players (file, line);
CREATE INDEX players_by_name ON players (name);

-- an accepted hand whose nets and rake don't add up to 0, or with a player whose seat isn't found in the text: the table players
-- hasn't its players. By what is proved there is none of the first kind, and archive ends with 1 where there is one of either
CREATE TABLE unbalanced (file INTEGER, line INTEGER, number TEXT, sum INTEGER, lost TEXT);
CREATE INDEX unbalanced_hands ON unbalanced (file, line);

-- cause_line: the first line that departs, in the file; carried: what the cause carries
CREATE TABLE rejections (file INTEGER, line INTEGER, number TEXT, cause_line INTEGER, cause TEXT, carried TEXT);
CREATE INDEX rejections_of_hands ON rejections (file, line);

-- state: checked, unseen, or unfit, which has no rake
CREATE TABLE pots (file INTEGER, line INTEGER, pot INTEGER, gross INTEGER, rake INTEGER, state TEXT);
CREATE INDEX pots_of_hands ON pots (file, line);

-- pot: none where the names of the pots don't fit; due: only where it isn't what was paid
CREATE TABLE payments (file INTEGER, line INTEGER, pot INTEGER, paid INTEGER, due INTEGER, name TEXT);
CREATE INDEX payments_of_hands ON payments (file, line);

-- state: counted, unknown or refused; street and runouts only where it is counted
CREATE TABLE allins (file INTEGER, line INTEGER, state TEXT, street TEXT, runouts INTEGER);
CREATE INDEX allins_of_hands ON allins (file, line);

-- in how many runouts a player alone wins a side of a pot, shares it, and loses it
CREATE TABLE equities (file INTEGER, line INTEGER, pot INTEGER, side TEXT, win INTEGER, tie INTEGER, lose INTEGER, name TEXT);
CREATE INDEX equities_of_hands ON equities (file, line);

-- a player's part of a pot on average, rounded to three decimal places
CREATE TABLE parts (file INTEGER, line INTEGER, pot INTEGER, ev REAL, name TEXT);
CREATE INDEX parts_of_hands ON parts (file, line);

-- what a player could expect of all pots of a hand, in units, rounded once
CREATE TABLE expectations (file INTEGER, line INTEGER, expected INTEGER, name TEXT);
CREATE INDEX expectations_of_hands ON expectations (file, line);

-- A player's part of a pot on each street after the all-in, with the runouts that are left there. A street on which the cards of a
-- player aren't known has one row, with no more than its name.
CREATE TABLE streets (file INTEGER, line INTEGER, street TEXT, runouts INTEGER, pot INTEGER, ev REAL, name TEXT);
CREATE INDEX streets_of_hands ON streets (file, line);

-- what the player of an accepted hand, or of one that is rejected for its payments alone, is still to get, or with a sign to give back.
-- unit: hundredths or chips, which a rejected hand doesn't have in its own row
CREATE TABLE settlements (file INTEGER, line INTEGER, units INTEGER, unit TEXT, name TEXT);
CREATE INDEX settlements_of_hands ON settlements (file, line);

-- Each hand once: of those with one number an accepted one before a rejected one, and then the first by path and line. measure: how
-- many units are 1 of its money.
CREATE VIEW first_told AS
SELECT *, CASE unit WHEN 'hundredths' THEN 100.0 WHEN 'chips' THEN 1 END AS measure FROM hands WHERE again = 0;

-- Each player of each hand. The blinds have other names here than in hands, so that `big` after `JOIN hands` is that of hands. luck: net less even, and NULL where even isn't known. rake_paid: the part of the hand's rake that he has
-- of what all players got.
CREATE VIEW results AS
SELECT f.path, h.file, h.line, h.number, h.day, h.second, h.zone, h.place, h.tournament, h.buyin,
       h.small AS small_blind, h.big AS big_blind, h.betting, h.game, h.unit, h.currency, p.seat, p.name, p.cards, h.board, h.board2, p.had / measure AS had, p.put / measure AS put,
       p.got / measure AS got, p.net / measure AS net, p.even / measure AS even, (p.net - p.even) / measure AS luck, p.by_count,
       CASE WHEN h.collected > 0 THEN 1.0 * h.rake * p.got / h.collected ELSE 0 END / measure AS rake_paid
FROM players p JOIN first_told h USING (file, line) JOIN files f USING (file);

-- Sums of the same. luck is over the hands in which it is known, and unknown says how many it isn't known of: of those even is the net.
CREATE VIEW results_by_player AS
SELECT name, unit, currency, count(*) AS hands, round(sum(net), 2) AS net, round(sum(coalesce(even, net)), 2) AS even,
       round(sum(luck), 2) AS luck, count(*) - count(even) AS unknown, round(sum(rake_paid), 2) AS rake_paid
FROM results GROUP BY name, unit, currency;

CREATE VIEW results_by_day AS
SELECT name, unit, currency, day, count(*) AS hands, round(sum(net), 2) AS net, round(sum(coalesce(even, net)), 2) AS even,
       round(sum(luck), 2) AS luck, count(*) - count(even) AS unknown, round(sum(rake_paid), 2) AS rake_paid
FROM results GROUP BY name, unit, currency, day;

CREATE VIEW results_by_month AS
SELECT name, unit, currency, substr(day, 1, 7) AS month, count(*) AS hands, round(sum(net), 2) AS net,
       round(sum(coalesce(even, net)), 2) AS even, round(sum(luck), 2) AS luck, count(*) - count(even) AS unknown,
       round(sum(rake_paid), 2) AS rake_paid
FROM results GROUP BY name, unit, currency, substr(day, 1, 7);

CREATE VIEW results_by_stakes AS
SELECT name, unit, currency, tournament IS NOT NULL AS is_tournament, game, betting, small_blind AS small, big_blind AS big,
       count(*) AS hands,
       round(sum(net), 2) AS net, round(sum(coalesce(even, net)), 2) AS even, round(sum(luck), 2) AS luck,
       count(*) - count(even) AS unknown, round(sum(rake_paid), 2) AS rake_paid
FROM results GROUP BY name, unit, currency, tournament IS NOT NULL, game, betting, small_blind, big_blind;

CREATE VIEW results_by_game AS
SELECT name, unit, currency, game, count(*) AS hands, round(sum(net), 2) AS net, round(sum(coalesce(even, net)), 2) AS even,
       round(sum(luck), 2) AS luck, count(*) - count(even) AS unknown, round(sum(rake_paid), 2) AS rake_paid
FROM results GROUP BY name, unit, currency, game;

CREATE VIEW results_by_table AS
SELECT name, unit, currency, place, count(*) AS hands, round(sum(net), 2) AS net, round(sum(coalesce(even, net)), 2) AS even,
       round(sum(luck), 2) AS luck, count(*) - count(even) AS unknown, round(sum(rake_paid), 2) AS rake_paid
FROM results GROUP BY name, unit, currency, place;

-- chips of a tournament are no money: what was paid for it stands in its buy-in, and its prizes in no hand
CREATE VIEW results_by_tournament AS
SELECT name, unit, tournament, buyin, min(day) AS day, count(*) AS hands, round(sum(net), 2) AS net,
       round(sum(coalesce(even, net)), 2) AS even, round(sum(luck), 2) AS luck, count(*) - count(even) AS unknown
FROM results WHERE tournament IS NOT NULL GROUP BY name, unit, tournament, buyin;

-- A session of a player ends where he plays no hand for 30 minutes, at any table; hands without a clock are in none. The last step sums by
-- a window and not by groups, because SQLite then reads only the rows of a name that is asked for.
CREATE VIEW results_by_session AS
WITH told AS (
    SELECT *, day || ' ' || second AS clock, CAST(strftime('%s', day || ' ' || second) AS INTEGER) AS at
    FROM results WHERE day IS NOT NULL
), begun AS (
    SELECT *, coalesce(at - lag(at) OVER (PARTITION BY name, unit, currency ORDER BY at, file, line) > 1800, 1) AS begins FROM told
), numbered AS (
    SELECT *, sum(begins) OVER (PARTITION BY name, unit, currency ORDER BY at, file, line) AS session FROM begun
), summed AS (
    SELECT name, unit, currency, session, min(clock) OVER sessions AS first, max(clock) OVER sessions AS last, count(*) OVER sessions AS hands,
           sum(net) OVER sessions AS net, sum(coalesce(even, net)) OVER sessions AS even, sum(luck) OVER sessions AS luck,
           count(*) OVER sessions - count(even) OVER sessions AS unknown, sum(rake_paid) OVER sessions AS rake_paid,
           row_number() OVER sessions AS place
    FROM numbered WINDOW sessions AS (PARTITION BY name, unit, currency, session)
)
SELECT name, unit, currency, session, first, last, hands, round(net, 2) AS net, round(even, 2) AS even, round(luck, 2) AS luck, unknown,
       round(rake_paid, 2) AS rake_paid
FROM summed WHERE place = 1;

-- Each player of a hand whose luck goes by a count. Over the players of a hand luck adds up to 0, but for what was rounded.
CREATE VIEW luck AS
SELECT path, line, number, day, name, unit, currency, net, even, luck FROM results WHERE by_count = 1;

CREATE VIEW luck_by_player AS
SELECT name, unit, currency, count(*) AS hands, round(sum(net), 2) AS net, round(sum(even), 2) AS even, round(sum(luck), 2) AS luck
FROM luck GROUP BY name, unit, currency;

CREATE VIEW luck_by_month AS
SELECT name, unit, currency, substr(day, 1, 7) AS month, count(*) AS hands, round(sum(net), 2) AS net, round(sum(even), 2) AS even,
       round(sum(luck), 2) AS luck
FROM luck GROUP BY name, unit, currency, substr(day, 1, 7);

-- The hands that cost a player most.
CREATE VIEW worst_hands AS
SELECT name, unit, currency, net, luck, cards, board, path, line, number, day FROM results WHERE net < 0 ORDER BY net;

-- Each player of each pot of a counted all-in: his cards, the board in the end, how often the pot is his.
CREATE VIEW all_ins AS
SELECT f.path, h.line, h.number, h.day, h.game, a.street, a.runouts, e.pot, q.gross / measure AS gross, h.unit, h.currency, e.name,
       p.cards, h.board, h.board2, e.ev
FROM parts e JOIN first_told h USING (file, line) JOIN files f USING (file) JOIN allins a USING (file, line)
JOIN pots q ON q.file = e.file AND q.line = e.line AND q.pot = e.pot
LEFT JOIN players p ON p.file = e.file AND p.line = e.line AND p.name = e.name;

-- Each player of each pot of a counted all-in, on its own street and on each later one whose cards are known. ahead: 1 if no other
-- player's part of the pot is as great.
CREATE VIEW all_in_streets AS
WITH told AS (
    SELECT file, line, street, runouts, pot, ev, name FROM parts JOIN allins USING (file, line)
    UNION ALL SELECT file, line, street, runouts, pot, ev, name FROM streets WHERE pot IS NOT NULL
), ranked AS (
    SELECT *, rank() OVER pots AS place, count(*) OVER (pots RANGE CURRENT ROW) AS equals FROM told
    WINDOW pots AS (PARTITION BY file, line, street, pot ORDER BY ev DESC)
)
SELECT f.path, h.line, h.number, h.day, h.game, a.street AS all_in, t.street, t.runouts, t.pot, q.gross / measure AS gross, h.unit,
       h.currency, t.name, p.cards, h.board, t.ev, t.place = 1 AND t.equals = 1 AS ahead, p.net / measure AS net
FROM ranked t JOIN first_told h USING (file, line) JOIN files f USING (file) JOIN allins a USING (file, line)
JOIN pots q ON q.file = t.file AND q.line = t.line AND q.pot = t.pot
LEFT JOIN players p ON p.file = t.file AND p.line = t.line AND p.name = t.name;

-- What `equity totals` prints of all files, but for the hands without a counted all-in, and each hand once.
CREATE VIEW expected_by_player AS
SELECT e.name, h.unit, count(*) AS allins,
       sum(coalesce((SELECT sum(p.paid) FROM payments p WHERE p.file = e.file AND p.line = e.line AND p.name = e.name), 0)) AS collected,
       sum(e.expected) AS expected
FROM expectations e JOIN first_told h USING (file, line) GROUP BY e.name, h.unit;

-- Each payment that isn't what the rules give, within the tolerance, and each hand that is rejected for one beyond it.
CREATE VIEW differences AS
SELECT f.path, h.line, h.number, 'accepted' AS verdict, p.pot, p.name, p.paid / measure AS paid, p.due / measure AS due, NULL AS carried
FROM payments p JOIN first_told h USING (file, line) JOIN files f USING (file) WHERE p.due IS NOT NULL
UNION ALL
SELECT f.path, r.line, r.number, 'rejected', NULL, NULL, NULL, NULL, r.carried
FROM rejections r JOIN first_told h USING (file, line) JOIN files f USING (file) WHERE r.cause = 'Split';

-- Who is still to get what, or to give it back, by the split that the rules give: in units, and in the hand's own measure.
CREATE VIEW to_settle AS
SELECT f.path, s.line, h.number, h.verdict, s.name, s.units, CASE s.unit WHEN 'chips' THEN s.units ELSE s.units / 100.0 END AS amount,
       s.unit, h.currency
FROM settlements s JOIN first_told h USING (file, line) JOIN files f USING (file);

CREATE VIEW rejected AS
SELECT f.path, r.line, r.number, r.cause_line, r.cause, r.carried
FROM rejections r JOIN first_told h USING (file, line) JOIN files f USING (file);

CREATE VIEW rejected_by_cause AS
SELECT cause, count(*) AS hands FROM rejected GROUP BY cause;

-- Numbers of hands that are told more than once: every other view has one of them.
CREATE VIEW told_again AS
SELECT number, count(*) AS times FROM hands GROUP BY number HAVING count(*) > 1;

-- Files in which no hand was found.
CREATE VIEW no_hand AS
SELECT path FROM files f WHERE audited = 1 AND NOT EXISTS (SELECT 1 FROM hands h WHERE h.file = f.file);

-- What the text doesn't tell of a hand, or the scripts can't read.
CREATE VIEW unread AS
SELECT path, line, number, 'day' AS what FROM hands JOIN files USING (file) WHERE day IS NULL
UNION ALL SELECT path, line, number, 'table' FROM hands JOIN files USING (file) WHERE place IS NULL
UNION ALL SELECT path, line, number, 'stakes' FROM hands JOIN files USING (file) WHERE small IS NULL
UNION ALL SELECT path, line, number, 'limit' FROM hands JOIN files USING (file) WHERE betting IS NULL
UNION ALL SELECT path, line, number, 'currency' FROM hands JOIN files USING (file) WHERE currency IS NULL AND unit = 'hundredths';
