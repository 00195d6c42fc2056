-- The tables of tools/historian.py, which makes them at its first start in a database. Paths are the server's own, as
-- /obix/boiler/flow. The views at the end are for people and for Grafana: trend, latest, open_alarm.

-- A server. `run` is the run that is followed now; `answered` is when the server answered last, to the minute.
CREATE TABLE server (
  id serial PRIMARY KEY,
  url text NOT NULL UNIQUE,
  name text NOT NULL,
  run int NOT NULL DEFAULT 0,
  answered timestamptz
);

-- A run of a server, known by its boot time: `obix keep` goes on with its run over restarts, `obix serve` begins another at each.
CREATE TABLE run (
  server int NOT NULL REFERENCES server,
  run int NOT NULL,
  boot timestamptz NOT NULL,
  PRIMARY KEY (server, run),
  UNIQUE (server, boot)
);

-- A point, as the lobby showed it when the server was joined last. One that was renamed or taken away keeps its row.
CREATE TABLE point (
  server int NOT NULL REFERENCES server,
  path text NOT NULL,
  name text,
  kind text NOT NULL,
  unit text,
  low text,
  high text,
  writable bool NOT NULL,
  PRIMARY KEY (server, path)
);

-- A history, and the point that it records.
CREATE TABLE history (
  id serial PRIMARY KEY,
  server int NOT NULL REFERENCES server,
  path text NOT NULL,
  source text,
  UNIQUE (server, path)
);

-- Where the stored records of a history end in a run: the moment of the last, and how many records of that moment are stored.
-- Up to `careful` records may be stored already, since the server went back: each is looked for. `next` is the number of the record
-- that comes after the stored ones, of a server that numbers them.
CREATE TABLE place (
  history int NOT NULL REFERENCES history,
  run int NOT NULL,
  at timestamptz,
  k int NOT NULL DEFAULT 0,
  careful timestamptz,
  next bigint,
  PRIMARY KEY (history, run)
);

-- A record: its moment, and its number among the records of that moment, from 0. An int and a real are in `num`, exactly, and a
-- bool as 1 or 0; any other value is in `txt`, as the server spells it; null is in neither.
CREATE TABLE record (
  history int NOT NULL,
  run int NOT NULL,
  at timestamptz NOT NULL,
  k int NOT NULL,
  num numeric,
  txt text,
  PRIMARY KEY (history, at, run, k)
) PARTITION BY RANGE (at);

-- What happened to an alarm: it was raised, it went back to normal, it was acknowledged (`who` by). Its number is n.
CREATE TABLE alarm_event (
  server int NOT NULL,
  run int NOT NULL,
  n int NOT NULL,
  what text NOT NULL,
  at timestamptz NOT NULL,
  source text,
  value text,
  who text,
  PRIMARY KEY (server, run, n, what, at)
) PARTITION BY RANGE (at);

-- The alarms of a run as the server has them now. `state` is unackedAlarm, alarm, unacked, or ok where nothing more can come to it.
CREATE TABLE alarm (
  server int NOT NULL REFERENCES server,
  run int NOT NULL,
  n int NOT NULL,
  source text,
  value text,
  raised timestamptz NOT NULL,
  state text NOT NULL,
  PRIMARY KEY (server, run, n)
);
CREATE INDEX alarm_open ON alarm (server, run) WHERE state <> 'ok';

-- From when to when records of a history, or events of the alarms, are missing or may be, why, and how many where that is known.
CREATE TABLE gap (
  server int NOT NULL REFERENCES server,
  path text NOT NULL,
  run int NOT NULL,
  since timestamptz NOT NULL,
  until timestamptz NOT NULL,
  why text NOT NULL,
  noticed timestamptz NOT NULL DEFAULT now(),
  lost bigint,
  PRIMARY KEY (server, path, run, since, why)
);

-- All records, with the building and the point that they are of. In order: ORDER BY at, k.
CREATE VIEW trend AS
SELECT s.name AS building, h.path AS history, h.source AS point, p.unit, r.at, r.k, r.num, r.txt
FROM server s JOIN history h ON h.server = s.id JOIN record r ON r.history = h.id
LEFT JOIN point p ON p.server = h.server AND p.path = h.source;

-- The last stored record of each history.
CREATE VIEW latest AS
SELECT s.name AS building, h.path AS history, h.source AS point, p.unit, r.at, r.num, r.txt
FROM server s JOIN history h ON h.server = s.id JOIN place l ON l.history = h.id AND l.run = s.run
JOIN record r ON r.history = h.id AND r.at = l.at AND r.k = l.k - 1
LEFT JOIN point p ON p.server = h.server AND p.path = h.source;

-- Alarms that are in alarm or wait for an acknowledgement.
CREATE VIEW open_alarm AS
SELECT s.name AS building, a.n, a.source AS point, a.value, a.raised, a.state
FROM server s JOIN alarm a ON a.server = s.id AND a.run = s.run WHERE a.state <> 'ok';
