-- The cloud's tables, in the common part of SQLite and PostgreSQL.

-- The store is a table: a row for each different tree, numbered from 0.
CREATE TABLE store_row (
    number INTEGER PRIMARY KEY,
    label BIGINT NOT NULL,
    inputs INTEGER NOT NULL,
    input0 INTEGER NOT NULL,
    input1 INTEGER NOT NULL,
    input2 INTEGER NOT NULL,
    input3 INTEGER NOT NULL
);

-- zeroed: 1 the zero is off already, 0 it is still in, NULL nobody has judged it yet. In one store number and key are one to one, so
-- the key needs no index.
CREATE TABLE chain (
    number INTEGER PRIMARY KEY REFERENCES store_row (number),
    zeroed INTEGER,
    key_hex TEXT NOT NULL
);

-- A logger has a store of its own, so its number for a chain is another one than the cloud's.
CREATE TABLE logger_chain (
    logger TEXT NOT NULL,
    number INTEGER NOT NULL,
    chain INTEGER NOT NULL REFERENCES chain (number),
    PRIMARY KEY (logger, number)
);

CREATE TABLE zero (
    logger TEXT PRIMARY KEY,
    counts INTEGER NOT NULL
);

CREATE TABLE reading (
    logger TEXT NOT NULL,
    tick INTEGER NOT NULL,
    number INTEGER NOT NULL,
    counts INTEGER NOT NULL,
    PRIMARY KEY (logger, tick),
    FOREIGN KEY (logger, number) REFERENCES logger_chain (logger, number)
);

-- Readings of judged chains only: "not judged" is never "no".
CREATE VIEW corrected AS
SELECT reading.logger, reading.tick, reading.counts - (1 - chain.zeroed) * zero.counts AS counts
FROM reading
JOIN logger_chain ON logger_chain.logger = reading.logger AND logger_chain.number = reading.number
JOIN chain ON chain.number = logger_chain.chain
JOIN zero ON zero.logger = reading.logger
WHERE chain.zeroed IS NOT NULL;

CREATE VIEW waiting AS
SELECT reading.logger, reading.tick, reading.counts
FROM reading
JOIN logger_chain ON logger_chain.logger = reading.logger AND logger_chain.number = reading.number
JOIN chain ON chain.number = logger_chain.chain
WHERE chain.zeroed IS NULL;
