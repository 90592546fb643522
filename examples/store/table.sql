-- The tables of a PostgreSQL database that load.py adds to: of each graph the key, the canonical text, and in how many items it is;
-- the files that were added, each with its SHA-256; and of each left-hand side whose key was given, the keys of what replaces it.
CREATE TABLE IF NOT EXISTS item(key TEXT PRIMARY KEY, text TEXT NOT NULL, count BIGINT NOT NULL);
CREATE TABLE IF NOT EXISTS file(name TEXT, digest TEXT, PRIMARY KEY(name, digest));
CREATE TABLE IF NOT EXISTS lhs(hash TEXT, key TEXT, PRIMARY KEY(hash, key));
