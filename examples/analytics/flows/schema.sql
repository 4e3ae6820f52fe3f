-- A database of flows. Times are in milliseconds since 1970. What a record doesn't have is NULL.
CREATE TABLE loaded (
    id INTEGER PRIMARY KEY,
    name TEXT NOT NULL,
    digest BLOB NOT NULL UNIQUE, -- of the lines, so that none is loaded twice
    flows INTEGER NOT NULL,
    options INTEGER NOT NULL
) STRICT;

CREATE TABLE flow (
    source TEXT,
    destination TEXT,
    source_port INTEGER CHECK (source_port BETWEEN 0 AND 65535),
    destination_port INTEGER CHECK (destination_port BETWEEN 0 AND 65535),
    service_port INTEGER CHECK (service_port IS min(source_port, destination_port)), -- most often that of the service
    protocol INTEGER CHECK (protocol BETWEEN 0 AND 255),
    octets INTEGER CHECK (octets >= 0),
    packets INTEGER CHECK (packets >= 0),
    started INTEGER CHECK (started >= 0),
    ended INTEGER CHECK (ended >= 0),
    loaded INTEGER NOT NULL REFERENCES loaded (id)
) STRICT;

-- options records, which say something of the exporter: their lines
CREATE TABLE options_record (
    record TEXT NOT NULL CHECK (json_valid(record)),
    loaded INTEGER NOT NULL REFERENCES loaded (id)
) STRICT;
