-- Each index has all that its query in queries/ reads, so that the query reads the index alone.
CREATE INDEX IF NOT EXISTS flow_by_start ON flow (started, octets, packets);
CREATE INDEX IF NOT EXISTS flow_by_source ON flow (source, started, octets, packets);
CREATE INDEX IF NOT EXISTS flow_by_destination ON flow (destination, started, octets, packets);
CREATE INDEX IF NOT EXISTS flow_by_service ON flow (service_port, protocol, octets, packets);
