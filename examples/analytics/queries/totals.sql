-- All flows together; first and last are starts, in milliseconds since 1970.
SELECT
    count(*) AS flows,
    (SELECT count(*) FROM options_record) AS options,
    coalesce(sum(octets), 0) AS octets,
    coalesce(sum(packets), 0) AS packets,
    min(started) AS first,
    max(started) AS last
FROM flow;
