-- The services of most traffic: the lower of the two ports, and the protocol.
-- `.parameter set :top 3` for another number than 10.
SELECT
    service_port AS port,
    protocol,
    coalesce(sum(octets), 0) AS octets,
    coalesce(sum(packets), 0) AS packets,
    count(*) AS flows
FROM flow
WHERE service_port IS NOT NULL AND protocol IS NOT NULL
GROUP BY service_port, protocol
ORDER BY 3 DESC, service_port, protocol
LIMIT coalesce(:top, 10);
