-- All protocols, by their numbers.
SELECT protocol, coalesce(sum(octets), 0) AS octets, coalesce(sum(packets), 0) AS packets, count(*) AS flows
FROM flow
WHERE protocol IS NOT NULL
GROUP BY protocol
ORDER BY 2 DESC, protocol;
