-- Flows by their size: how many decimal digits their octets have.
SELECT length(octets) AS digits, sum(octets) AS octets, coalesce(sum(packets), 0) AS packets, count(*) AS flows
FROM flow
WHERE octets IS NOT NULL
GROUP BY 1
ORDER BY 1;
