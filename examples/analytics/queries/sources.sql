-- The addresses that sent most. `.parameter set :top 3` for another number than 10.
SELECT source, coalesce(sum(octets), 0) AS octets, coalesce(sum(packets), 0) AS packets, count(*) AS flows
FROM flow
WHERE source IS NOT NULL
GROUP BY source
ORDER BY 2 DESC, source
LIMIT coalesce(:top, 10);
