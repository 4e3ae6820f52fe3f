-- The addresses that most was sent to. `.parameter set :top 3` for another number than 10.
SELECT destination, coalesce(sum(octets), 0) AS octets, coalesce(sum(packets), 0) AS packets, count(*) AS flows
FROM flow
WHERE destination IS NOT NULL
GROUP BY destination
ORDER BY 2 DESC, destination
LIMIT coalesce(:top, 10);
