-- What began in each step of time that has a flow; time is in seconds since 1970.
-- `.parameter set :step 60` for steps of another number of seconds than 3600.
SELECT
    started / (1000 * coalesce(:step, 3600)) * coalesce(:step, 3600) AS time,
    coalesce(sum(octets), 0) AS octets,
    coalesce(sum(packets), 0) AS packets,
    count(*) AS flows
FROM flow
WHERE started IS NOT NULL
GROUP BY 1
ORDER BY 1;
