-- The listing as one query, from the tables book(number, ticks, records) and event(tick, kind, number).
-- A stay runs from an entering event to the tick before the carrier's next event, or to the last tick.
-- A moment counts where no strict leave or remove comes after it.
WITH
stay AS (
    SELECT kind, number, tick AS first,
        LEAD(tick - 1, 1, 1000000) OVER (PARTITION BY kind < 4, number ORDER BY tick) AS last
    FROM event
),
ended AS (
    SELECT kind, number, MAX(tick) AS tick FROM event WHERE kind IN (2, 6) GROUP BY kind, number
),
moment AS (
    SELECT stay.number AS model, event.number AS sheet, 2 * event.tick + 1 AS since
    FROM event JOIN stay ON event.tick BETWEEN stay.first AND stay.last
    WHERE event.kind IN (4, 5) AND stay.kind IN (0, 1)
    UNION ALL
    SELECT event.number, stay.number, 2 * event.tick
    FROM event JOIN stay ON event.tick BETWEEN stay.first AND stay.last
    WHERE event.kind = 1 AND stay.kind = 5
),
latest AS (
    SELECT model, sheet, MAX(since) AS since FROM moment GROUP BY model, sheet
),
granted AS MATERIALIZED (
    SELECT model, sheet, since FROM latest
    LEFT JOIN ended AS gone ON gone.kind = 2 AND gone.number = model
    LEFT JOIN ended AS taken ON taken.kind = 6 AND taken.number = sheet
    WHERE since / 2 >= IFNULL(gone.tick, 0) AND since / 2 >= IFNULL(taken.tick, 0)
),
line(place, text) AS (
    SELECT -1, 'group ' || number || ' ticks ' || ticks || ' records ' || records FROM book
    UNION ALL
    SELECT 256 * model + sheet,
        model || ' ' || sheet || IIF(since % 2, ' add ', ' join ') || (since / 2) FROM granted
    UNION ALL
    SELECT 16384, 'granted ' || COUNT(*) FROM granted
)
SELECT text FROM line ORDER BY place;
