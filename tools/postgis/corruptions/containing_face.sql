-- A node far west of a slim triangle gets the face of the triangle from PostGIS, which, as the validator does,
-- takes the face beside the nearest edge. Here two edges are at distances that are one double.
SELECT topology.ST_AddIsoNode(:'topology', NULL, ST_MakePoint(x, y)) FROM (VALUES (1, 1073741824, -549755813888),
  (2, 1073741824, 549755813888), (3, 1073741825, -549755813888)) AS stone (place, x, y) ORDER BY place;
SELECT max(node_id) - 2 AS a, max(node_id) - 1 AS b, max(node_id) AS c FROM :"topology".node \gset
SELECT topology.ST_AddEdgeModFace(:'topology', :c, :b, 'LINESTRING(1073741825 -549755813888, 1073741824 549755813888)');
SELECT topology.ST_AddEdgeModFace(:'topology', :b, :a, 'LINESTRING(1073741824 549755813888, 1073741824 -549755813888)');
SELECT topology.ST_AddEdgeModFace(:'topology', :a, :c, 'LINESTRING(1073741824 -549755813888, 1073741825 -549755813888)');
SELECT topology.ST_AddIsoNode(:'topology', NULL, ST_MakePoint(0, 549755812864));
