-- Four edges leave a node. Two of them have directions whose cross product is 1, and their azimuths are one double:
-- the validator puts them in the order of their ids, which isn't the order in which they lie about the node. The links
-- are those that PostGIS itself gives them.
SELECT topology.ST_AddIsoNode(:'topology', NULL, ST_MakePoint(x, y)) FROM (VALUES (1, 0, 50), (2, -39088169, 63246036),
  (3, -63245986, 102334205), (4, 5, 53), (5, 2, 43)) AS stone (place, x, y) ORDER BY place;
SELECT max(node_id) - 4 AS middle FROM :"topology".node \gset
SELECT topology.ST_AddEdgeModFace(:'topology', :middle, node_id, ST_MakeLine(ST_MakePoint(0, 50), geom))
  FROM (SELECT node_id, geom FROM :"topology".node WHERE node_id > :middle ORDER BY node_id) AS ends;
