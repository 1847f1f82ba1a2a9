-- A small city, built by PostGIS's own functions: city blocks with streets between them, islands, a dangling and an
-- isolated edge, isolated nodes, gaps in the ids; and features on it: land parcels, traffic signs, city streets,
-- streets that list an edge backwards, a parcel without faces, and big parcels that are made of land parcels.
-- Run with: psql -v topology=NAME -v features=SCHEMA -f city.sql
SELECT topology.CreateTopology(:'topology', 0, 0);

-- Two closed edges, one with a dangling edge in it and an isolated node; an isolated edge; two edges that touch.
CREATE TEMP TABLE stone (place serial, x integer, y integer);
INSERT INTO stone (x, y) VALUES (8, 30), (25, 30), (25, 35), (20, 37), (36, 38), (57, 33), (41, 40), (9, 6), (21, 6),
  (35, 6), (47, 6), (47, 14), (35, 14), (21, 14), (9, 14), (9, 22), (21, 22), (35, 22), (47, 22), (4, 31), (9, 35), (13, 35);
SELECT topology.ST_AddIsoNode(:'topology', NULL, ST_MakePoint(x, y)) FROM (SELECT * FROM stone ORDER BY place) s;

CREATE TEMP TABLE street (place serial, a integer, b integer, line text);
INSERT INTO street (a, b, line) VALUES
  (1, 1, '8 30, 16 30, 16 38, 3 38, 3 30, 8 30'),
  (2, 2, '25 30, 31 30, 31 40, 17 40, 17 30, 25 30'),
  (2, 3, '25 30, 25 35'),
  (5, 6, '36 38, 38 35, 41 34, 42 33, 45 32, 47 28, 50 28, 52 32, 57 33'),
  (7, 6, '41 40, 45 40, 47 42, 62 41, 61 38, 59 39, 57 36, 57 33'),
  (16, 17, '9 22, 21 22'), (17, 18, '21 22, 35 22'), (18, 19, '35 22, 47 22'),
  (15, 14, '9 14, 21 14'), (13, 14, '35 14, 21 14'), (13, 12, '35 14, 47 14'),
  (8, 9, '9 6, 21 6'), (9, 10, '21 6, 35 6'), (10, 11, '35 6, 47 6'),
  (8, 15, '9 6, 9 14'), (9, 14, '21 6, 21 14'), (10, 13, '35 6, 35 14'), (11, 12, '47 6, 47 14'),
  (15, 16, '9 14, 9 22'), (14, 17, '21 14, 21 22'), (13, 18, '35 14, 35 22'), (12, 19, '47 14, 47 22'),
  (20, 20, '4 31, 7 31, 7 34, 4 34, 4 31');
SELECT topology.ST_AddEdgeModFace(:'topology', a, b, ST_GeomFromText('LINESTRING(' || line || ')'))
  FROM (SELECT * FROM street ORDER BY place) s;
SELECT topology.ST_AddIsoEdge(:'topology', 21, 22, 'LINESTRING(9 35, 13 35)');

-- Gaps in the ids: a diagonal that comes and goes, a node on a street, and a street in two parts that is healed.
SELECT topology.ST_AddEdgeNewFaces(:'topology', 13, 19, 'LINESTRING(35 14, 47 22)') AS diagonal \gset
SELECT topology.ST_RemEdgeNewFace(:'topology', :diagonal);
SELECT topology.ST_ModEdgeSplit(:'topology', 7, ST_MakePoint(30, 22));
SELECT topology.ST_ModEdgeSplit(:'topology', 8, ST_MakePoint(40, 22)) AS node \gset
SELECT max(edge_id) AS part FROM :"topology".edge_data \gset
SELECT topology.ST_ModEdgeHeal(:'topology', 8, :part);

CREATE SCHEMA :"features";
CREATE TABLE :"features".land_parcels (feature_name varchar PRIMARY KEY);
CREATE TABLE :"features".traffic_signs (feature_name varchar PRIMARY KEY);
CREATE TABLE :"features".city_streets (feature_name varchar PRIMARY KEY);
CREATE TABLE :"features".big_parcels (feature_name varchar PRIMARY KEY);
SELECT topology.AddTopoGeometryColumn(:'topology', :'features', 'land_parcels', 'feature', 'POLYGON') AS parcels \gset
SELECT topology.AddTopoGeometryColumn(:'topology', :'features', 'traffic_signs', 'feature', 'POINT') AS signs \gset
SELECT topology.AddTopoGeometryColumn(:'topology', :'features', 'city_streets', 'feature', 'LINE') AS streets \gset
SELECT topology.AddTopoGeometryColumn(:'topology', :'features', 'big_parcels', 'feature', 'POLYGON', :parcels) AS big \gset

-- A parcel is given by a point in each of its faces.
CREATE FUNCTION pg_temp.faces_at(topology text, points text) RETURNS topology.TopoElementArray AS $$
  SELECT topology.TopoElementArray_Agg(ARRAY[f, 3]::topology.TopoElement) FROM (
    SELECT DISTINCT topology.GetFaceByPoint(topology, geom, 0) AS f
      FROM ST_Dump(ST_GeomFromText('MULTIPOINT(' || points || ')'))) found
$$ LANGUAGE sql;
INSERT INTO :"features".land_parcels
  SELECT name, topology.CreateTopoGeom(:'topology', 3, :parcels, pg_temp.faces_at(:'topology', points))
    FROM (VALUES ('P1', '15 10, 15 18'), ('P2', '28 10, 28 18'), ('P3', '41 10, 41 15'), ('P4', '28 37'),
                 ('P5', '10 33')) AS given (name, points);
INSERT INTO :"features".land_parcels VALUES ('P0', topology.CreateTopoGeom(:'topology', 3, :parcels));
INSERT INTO :"features".traffic_signs VALUES
  ('S1', topology.CreateTopoGeom(:'topology', 1, :signs, '{{14,1}}')),
  ('S2', topology.CreateTopoGeom(:'topology', 1, :signs, '{{13,1}}')),
  ('S3', topology.CreateTopoGeom(:'topology', 1, :signs, '{{6,1}}')),
  ('S4', topology.CreateTopoGeom(:'topology', 1, :signs, '{{4,1}}'));
INSERT INTO :"features".city_streets VALUES
  ('R1', topology.CreateTopoGeom(:'topology', 2, :streets, '{{9,2},{-10,2}}')),
  ('R2', topology.CreateTopoGeom(:'topology', 2, :streets, '{{4,2},{-5,2}}')),
  ('R3', topology.CreateTopoGeom(:'topology', 2, :streets, '{{24,2}}')),
  ('R4', topology.CreateTopoGeom(:'topology', 2, :streets, '{{3,2}}'));
INSERT INTO :"features".big_parcels
  SELECT 'P1P2', topology.CreateTopoGeom(:'topology', 3, :big,
    topology.TopoElementArray_Agg(ARRAY[id(feature), :parcels]::topology.TopoElement ORDER BY feature_name))
    FROM :"features".land_parcels WHERE feature_name IN ('P1', 'P2');
INSERT INTO :"features".big_parcels
  SELECT 'P3P4', topology.CreateTopoGeom(:'topology', 3, :big,
    topology.TopoElementArray_Agg(ARRAY[id(feature), :parcels]::topology.TopoElement ORDER BY feature_name))
    FROM :"features".land_parcels WHERE feature_name IN ('P3', 'P4');

-- Ids of TopoGeometries have gaps too, and the tables have rows by other names than ids.
DELETE FROM :"features".traffic_signs WHERE feature_name = 'S2' RETURNING topology.clearTopoGeom(feature) IS NULL;
