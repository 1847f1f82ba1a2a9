-- Reads a PostGIS topology for `export`: each row begins with a word that names its kind. Names are given in
-- hexadecimal digits, geometries as WKB in hexadecimal digits, so that every coordinate comes as it is stored.
-- Run with: psql -X -q -A -t -F <tab> -v ON_ERROR_STOP=1 -v topology=NAME -f export.sql
BEGIN ISOLATION LEVEL REPEATABLE READ READ ONLY;
SELECT 'topology', id, srid, precision, hasz FROM topology.topology WHERE name = :'topology';
SELECT 'next', 'node', last_value, is_called FROM :"topology".node_node_id_seq;
SELECT 'next', 'edge', last_value, is_called FROM :"topology".edge_data_edge_id_seq;
SELECT 'next', 'face', last_value, is_called FROM :"topology".face_face_id_seq;
SELECT 'next', 'layer', last_value, is_called FROM :"topology".layer_id_seq;
SELECT 'node', node_id, containing_face, encode(ST_AsBinary(geom, 'NDR'), 'hex')
  FROM :"topology".node ORDER BY node_id;
SELECT 'edge', edge_id, start_node, end_node, next_left_edge, next_right_edge, left_face, right_face,
       encode(ST_AsBinary(geom, 'NDR'), 'hex')
  FROM :"topology".edge_data ORDER BY edge_id;
SELECT 'face', face_id, ST_XMin(mbr), ST_YMin(mbr), ST_XMax(mbr), ST_YMax(mbr)
  FROM :"topology".face ORDER BY face_id;
SELECT 'layer', layer_id, level, child_id, feature_type, encode(convert_to(schema_name, 'UTF8'), 'hex'),
       encode(convert_to(table_name, 'UTF8'), 'hex'), encode(convert_to(feature_column, 'UTF8'), 'hex')
  FROM topology.layer
 WHERE topology_id = (SELECT id FROM topology.topology WHERE name = :'topology') ORDER BY layer_id;
SELECT 'relation', layer_id, topogeo_id, element_id, element_type
  FROM :"topology".relation ORDER BY layer_id, topogeo_id, element_type, element_id;
SELECT format('SELECT ''next_topogeo'', %s, last_value, is_called FROM %I.%I', layer_id, :'topology', 'topogeo_s_' || layer_id)
  FROM topology.layer
 WHERE topology_id = (SELECT id FROM topology.topology WHERE name = :'topology') ORDER BY layer_id
\gexec
-- A TopoGeometry without elements stands in its layer's table alone.
SELECT format('SELECT ''feature'', (%1$I).layer_id, (%1$I).id FROM %2$I.%3$I WHERE (%1$I).id IS NOT NULL ORDER BY 2, 3',
              feature_column, schema_name, table_name)
  FROM topology.layer
 WHERE topology_id = (SELECT id FROM topology.topology WHERE name = :'topology') ORDER BY layer_id
\gexec
COMMIT;
