-- A traffic sign loses its node. The validator reads no relation rows; ValidateTopologyRelation, a function of its own,
-- reports this one.
DELETE FROM :"topology".node WHERE node_id = 4;
