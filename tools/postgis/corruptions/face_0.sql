-- The inside of the closed edge 23 is made a part of face 0, and its own face goes: face 0 has a shell. The validator
-- asks whether a face has several shells, and compares the box of face 0, which is NULL, by ST_Equals.
UPDATE :"topology".edge_data SET left_face = 0 WHERE edge_id = 23;
DELETE FROM :"topology".face WHERE face_id = 9;
