-- A face without its box. The validator compares boxes by ST_Equals, which is NULL here, and so finds no difference.
UPDATE :"topology".face SET mbr = NULL WHERE face_id = 5;
