;# stack 2300H, 23FFH
;# routine LOOP
;# post B = 0
;# reads B
;# changes B, FLAGS
LOOP:   DCR  B
        JNZ  LOOP
        RET
;# end
