;# stack 2300H, 23FFH
;# routine TWO
;# depth 2
TWO:    CALL SAME
        RET
;# end
;# routine SAME
;# reads B
SAME:   MOV  B,B
        RET
;# end
