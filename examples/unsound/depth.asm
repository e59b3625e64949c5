;# stack 2300H, 23FFH
;# routine SAVE
;# depth 2
SAVE:   PUSH B
        RET
;# end
