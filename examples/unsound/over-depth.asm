;# stack 2300H, 23FFH
;# routine SAVE
;# depth 2
SAVE:   PUSH B
        PUSH D
        POP  D
        POP  B
        RET
;# end
