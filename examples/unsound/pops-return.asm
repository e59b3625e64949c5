;# stack 2300H, 23FFH
;# routine LOSE
;# changes BC
LOSE:   POP  B
        PUSH B
        RET
;# end
