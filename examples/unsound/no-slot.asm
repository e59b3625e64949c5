;# stack 2300H, 23FFH
;# routine SAVE
;# depth 2
SAVE:   PUSH B
;# assert STK2 = 0
        POP  B
        RET
;# end
