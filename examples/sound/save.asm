;# stack 2300H, 23FFH
;# routine WAIT
;# depth 2
;# changes FLAGS
WAIT:   PUSH B
        MVI  B,100
;# assert B >= 1
AGAIN:  DCR  B
        JNZ  AGAIN
        POP  B
        RET
;# end
