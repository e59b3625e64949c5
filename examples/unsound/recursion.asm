;# stack 2300H, 23FFH
;# routine PING
;# depth 4
PING:   CALL PONG
        RET
;# end
;# routine PONG
;# depth 4
PONG:   CALL PING
        RET
;# end
