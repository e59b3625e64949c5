;# stack 2300H, 23FFH
;# routine GO
;# reads HL
GO:     NOP
        PCHL
        RET
;# end
