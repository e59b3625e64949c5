;# stack 2300H, 23FFH
;# routine HIGH
;# post HL * HL * HL * HL * HL * HL * HL >= 0
HIGH:   RET
;# end
