; Multiplies two 16-bit numbers.
;
; In:      BC and DE
; Out:     the product: its high word in DE, its low word in HL
; Changes: A, the flags, the cell COUNT
;
; For each bit of DE, the highest first, the product is doubled, and BC is added
; where the bit is 1. DE gives up its bits at the top while the product's high
; word grows into it from below, so that the two share one register pair.

BITS    EQU  16             ; in a word
RAM     EQU  2000H

        ORG  0
START:  MVI  A,BITS
        STA  COUNT
        LXI  H,0
NEXT:   DAD  H              ; the low word doubled: its top bit goes to CY
        MOV  A,E            ; DE doubled with that bit at its low end:
        RAL                 ; its own top bit goes to CY
        MOV  E,A
        MOV  A,D
        RAL
        MOV  D,A
        JNC  SKIP           ; the bit is 0
        DAD  B              ; the bit is 1: BC is added to the low word,
        JNC  SKIP
        INX  D              ; and the carry to the high word
SKIP:   LDA  COUNT
        DCR  A
        STA  COUNT
        JNZ  NEXT
        HLT

        ORG  RAM
COUNT:  DS   1              ; how many bits are left
        END
