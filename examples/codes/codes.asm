; Every instruction of the 8080, in the order of its first byte. The twelve bytes that begin none are left out.

N       EQU  12H            ; stands for any byte
W       EQU  3456H          ; stands for any address or word

        NOP                 ; 00
        LXI  B,W            ; 01 56 34
        STAX B              ; 02
        INX  B              ; 03
        INR  B              ; 04
        DCR  B              ; 05
        MVI  B,N            ; 06 12
        RLC                 ; 07
        DAD  B              ; 09
        LDAX B              ; 0A
        DCX  B              ; 0B
        INR  C              ; 0C
        DCR  C              ; 0D
        MVI  C,N            ; 0E 12
        RRC                 ; 0F
        LXI  D,W            ; 11 56 34
        STAX D              ; 12
        INX  D              ; 13
        INR  D              ; 14
        DCR  D              ; 15
        MVI  D,N            ; 16 12
        RAL                 ; 17
        DAD  D              ; 19
        LDAX D              ; 1A
        DCX  D              ; 1B
        INR  E              ; 1C
        DCR  E              ; 1D
        MVI  E,N            ; 1E 12
        RAR                 ; 1F
        LXI  H,W            ; 21 56 34
        SHLD W              ; 22 56 34
        INX  H              ; 23
        INR  H              ; 24
        DCR  H              ; 25
        MVI  H,N            ; 26 12
        DAA                 ; 27
        DAD  H              ; 29
        LHLD W              ; 2A 56 34
        DCX  H              ; 2B
        INR  L              ; 2C
        DCR  L              ; 2D
        MVI  L,N            ; 2E 12
        CMA                 ; 2F
        LXI  SP,W           ; 31 56 34
        STA  W              ; 32 56 34
        INX  SP             ; 33
        INR  M              ; 34
        DCR  M              ; 35
        MVI  M,N            ; 36 12
        STC                 ; 37
        DAD  SP             ; 39
        LDA  W              ; 3A 56 34
        DCX  SP             ; 3B
        INR  A              ; 3C
        DCR  A              ; 3D
        MVI  A,N            ; 3E 12
        CMC                 ; 3F
        MOV  B,B            ; 40
        MOV  B,C            ; 41
        MOV  B,D            ; 42
        MOV  B,E            ; 43
        MOV  B,H            ; 44
        MOV  B,L            ; 45
        MOV  B,M            ; 46
        MOV  B,A            ; 47
        MOV  C,B            ; 48
        MOV  C,C            ; 49
        MOV  C,D            ; 4A
        MOV  C,E            ; 4B
        MOV  C,H            ; 4C
        MOV  C,L            ; 4D
        MOV  C,M            ; 4E
        MOV  C,A            ; 4F
        MOV  D,B            ; 50
        MOV  D,C            ; 51
        MOV  D,D            ; 52
        MOV  D,E            ; 53
        MOV  D,H            ; 54
        MOV  D,L            ; 55
        MOV  D,M            ; 56
        MOV  D,A            ; 57
        MOV  E,B            ; 58
        MOV  E,C            ; 59
        MOV  E,D            ; 5A
        MOV  E,E            ; 5B
        MOV  E,H            ; 5C
        MOV  E,L            ; 5D
        MOV  E,M            ; 5E
        MOV  E,A            ; 5F
        MOV  H,B            ; 60
        MOV  H,C            ; 61
        MOV  H,D            ; 62
        MOV  H,E            ; 63
        MOV  H,H            ; 64
        MOV  H,L            ; 65
        MOV  H,M            ; 66
        MOV  H,A            ; 67
        MOV  L,B            ; 68
        MOV  L,C            ; 69
        MOV  L,D            ; 6A
        MOV  L,E            ; 6B
        MOV  L,H            ; 6C
        MOV  L,L            ; 6D
        MOV  L,M            ; 6E
        MOV  L,A            ; 6F
        MOV  M,B            ; 70
        MOV  M,C            ; 71
        MOV  M,D            ; 72
        MOV  M,E            ; 73
        MOV  M,H            ; 74
        MOV  M,L            ; 75
        HLT                 ; 76
        MOV  M,A            ; 77
        MOV  A,B            ; 78
        MOV  A,C            ; 79
        MOV  A,D            ; 7A
        MOV  A,E            ; 7B
        MOV  A,H            ; 7C
        MOV  A,L            ; 7D
        MOV  A,M            ; 7E
        MOV  A,A            ; 7F
        ADD  B              ; 80
        ADD  C              ; 81
        ADD  D              ; 82
        ADD  E              ; 83
        ADD  H              ; 84
        ADD  L              ; 85
        ADD  M              ; 86
        ADD  A              ; 87
        ADC  B              ; 88
        ADC  C              ; 89
        ADC  D              ; 8A
        ADC  E              ; 8B
        ADC  H              ; 8C
        ADC  L              ; 8D
        ADC  M              ; 8E
        ADC  A              ; 8F
        SUB  B              ; 90
        SUB  C              ; 91
        SUB  D              ; 92
        SUB  E              ; 93
        SUB  H              ; 94
        SUB  L              ; 95
        SUB  M              ; 96
        SUB  A              ; 97
        SBB  B              ; 98
        SBB  C              ; 99
        SBB  D              ; 9A
        SBB  E              ; 9B
        SBB  H              ; 9C
        SBB  L              ; 9D
        SBB  M              ; 9E
        SBB  A              ; 9F
        ANA  B              ; A0
        ANA  C              ; A1
        ANA  D              ; A2
        ANA  E              ; A3
        ANA  H              ; A4
        ANA  L              ; A5
        ANA  M              ; A6
        ANA  A              ; A7
        XRA  B              ; A8
        XRA  C              ; A9
        XRA  D              ; AA
        XRA  E              ; AB
        XRA  H              ; AC
        XRA  L              ; AD
        XRA  M              ; AE
        XRA  A              ; AF
        ORA  B              ; B0
        ORA  C              ; B1
        ORA  D              ; B2
        ORA  E              ; B3
        ORA  H              ; B4
        ORA  L              ; B5
        ORA  M              ; B6
        ORA  A              ; B7
        CMP  B              ; B8
        CMP  C              ; B9
        CMP  D              ; BA
        CMP  E              ; BB
        CMP  H              ; BC
        CMP  L              ; BD
        CMP  M              ; BE
        CMP  A              ; BF
        RNZ                 ; C0
        POP  B              ; C1
        JNZ  W              ; C2 56 34
        JMP  W              ; C3 56 34
        CNZ  W              ; C4 56 34
        PUSH B              ; C5
        ADI  N              ; C6 12
        RST  0              ; C7
        RZ                  ; C8
        RET                 ; C9
        JZ   W              ; CA 56 34
        CZ   W              ; CC 56 34
        CALL W              ; CD 56 34
        ACI  N              ; CE 12
        RST  1              ; CF
        RNC                 ; D0
        POP  D              ; D1
        JNC  W              ; D2 56 34
        OUT  N              ; D3 12
        CNC  W              ; D4 56 34
        PUSH D              ; D5
        SUI  N              ; D6 12
        RST  2              ; D7
        RC                  ; D8
        JC   W              ; DA 56 34
        IN   N              ; DB 12
        CC   W              ; DC 56 34
        SBI  N              ; DE 12
        RST  3              ; DF
        RPO                 ; E0
        POP  H              ; E1
        JPO  W              ; E2 56 34
        XTHL                ; E3
        CPO  W              ; E4 56 34
        PUSH H              ; E5
        ANI  N              ; E6 12
        RST  4              ; E7
        RPE                 ; E8
        PCHL                ; E9
        JPE  W              ; EA 56 34
        XCHG                ; EB
        CPE  W              ; EC 56 34
        XRI  N              ; EE 12
        RST  5              ; EF
        RP                  ; F0
        POP  PSW            ; F1
        JP   W              ; F2 56 34
        DI                  ; F3
        CP   W              ; F4 56 34
        PUSH PSW            ; F5
        ORI  N              ; F6 12
        RST  6              ; F7
        RM                  ; F8
        SPHL                ; F9
        JM   W              ; FA 56 34
        EI                  ; FB
        CM   W              ; FC 56 34
        CPI  N              ; FE 12
        RST  7              ; FF
