; No line defines the name.
        JMP  LOPO
LOOP:   JMP  LOOP
